"""Packages that only tests use: networkx, and protobuf's own library, which reads and writes RPCs as wire.py does."""
import functools
import importlib
import sys

from scenario.fault import Missing
from scenario.wire import FIELDS

# Where Debian has the packages of its own Python, which another one on the path doesn't look into.
DEBIAN = "/usr/lib/python3/dist-packages"


def module(name, package):
    """A module of a Debian package, where that is installed."""
    try:
        return importlib.import_module(name)
    except ModuleNotFoundError:
        sys.path.append(DEBIAN)
    try:
        return importlib.import_module(name)
    except ModuleNotFoundError:
        why = f"{package} is not installed: apt-get update && apt-get install -y {package}"
        raise Missing(f"{why} brings it, and only tests need it") from None
    finally:
        sys.path.remove(DEBIAN)


def describe(file, name, fields):
    """Adds a message to a file of protobuf's."""
    message = file.message_type.add(name=name)
    for label, kind, name_of, number in fields:
        field = message.field.add(name=name_of, number=int(number))
        field.label = field.LABEL_REPEATED if label == "repeated" else field.LABEL_OPTIONAL
        if kind in FIELDS:
            field.type, field.type_name = field.TYPE_MESSAGE, f".pubsub.pb.{kind}"
        else:
            field.type = {"bool": field.TYPE_BOOL, "bytes": field.TYPE_BYTES, "uint64": field.TYPE_UINT64}[kind]


@functools.lru_cache(maxsize=None)
def rpc_class():
    """Protobuf's class of an RPC."""
    package = "python3-protobuf"
    descriptors = module("google.protobuf.descriptor_pb2", package)
    pools = module("google.protobuf.descriptor_pool", package)
    factories = module("google.protobuf.message_factory", package)
    file = descriptors.FileDescriptorProto(name="rpc.proto", package="pubsub.pb", syntax="proto2")
    for name, fields in FIELDS.items():
        describe(file, name, fields)
    pool = pools.DescriptorPool()
    pool.Add(file)
    found = pool.FindMessageTypeByName("pubsub.pb.RPC")
    if hasattr(factories, "GetMessageClass"):
        return factories.GetMessageClass(found)
    return factories.MessageFactory(pool).GetPrototype(found)


def fill(message, parts):
    """Gives a message its fields: a dict has those of a message, a list those of a repeated one."""
    for name, value in parts.items():
        if isinstance(value, dict):
            field = getattr(message, name)
            field.SetInParent()
            fill(field, value)
        elif isinstance(value, list):
            for it in value:
                if isinstance(it, dict):
                    fill(getattr(message, name).add(), it)
                else:
                    getattr(message, name).append(it)
        else:
            setattr(message, name, value)


def by_protobuf(parts):
    """The encoding of an RPC, as protobuf's library writes it."""
    rpc = rpc_class()()
    fill(rpc, parts)
    return rpc.SerializeToString(deterministic=True)
