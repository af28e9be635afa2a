"""The messages of go-libp2p-pubsub's `trace.proto`, by the names and numbers of their fields, and protobuf's own reader of
their JSON."""
from google.protobuf import descriptor_pb2, descriptor_pool, json_format, message_factory

FIELD = descriptor_pb2.FieldDescriptorProto
TYPES = {"bytes": FIELD.TYPE_BYTES, "string": FIELD.TYPE_STRING, "bool": FIELD.TYPE_BOOL, "int64": FIELD.TYPE_INT64}
PACKAGE = "pubsub.pb"
KINDS = (
    "PUBLISH_MESSAGE REJECT_MESSAGE DUPLICATE_MESSAGE DELIVER_MESSAGE ADD_PEER REMOVE_PEER RECV_RPC SEND_RPC DROP_RPC JOIN "
    "LEAVE GRAFT PRUNE"
).split()
# Each message with its fields in the order of their numbers: name and type; `*` stands where a field is repeated.
MESSAGES = {
    "TraceEvent": "type:Type peerID:bytes timestamp:int64 publishMessage:PublishMessage rejectMessage:RejectMessage "
    "duplicateMessage:DuplicateMessage deliverMessage:DeliverMessage addPeer:AddPeer removePeer:RemovePeer recvRPC:RecvRPC "
    "sendRPC:SendRPC dropRPC:DropRPC join:Join leave:Leave graft:Graft prune:Prune",
    "PublishMessage": "messageID:bytes topic:string",
    "RejectMessage": "messageID:bytes receivedFrom:bytes reason:string topic:string",
    "DuplicateMessage": "messageID:bytes receivedFrom:bytes topic:string",
    "DeliverMessage": "messageID:bytes topic:string receivedFrom:bytes",
    "AddPeer": "peerID:bytes proto:string",
    "RemovePeer": "peerID:bytes",
    "RecvRPC": "receivedFrom:bytes meta:RPCMeta",
    "SendRPC": "sendTo:bytes meta:RPCMeta",
    "DropRPC": "sendTo:bytes meta:RPCMeta",
    "Join": "topic:string",
    "Leave": "-:- topic:string",
    "Graft": "peerID:bytes topic:string",
    "Prune": "peerID:bytes topic:string",
    "RPCMeta": "messages:*MessageMeta subscription:*SubMeta control:ControlMeta",
    "MessageMeta": "messageID:bytes topic:string",
    "SubMeta": "subscribe:bool topic:string",
    "ControlMeta": "ihave:*ControlIHaveMeta iwant:*ControlIWantMeta graft:*ControlGraftMeta prune:*ControlPruneMeta",
    "ControlIHaveMeta": "topic:string messageIDs:*bytes",
    "ControlIWantMeta": "messageIDs:*bytes",
    "ControlGraftMeta": "topic:string",
    "ControlPruneMeta": "topic:string peers:*bytes",
}


def add_field(message, number, name, kind):
    field = message.field.add(name=name, json_name=name, number=number)
    field.label = FIELD.LABEL_REPEATED if kind.startswith("*") else FIELD.LABEL_OPTIONAL
    kind = kind.lstrip("*")
    if kind in TYPES:
        field.type = TYPES[kind]
    else:
        field.type = FIELD.TYPE_ENUM if kind == "Type" else FIELD.TYPE_MESSAGE
        field.type_name = f".{PACKAGE}.TraceEvent.Type" if kind == "Type" else f".{PACKAGE}.{kind}"


def made():
    file = descriptor_pb2.FileDescriptorProto(name="trace.proto", package=PACKAGE, syntax="proto2")
    for name, fields in MESSAGES.items():
        message = file.message_type.add(name=name)
        for number, it in enumerate(fields.split(), 1):
            if it != "-:-":
                add_field(message, number, *it.split(":"))
    kinds = file.message_type[0].enum_type.add(name="Type")
    for number, kind in enumerate(KINDS):
        kinds.value.add(name=kind, number=number)
    pool = descriptor_pool.DescriptorPool()
    pool.Add(file)
    descriptor = pool.FindMessageTypeByName(f"{PACKAGE}.TraceEvent")
    if hasattr(message_factory, "GetMessageClass"):
        return message_factory.GetMessageClass(descriptor)
    return message_factory.MessageFactory(pool).GetPrototype(descriptor)


TraceEvent = made()


def parsed(line):
    """The event of a line of JSON."""
    return json_format.Parse(line, TraceEvent())
