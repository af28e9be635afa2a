"""profile_ir.py TOP IN OUT: takes checks at run time out of the text of LLVM's bitcode that `rt try` makes. It puts the
sources' hints on inlining in, which `rt try` leaves out."""
import glob
import os
import re
import sys

HINTS = {"always": "alwaysinline", "never": "noinline", None: "inlinehint"}
ATTRIBUTE = re.compile(r"^\s*#\[inline(?:\((\w+)\))?\]")
FUNCTION = re.compile(r"^\s*(?:pub(?:\([a-z]+\))?\s+)?(?:const\s+)?(?:unsafe\s+)?fn\s+(\w+)")
DEFINED = re.compile(r'^define [^@]*@"?([^"(]+)')


def module_of(root, path):
    """The path of a source file's module, from its crate on."""
    crate = os.path.basename(os.path.dirname(root))
    parts = os.path.relpath(path, root)[: -len(".rt")].split("/")
    if parts[-1] in ("lib", "mod", "main"):
        parts.pop()
    return "::".join([crate] + parts)


def hints_in(top):
    """The hint of each function, by its module and name: None where functions of one name have several."""
    hints = {}
    for root in glob.glob(f"{top}/crates/*/src") + glob.glob("/opt/rattle/rattle/*/src"):
        for path in glob.glob(root + "/**/*.rt", recursive=True):
            module, hint = module_of(root, path), ""
            for line in open(path):
                attribute, function = ATTRIBUTE.match(line), FUNCTION.match(line)
                if attribute:
                    hint = HINTS[attribute.group(1)]
                elif function:
                    key = (module, function.group(1))
                    hints[key] = hint if hints.get(key, hint) == hint else None
                    hint = ""
    return hints


def hint_of(hints, name):
    """The hint of a function, by its name in the bitcode."""
    parts = name.split("::<")[0].split("::")
    for length in range(len(parts) - 1, 0, -1):
        key = ("::".join(parts[:length]), parts[-1])
        if key in hints:
            return hints[key] or ""
    return ""


def is_check(line):
    """Whether a line of bitcode is a check at run time."""
    if "call " not in line:
        return False
    fills = "@llvm.memset" in line and "i8 -86" in line
    return fills or "rattle-llvm-checks::" in line or "@llvm.trap(" in line


def main():
    top, source, target = sys.argv[1:]
    hints = hints_in(top)
    with open(source) as lines, open(target, "w") as out:
        for line in lines:
            if is_check(line):
                continue
            if line.startswith("define "):
                hint = hint_of(hints, DEFINED.match(line).group(1))
                if hint:
                    line = re.sub(r" #(\d+) \{$", rf" {hint} #\1 {{", line)
            out.write(re.sub(r"\bsanitize_address\b", "", line))


main()
