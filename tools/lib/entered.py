"""Programs that note which of their functions they enter. For tools/uncalled.

Each function of a crate of this repository has a byte, and sets it to 1 when it begins. When the program ends, it appends all
these bytes to a file."""
import os
import re
import subprocess

DEFINED = re.compile(r'define .*?@(?:"([^"]+)"|([\w.$]+))\(')
# (a program with threads ends so, and not by what runs at an end)
LEAVES = re.compile(r"\s+(?:tail )?call void @_exit\(")
NOTE = 'call void @"note entered"()'
LABEL = re.compile(r'(?:"[^"]+"|[\w.$-]+):')
# In a name, the types for which a function, or a method of `impl Router<WholeTrace>`, is used.
USED_FOR = re.compile(r"::<.*|\+\w+(?=::)")
# (to write, to make the file, and to append)
HOW_OPENED = 0o1 | 0o100 | 0o2000
WORDS = (
    "--target=x86_64-unknown-linux-gnu -march=x86-64 --no-default-config -ffunction-sections -fdata-sections -fPIE -O0 "
    "-mllvm -trap-unreachable -mllvm -no-trap-after-noreturn"
).split()

# As make_bitcode, and with further words for `rt try`.
MAKE = """
. "$top/bin/lib/bitcode.sh"
mkdir "$2/try" && make_kit "$(kit_folder)" "$2" || exit
(cd "$top/crates/$1" && TMPDIR=$2/try exec "$2/kit/bin/rt" try "${@:3}" --steps 1) </dev/null >"$2/said" 2>&1
[ -e "$2/module.bc" ] || { tail -n 20 "$2/said" >&2; exit 1; }
"""

END = """
@"entered" = internal global [{count} x i8] zeroinitializer
@"entered file" = internal constant [{length} x i8] c"{file}"
@llvm.global_dtors = appending global [1 x {{ i32, ptr, ptr }}] [{{ i32, ptr, ptr }} {{ i32 65535, ptr @"note entered", ptr null }}]
declare i32 @open(ptr, i32, ...)
define internal void @"note entered"() {{
  %file = call i32 (ptr, i32, ...) @open(ptr @"entered file", i32 {how}, i32 384)
  %written = call i64 @write(i32 %file, ptr @"entered", i64 {count})
  ret void
}}
"""


class NotBuilt(Exception):
    """A program could not be built."""


class Program:
    """The program of a crate, or of its tests, in a folder. One that stands there is not built again."""

    def __init__(self, top, crate, folder, is_test=False):
        self.top, self.crate, self.is_test = top, crate, is_test
        self.name = f"{crate}.tests" if is_test else crate
        self.file = f"{folder}/{self.name}"

    # ---- building

    def build(self, room):
        """Builds it, with files in an empty folder meanwhile."""
        if os.path.exists(self.file):
            return
        words = ["--test"] if self.is_test else []
        self._run(["bash", "-c", MAKE, "", self.crate, room, *words])
        kit = self._run(["bash", "-c", '. "$top/bin/lib/bitcode.sh"; kit_folder']).strip()
        clang = [f"{kit}/toolchain/bin/clang"]
        to_text = "-S -emit-llvm -O0 -Xclang -disable-llvm-passes -o".split()
        self._run([*clang, "-x", "ir", f"{room}/module.bc", *to_text, f"{room}/plain.ll"])
        self._write_marked(f"{room}/plain.ll", f"{room}/marked.ll")
        sysroot = f"--sysroot={kit}/toolchain"
        self._run([*clang, *WORDS, sysroot, "-c", "-x", "ir", f"{room}/marked.ll", "-o", f"{room}/marked.o"])
        target = ["--target", "x86_64-unknown-linux-gnu", "--toolchain", f"{kit}/toolchain"]
        parts = f"{room}/marked.o", f"{kit}/c/libos_c.a", f"{kit}/c/liblibc_c.a"
        self._run([f"{kit}/bin/rattle-link", *target, "-o", f"{room}/linked", *parts])
        os.replace(f"{room}/linked", self.file)

    def _run(self, words):
        ran = subprocess.run(words, env={**os.environ, "top": self.top}, capture_output=True, stdin=subprocess.DEVNULL, check=False)
        if ran.returncode:
            raise NotBuilt(ran.stderr.decode(errors="replace").strip())
        return ran.stdout.decode()

    def _write_marked(self, source, target):
        """Writes the text of bitcode in which functions set their bytes, and the names of these functions."""
        crates, names, is_begun = set(os.listdir(f"{self.top}/crates")), [], False
        with open(source, encoding="utf-8") as lines, open(target, "w", encoding="utf-8") as marked:
            for line in lines:
                if is_begun:
                    store = f'  store i8 1, ptr getelementptr inbounds (i8, ptr @"entered", i64 {len(names) - 1})\n'
                    marked.write(line + store if LABEL.match(line) else store + line)
                else:
                    marked.write(f"  {NOTE}\n{line}" if LEAVES.match(line) else line)
                found = DEFINED.match(line)
                is_begun = bool(found) and (found[1] or "").split("::")[0] in crates
                if is_begun:
                    names.append(found[1])
            file = f"{self.file}.entered".encode() + b"\0"
            text = "".join(f"\\{it:02x}" for it in file)
            marked.write(END.format(count=len(names), length=len(file), file=text, how=HOW_OPENED))
        with open(f"{self.file}.names", "w", encoding="utf-8") as stream:
            stream.writelines(f"{it}\n" for it in names)

    # ---- running

    def run(self):
        """Runs it once, with its own arguments and input; or each test. Returns the names of tests that fail."""
        if not self.is_test:
            self._run_with(self._words_of("args"), f"{self.top}/crates/{self.crate}/stdin")
            return []
        listed = self._run_with(["--list"]).stdout.decode()
        tests = [name for name, _, kind in (it.rpartition(": ") for it in listed.splitlines()) if kind == "test"]
        return [it for it in tests if self._run_with([it]).returncode]

    def refuse_argument(self):
        """Runs the program with an argument that is no UTF-8, which it refuses."""
        self._run_with([b"\xff"])

    def _words_of(self, name):
        try:
            with open(f"{self.top}/crates/{self.crate}/{name}", encoding="utf-8") as stream:
                return stream.read().splitlines()
        except FileNotFoundError:
            return []

    def _run_with(self, words, source=os.devnull):
        with open(source if os.path.exists(source) else os.devnull, "rb") as stream:
            return subprocess.run([self.file, *words], stdin=stream, capture_output=True, check=False)

    # ---- what was entered

    def forget(self):
        """Forgets what earlier runs entered."""
        if os.path.exists(f"{self.file}.entered"):
            os.remove(f"{self.file}.entered")

    def entered(self):
        """The names of all functions that runs entered, without those of the types that they are used for."""
        with open(f"{self.file}.names", encoding="utf-8") as stream:
            names = stream.read().splitlines()
        all_runs = 0
        try:
            with open(f"{self.file}.entered", "rb") as stream:
                while run := stream.read(len(names)):
                    all_runs |= int.from_bytes(run, "little")
        except FileNotFoundError:
            pass
        marks = all_runs.to_bytes(len(names), "little")
        return {USED_FOR.sub("", name) for name, mark in zip(names, marks) if mark}
