"""Makes a copy of the project in which nothing is proved: its rt is a stub, which writes down where and how it was called.

The programs that dist/ has there, and that the stub builds, only say where they are from, and the archives have one symbol that does.
"""

import hashlib
import os
import re
import shutil

from calls import EXAMPLE, ROOT, Did, call, environment, header_version, hold, read, write

PARTS = ["crates", "crates.txt", "dist", "include", "models", "library", "reduce", "release", "test"]
DIST = "dist/x86_64-linux"
SOURCE = "crates/table/src/lib.rt"  # is changed where any source would do
PROVER = "stub 1"
GATE = """\
rt: table proved
rt: ok; handles allowed: none; must-fail edits: 3 refused; every proof and must-fail edit was done in this run
4 passed, 0 failed
"""
SAID = """\
rt: chose --jobs 2 for table
fn table::read::read_all: proved
logic=proved functions=1
rt: chose to run the two checks side by side
logic=proved tests=1 functions=2
fn clocks::region::Region::delay: proved
crate clocks: modules loaded=1 checked=0
logic=proved functions=1
rt: chose --jobs 2 for rounding
logic=proved functions=0
"""
STUB = """\
#!/bin/sh
here=${0%/*}
echo "${PWD##*/}: $*" >>"$here/calls"
case $1 in
  version)
    cat "$here/version"
    exit
    ;;
  ci)
    cat "$here/gate"
    exit "$(cat "$here/ends")"
    ;;
esac
cat <<'END'
SAID
END
if [ "$(cat "$here/fails")" = "$1" ]; then
  printf 'rt: the stub fails' >&2
  case $1 in check | verdict) ;; *) echo >&2 ;; esac # a proof that fails leaves its last line without an end
  exit 1
fi
if [ -e "$here/meanwhile" ]; then echo "// meanwhile" >>"$here/../project/SOURCE"; fi
case $1 in
  run) made=reduce ;;
  lib) made=libterkwabu.a ;;
  *) exit ;;
esac
mkdir -p out
if [ -e "$here/$made" ]; then cp "$here/$made" "out/$made"; fi
if [ "$1" = run ]; then echo "refused 2 place 0"; fi
""".replace("SOURCE", SOURCE).replace("SAID\n", SAID)


def program(place):
    """Makes a program that says where it is from."""
    return f"#!/bin/sh\ncat >/dev/null\necho 'the program of {place}'\n".encode()


def archive(place):
    """Makes an archive with a symbol that says where it is from."""
    write("place.c", f"int of_{place}(void) {{ return 1; }}\n".encode())
    for words in ["gcc", "-c", "-o", "place.o", "place.c"], ["ar", "rcs", f"{place}.a", "place.o"]:
        hold(str(words), call(words), Did(0, b"", ""))
    return read(f"{place}.a")


def leave_out(folder, names):
    """Leaves out what rt made in a crate."""
    return [name for name in names if name == "out" and os.path.dirname(folder) == os.path.join(ROOT, "crates")]


def digest(data):
    """Finds a SHA-256."""
    return hashlib.sha256(data).hexdigest()


class Project:
    """Is the copy, in the current folder, with the stub first on its PATH."""

    def __init__(self):
        self.root = os.path.abspath("project")
        self.stub = os.path.abspath("stub")
        self.path = f"{self.stub}{os.pathsep}{os.environ['PATH']}"
        self.archives = {place: archive(place) for place in ("dist", "build")}
        os.mkdir(self.root)
        for name in PARTS:
            if os.path.isdir(os.path.join(ROOT, name)):
                shutil.copytree(os.path.join(ROOT, name), self.at(name), ignore=leave_out)
            else:
                shutil.copy2(os.path.join(ROOT, name), self.at(name))

    # Files.

    def at(self, name):
        """Finds a file of the copy."""
        return os.path.join(self.root, name)

    def made(self):
        """Finds the folders in which rt keeps what it makes."""
        return [self.at(f"crates/{name}/out") for name in os.listdir(self.at("crates"))]

    def put(self, name, data, mode=0o644):
        """Writes a file of the copy."""
        os.makedirs(os.path.dirname(self.at(name)), exist_ok=True)
        write(self.at(name), data, mode)

    def begin_anew(self):
        """Takes away what was built, and makes dist/ of the sources as they are."""
        for folder in self.at("build"), *self.made(), self.stub:
            shutil.rmtree(folder, ignore_errors=True)
        os.mkdir(self.stub)
        self.tell_stub("rt", STUB)
        self.tell_stub("rustc", "#!/bin/sh\nexit 1\n")  # is looked for by ./test, and never called
        self.tell_stub("version", PROVER + "\n")
        self.tell_stub("calls")
        self.tell_stub("fails")
        self.tell_stub("gate", GATE)
        self.tell_stub("ends", "0")
        self.tell_stub("reduce", program("build"))
        self.tell_stub("libterkwabu.a", self.archives["build"])
        self.put(f"{DIST}/reduce", program("dist"), 0o755)
        self.put(f"{DIST}/libterkwabu.a", self.archives["dist"])
        self.put("dist/MANIFEST", self.manifest("dist"))

    def tell_stub(self, name, data=b""):
        """Writes a file that the stub looks at: what it builds, the word with which it fails, what `rt ci` does, whether a source changes."""
        write(os.path.join(self.stub, name), data.encode() if isinstance(data, str) else data, 0o755)

    # Digests.

    def sources(self):
        """Finds the digest of the sources, as dist/proved.bash describes it."""
        names = ["crates.txt"]
        for crate in os.listdir(self.at("crates")):
            for part in "src", "specs", "proofs":
                for folder, _, files in os.walk(self.at(f"crates/{crate}/{part}")):
                    found = (os.path.join(folder, name) for name in files if name.endswith((".rt", ".antt")))
                    names += [os.path.relpath(name, self.root) for name in found]
        names.sort(key=os.fsencode)
        return digest("".join(f"{digest(read(self.at(name)))}  {name}\n" for name in names).encode())

    def manifest(self, place):
        """Makes the manifest of dist/ where it has the program and the archive of this place."""
        files = f"sha256 libterkwabu.a {digest(self.archives[place])}\nsha256 reduce {digest(program(place))}\n"
        return f"version {header_version(self.root)}\nsources {self.sources()}\nprover {PROVER}\n{files}".encode()

    # Calls.

    def call(self, name, *words, path=None):
        """Calls a script of the copy. Seconds, which nobody knows before, become N."""
        did = call([self.at(name), *words], EXAMPLE, cwd=self.root, env=environment(PATH=path or self.path))
        return did._replace(message=re.sub(r"; \d+ s so far", "; N s so far", did.message))

    def called(self):
        """Tells in which folders and how rt was called since this was last asked."""
        calls = read(os.path.join(self.stub, "calls")).decode().splitlines()
        self.tell_stub("calls")
        return calls

    def hold_reduce(self, what, place, calls, *words, message=""):
        """Holds ./reduce to the program that it runs, and to how it calls rt."""
        did = self.call("reduce", *words)
        wanted = Did(0, f"the program of {place}\n".encode(), message)
        hold(f"./reduce, {what}", (did, self.called()), (wanted, calls))

    def hold_library(self, what, place, calls, *words, message=""):
        """Holds ./library to what it leaves in build/, and to how it calls rt."""
        did = self.call("library", *words)
        wanted = Did(0, b"build/libterkwabu.a\nbuild/libterkwabu.so\n", message)
        hold(f"./library, {what}", (did, self.called()), (wanted, calls))
        hold(f"./library, {what}: the archive", read(self.at("build/libterkwabu.a")), self.archives[place])
        symbols = re.findall(rb"\0of_(\w+)", read(self.at("build/libterkwabu.so")))
        hold(f"./library, {what}: the shared library", set(symbols), {place.encode()})

    def hold_failure(self, what, name, status, message, calls, *words, path=None):
        """Holds a script to how it fails, and to how it calls rt."""
        did = self.call(name, *words, path=path)
        hold(f"./{name}, {what}", (did, self.called()), (Did(status, b"", message), calls))
