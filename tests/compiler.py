"""The words by which rt calls the kit's compiler, for what rt has no command for.

compiler.py ready NAME              proves the libraries below a crate
compiler.py check NAME              proves a crate from nothing, over them
compiler.py staticlib NAME ARCHIVE  the same, and makes its static library

Those libraries are the ones that `rt ci` has just left in crates/*/out, or else those that `rt lib` makes.
"""
import os
import re
import shutil
import subprocess
import sys

ROOT = os.path.dirname(os.path.dirname(os.path.abspath(__file__)))
KIT = os.path.dirname(os.path.dirname(os.path.realpath(shutil.which("rt") or "rt")))


class Crate:
    """A line of crates.txt: its name, whether it is a static library, and the libraries that it names."""

    def __init__(self, name, is_static, uses):
        self.name, self.is_static, self.uses = name, is_static, uses
        self.folder = f"{ROOT}/crates/{name}"
        self.is_program = os.path.isfile(f"{self.folder}/src/main.rt")
        self.root = f"{self.folder}/src/{'main' if self.is_program else 'lib'}.rt"
        self.rlib = f"{self.folder}/out/rlib/{name}.rlib"

    def is_library(self):
        return not self.is_program and not self.is_static


def crates():
    """The crates by name, as crates.txt lists them."""
    found = {}
    with open(f"{ROOT}/crates.txt", encoding="utf-8") as lines:
        for line in lines:
            words = re.match(r"([a-z0-9_]+)( +staticlib)?:([^#]*)", line)
            if words:
                found[words[1]] = Crate(words[1], bool(words[2]), words[3].split())
    return found


def below(name, among):
    """The names of the repository's libraries below a crate, each after those that it uses."""
    if name not in among:
        sys.exit(f"crates.txt lists no crate {name}")
    found = []
    for it in among[name].uses:
        if it in among:
            found += [low for low in [*below(it, among), it] if low not in found]
    return found


def uses_of(library):
    """The kit's libraries that one of them uses."""
    with open(f"{KIT}/rlibs/{library}.rlib/format", encoding="utf-8") as lines:
        return re.findall(r"^dep (\w+)$", lines.read(), re.M)


def built(name, among):
    """The words for a crate over the libraries that are built."""
    crate, low = among[name], below(name, among)
    words = ["--crate-name", name, os.path.relpath(crate.root, crate.folder)]
    for it in ["std", *[it for it in crate.uses if it not in among]]:
        words += ["--extern", f"{it}={KIT}/rlibs/{it}.rlib"]
    words += ["-L", f"dependency={KIT}/rlibs"]
    for it in crate.uses:
        if it in among:
            words += ["--extern", f"{it}={among[it].rlib}"]
    for it in low:
        words += ["-L", f"dependency={os.path.dirname(among[it].rlib)}"]
    words += ["--antt-project", f"{KIT}/rattle/logic/antt-project.json"]
    return [*words, "--logic-built", f"{KIT}/logic_built", "--links", f"{name}="]


def sources(name, among):
    """The words for a crate with each library below it, the kit's too, as source."""
    low = below(name, among)
    words = ["--crate-name", name, among[name].root]
    for it in low:
        words += ["--lib", f"{it}:{','.join(dict.fromkeys(['core', 'std', *among[it].uses]))}={among[it].folder}/src/lib.rt"]
    kit = ["std", *[use for it in [name, *low] for use in among[it].uses if use not in among]]
    kit = list(dict.fromkeys(kit))
    for it in kit:
        kit += [use for use in uses_of(it) if use not in kit]
        folder = "examples/check" if it == "check" else it
        words += ["--lib", f"{it}:{','.join(uses_of(it))}={KIT}/rattle/{folder}/src/lib.rt"]
    return words


def is_of_this_ci(crate):
    """Whether a library is one that `rt ci` left, which writes no stamp, and none of the crate's files is newer."""
    if os.path.isfile(f"{crate.folder}/out/rlib/stamp") or not os.path.isfile(f"{crate.rlib}/toolchain/mir.json"):
        return False
    made = os.stat(f"{crate.rlib}/toolchain").st_mtime
    walked = [at for part in ("src", "specs", "proofs") for at in os.walk(f"{crate.folder}/{part}")]
    return all(os.stat(f"{at}/{it}").st_mtime < made for at, _, files in walked for it in files)


def prove(name, among):
    """Has the libraries below a crate, and the crate's own if it is one, proved and built, unless `rt ci` has just done it."""
    low = [it for it in [*map(among.get, below(name, among)), among[name]] if it.is_library()]
    if all(map(is_of_this_ci, low)):
        return
    for it in low:
        how = {"cwd": it.folder, "stdin": subprocess.DEVNULL, "stdout": sys.stderr, "stderr": sys.stderr}
        if subprocess.run(["rt", "lib"], **how).returncode:
            sys.exit(f"{it.name} is not proved")


def rattle(verb, name, among, *more, out=None):
    """Runs the compiler in the crate's folder. What it says goes to standard output, or to out."""
    words = [f"{KIT}/bin/rattle", verb, *built(name, among), *more]
    how = {"cwd": among[name].folder, "stdin": subprocess.DEVNULL, "stdout": out, "stderr": subprocess.STDOUT}
    return subprocess.run(words, **how).returncode


def main(verb, name, *to):
    among = crates()
    prove(name, among)
    if verb == "ready" and not to:
        return 0
    if verb == "check" and not to:
        more = ["--crate-type", "staticlib"] if among[name].is_static else []
        return rattle("check", name, among, *more)
    if verb == "staticlib" and len(to) == 1:
        more = ["--crate-type", "staticlib", "--toolchain", f"{KIT}/toolchain", "--backend", "llvm", "-o", os.path.abspath(to[0])]
        return rattle("build", name, among, *more)
    sys.exit(__doc__)


if __name__ == "__main__":
    sys.exit(main(*sys.argv[1:]) if len(sys.argv) > 2 else __doc__)
