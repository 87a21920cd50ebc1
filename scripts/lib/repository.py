"""What the scripts know of this repository: its crates, their mutation tests, how a crate is checked over its built
libraries, and what was built of it."""

import json
import os
import re
import shutil
import subprocess
import sys

from . import mutations

# The folder of the repository, which has this file as scripts/lib/repository.py.
TOP = os.path.abspath(f"{os.path.realpath(__file__)}/../../..")
# The commands that the gate needs beside the kit, and the Debian packages that have them.
PACKAGES = {
    "cc": "gcc",
    "gcc": "gcc",
    "g++": "g++",
    "clang": "clang",
    "clang++": "clang",
    "nm": "binutils",
    "valgrind": "valgrind",
    "pkg-config": "pkgconf",
    "cmake": "cmake",
    "cargo": "cargo",
    "cargo-clippy": "rust-clippy",
    "openssl": "openssl",
    "node": "nodejs",
}
# What a check reads of a crate.
PARTS = ("src", "specs", "proofs")
# A row of a crate's folder `runs`: what the program is given, its status, and what it prints.
TEXT = r'("(?:[^"\\]|\\.)*")'
RUN = re.compile(rf"{TEXT} = (\d+) {TEXT}")


def need(*commands):
    """Ends the script if one of these commands is missing, and names the Debian package that has it."""
    missing = [it for it in commands if not shutil.which(it)]
    if missing:
        print("".join(f"{it} is missing: apt-get install {PACKAGES[it]}\n" for it in missing) + f"0 passed, {len(missing)} failed")
        sys.exit(1)


def kit():
    """Returns the folder of the kit: the one of the page that `rt doc` names."""
    page = subprocess.run(["rt", "doc"], stdout=subprocess.PIPE, text=True, check=True).stdout.strip()
    return os.path.dirname(page)


class Crate:
    """A crate of crates.txt: its name, its folder, the libraries that it names, and whether it is a library for C."""

    def __init__(self, name, uses, is_static, libraries):
        self.name, self.uses, self.is_static = name, uses, is_static
        self.folder = f"{TOP}/crates/{name}"
        self.rlib = f"{libraries}/{name}/{name}.rlib" if libraries else f"{self.folder}/out/rlib/{name}.rlib"
        self.is_program = os.path.isfile(f"{self.folder}/src/main.rt")

    def size_of_mutations(self):
        """Returns the number of octets of the crate's mutation tests."""
        path = f"{self.folder}/mutations.txt"
        return os.path.getsize(path) if os.path.isfile(path) else 0

    def mutations(self):
        """Returns the crate's mutation tests."""
        return mutations.read(text_of(f"{self.folder}/mutations.txt")) if self.size_of_mutations() else []

    def has_tests(self):
        """Returns whether the crate has tests."""
        files = [f"{at}/{it}" for at, _, names in os.walk(f"{self.folder}/src") for it in names]
        return any("#[test]" in text_of(it) for it in files)


def text_of(path):
    with open(path, encoding="utf-8", errors="replace") as file:
        return file.read()


def crates(libraries=None):
    """Returns the crates of crates.txt by name, lowest first. Their built libraries are in this folder, without it in
    `out/`."""
    found = {}
    for line in text_of(f"{TOP}/crates.txt").splitlines():
        head, colon, uses = line.partition("#")[0].partition(":")
        if colon:
            name, *words = head.split()
            found[name] = Crate(name, uses.split(), "staticlib" in words, libraries)
    return {it: found[it] for it in sorted(found, key=lambda it: len(below(found, it)))}


def below(of, name):
    """Returns the names of the repository's libraries below a crate."""
    found = []
    for it in of[name].uses:
        if it in of:
            found += [lower for lower in [*below(of, it), it] if lower not in found]
    return found


def rattle(verb, crate, of, *flags):
    """Returns the kit's command `rattle check` or `rattle build` for a crate, over the built libraries below it. A library
    for C is checked as an ordinary library, since only a build links what it reaches."""
    root = kit()
    words = [f"{root}/bin/rattle", verb, "--crate-name", crate.name]
    words += ["src/main.rt" if crate.is_program else "src/lib.rt"]
    for name in ["std", *crate.uses]:
        words += ["--extern", f"{name}={of[name].rlib if name in of else f'{root}/rlibs/{name}.rlib'}"]
    for folder in [f"{root}/rlibs", *[os.path.dirname(of[it].rlib) for it in below(of, crate.name)]]:
        words += ["-L", f"dependency={folder}"]
    words += ["--antt-project", f"{root}/rattle/logic/antt-project.json", "--logic-built", f"{root}/logic_built"]
    words += ["--crate-type", "staticlib"] if crate.is_static and verb == "build" else []
    return [*words, *flags]


def runs(crate):
    """Returns the rows of the files in the crate's folder `runs`."""
    at = f"{crate.folder}/runs"
    lines = [line for name in sorted(os.listdir(at)) for line in text_of(f"{at}/{name}").splitlines()]
    rows = [RUN.fullmatch(it).groups() for it in lines if it and not it.startswith("#")]
    return [(json.loads(given), int(status), json.loads(said)) for given, status, said in rows]


def built(crate):
    """Returns the program of a crate as each compiler built it. The script ends if none did."""
    made = [f"{crate.folder}/out/{crate.name}{end}" for end in ("", ".by-rattle")]
    made = [it for it in made if os.access(it, os.X_OK)]
    if not made:
        print(f"the program {crate.name} is not built: run `rt run` in crates/{crate.name}\n0 passed, 1 failed")
        sys.exit(1)
    return made


def preloaded(name, folder):
    """Returns the C file of this name in scripts/ as a library in this folder, made by the kit's compiler, to be loaded
    before the C library."""
    tools, made = f"{kit()}/toolchain/bin", f"{folder}/{name}.so"
    words = [f"{tools}/clang", "--target=x86_64-unknown-linux-gnu", "-O1", "-Wall", "-Werror", "-fno-builtin", "-fPIC"]
    words += ["-shared", "-nostdlib", f"-fuse-ld={tools}/ld.lld", "-o", made, f"{TOP}/scripts/{name}.c"]
    subprocess.run(words, check=True)
    return made


def functions_in(said, crate):
    """Returns the names of the crate's functions in what a check that proved it printed."""
    return set(re.findall(rf"^fn {crate.name}::(\S+): proved$", said, re.M))
