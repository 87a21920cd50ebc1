"""The examples in doc comments, as the tests of a crate."""

import os
import re
import textwrap

from . import repository

# The crate that has the tests.
CRATE = "asn1_examples"
# The columns of a line as `rt fmt` lays it out.
WIDTH = 100
ITEM = re.compile(r"^ *(?:pub )?(?:const |final )?(fn|struct|enum|trait) (\w+)", re.M)
USE = re.compile(r"use ([\w:]+)::(?:\{([\w, ]+)\}|(\w+));")
OWNER = re.compile(r"^(?:impl(?:<.*?>)? (?:.* for )?|pub trait )(\w+)", re.M)


def snake(name):
    """Returns the name of a type in snake case."""
    return re.sub(r"(?<=[a-z0-9])(?=[A-Z])", "_", name).lower()


class Example:
    """An example: the item that it is of, and its lines."""

    def __init__(self, item, lines):
        self.item = item
        self.uses = [USE.fullmatch(it).groups() for it in lines if it.startswith("use ")]
        self.body = "\n".join(it for it in lines if not it.startswith("use ")).strip("\n").splitlines()

    def test(self):
        """Returns the example as a test."""
        name = "_".join([*(snake(it) for it in self.item.split("::")), "example"])
        body = "".join(f"    {it}\n" if it else "\n" for it in self.body)
        head = f"/// The example of `{self.item}`.\n#[test]\nfn {name}(rt: HostRuntime) -> Result<(), Fail> {{\n"
        return f"{head}{body}    Ok(())\n}}\n"


def read(text, crate):
    """Returns the examples of the text of a source file of a crate."""
    found, lines, begun = [], None, text.splitlines()
    for number, line in enumerate(begun):
        doc = re.fullmatch(r"( *)//[/!](?: (.*))?", line)
        if doc and doc[2] == "```" and lines is None:
            lines = []
        elif doc and doc[2] == "```":
            item, owner = ITEM.search("\n".join(begun[number:])), OWNER.findall("\n".join(begun[:number]))
            name = crate if line.startswith("//!") else f"{owner[-1]}::{item[2]}" if doc[1] else item[2]
            found.append(Example(name, lines))
            lines = None
        elif doc and lines is not None:
            lines.append(doc[2] or "")
    return found


def of_crate(crate):
    """Returns the examples of a crate."""
    files = sorted(f"{at}/{it}" for at, _, names in os.walk(f"{crate.folder}/src") for it in names if it.endswith(".rt"))
    return [it for file in files for it in read(repository.text_of(file), crate.name)]


def use(path, names):
    """Returns a `use` of names, as `rt fmt` lays it out."""
    line = f"use {path}::{{{', '.join(names)}}};" if len(names) > 1 else f"use {path}::{names[0]};"
    if len(line) <= WIDTH:
        return f"{line}\n"
    rows = textwrap.wrap(", ".join(names) + ",", WIDTH, initial_indent="    ", subsequent_indent="    ")
    return f"use {path}::{{\n" + "\n".join(rows) + "\n};\n"


def module(name, examples):
    """Returns the text of the module of a crate's examples."""
    named = {"std::test": {"Fail"}}
    for path, several, one in (it for example in examples for it in example.uses):
        named.setdefault(path, set()).update(re.findall(r"\w+", several or one))
    uses = "".join(use(path, sorted(names)) for path, names in sorted(named.items()))
    return f"//! The examples of `{name}`.\n\n{uses}\n" + "\n".join(it.test() for it in examples)


def files():
    """Returns the files of the crate of examples, by path."""
    made, names = {}, []
    for name, crate in sorted(repository.crates().items()):
        found = of_crate(crate)
        if found:
            names.append(f"{name.removeprefix('asn1_')}_examples")
            made[f"crates/{CRATE}/src/{names[-1]}.rt"] = module(name, found)
    head = "//! The examples in the doc comments of the crates, printed by `scripts/print-examples`.\n#![tactic(auto)]\n\n"
    made[f"crates/{CRATE}/src/lib.rt"] = head + "\n".join(f"#[cfg(test)]\nmod {it};" for it in names) + "\n"
    return made
