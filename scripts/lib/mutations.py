"""The mutation tests of a crate, in its file mutations.txt: wrong bodies, each of which the prover must reject.

A block is a mutation test. Blank lines separate the blocks, and a line that begins with `#` is a comment:

    slices_without_carrying_the_shift
    src/bit_str.rt, BitStr::slice
    - the old text
    + the new text

The first line is the name, for the bug. The second line has the file and the function that must be rejected, as a check
names it, without its module. The old text is one line or a part of one, and is in the file once. More pairs of `-` and `+`
may follow: each changes what those above it have made.

`NAME, harmless` is a change without a meaning, which must be proved.

A line `proofs/PATH` and the lines after it that begin with `|` are a file of the proof for the changed body: what an added
function needs, or answers with the names that the changed body has, so that a clause rejects it and not a name.
"""

import re

from .functions import Unfit, is_at, module_of, place_of, told_at


class Mutation:
    """A mutation test: its name, its file, its function, its pairs of texts, and the proof files that it brings."""

    def __init__(self, lines):
        name = re.fullmatch(r"(\w+)(, harmless)?", lines[0])
        where = re.fullmatch(r"(src/\S+\.rt), (\S+)", lines[1]) if len(lines) > 1 else None
        if not name or not where:
            raise Unfit(f"a block does not begin with its name, and a file and a function: {lines[0]}")
        self.name, self.is_harmless, self.file, self.function = name[1], bool(name[2]), where[1], where[2]
        self.pairs, self.proofs = [], {}
        old = proof = None
        for line in lines[2:]:
            mark, _, text = line.partition(" ")
            if mark == "-" and old is None and text:
                old = text
            elif mark == "+" and old is not None:
                self.pairs.append((old, text))
                old = None
            elif line.startswith("proofs/"):
                proof = line
                self.proofs[proof] = ""
            elif line.startswith("|") and proof:
                self.proofs[proof] += line.removeprefix("|").removeprefix(" ") + "\n"
            else:
                raise Unfit(f"a line of {self.name} cannot be read: {line}")
        if old is not None or not self.pairs:
            raise Unfit(f"{self.name} lacks a line that begins with `+`, or both")

    def steps(self, text):
        """Yields the file's text before each pair is applied, and after the last."""
        for old, new in self.pairs:
            if text.count(old) != 1:
                raise Unfit(f"an old text is in {self.file} {text.count(old)} times, and not once: {old.strip()}")
            yield text
            text = text.replace(old, new)
        yield text

    def applied(self, text):
        """Returns the file's text with this change."""
        return [*self.steps(text)][-1]

    def places(self, text):
        """Returns where each old text is, as `place_of` does."""
        return [place_of(before, self.file, old) for before, (old, _) in zip(self.steps(text), self.pairs)]

    def function_in(self, text, known):
        """Returns the function that must be rejected, by the name among these that a check prints. An old text must be in
        it, unless one is a constant's, or is outside of functions."""
        full = f"{module_of(self.file)}{self.function}"
        named = [*({full} & known or {it for it in known if it.endswith(f"::{self.function}")})]
        places = self.places(text)
        is_free = any(not place or place[3].isupper() for place in places)
        if len(named) != 1 or not is_free and not any(is_at(place, named[0], known) for place in places):
            raise Unfit(f"its old text is not in {self.function}, but in {told_at(places[0], known)}")
        return named[0]


def read(text):
    """Returns the mutation tests of the text of a mutations.txt."""
    found = []
    for block in re.split(r"\n\s*\n", text):
        lines = [it for it in block.splitlines() if it.strip() and not it.startswith("#")]
        found += [Mutation(lines)] if lines else []
    names = [it.name for it in found]
    twice = [it for it in names if names.count(it) > 1]
    if twice:
        raise Unfit(f"two blocks are named {twice[0]}")
    return found
