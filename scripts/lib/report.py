"""What the steps of the gate print: their counts, and why a step failed."""

import re

# What a line says that tells of a failure, and how many lines are printed of the end of what failed.
TOLD = re.compile("NOT PROVED|FAILED|NOT REFUSED|BAD EDIT|NOT REJECTED|BAD MUTATION TEST")
LAST = 40


def count(said, status):
    """Returns how many checks of a step passed and failed, by its last line. A step that ends with another status than 0 has
    failed at least once."""
    last = re.search(r"^(\d+) passed, (\d+) failed\s*\Z", said, re.M)
    passed, failed = (int(last[1]), int(last[2])) if last else (0, 1)
    return passed, failed or int(status != 0)


def why(said):
    """Returns the lines about failures, followed by the end of the block of each crate that `rt ci` did not prove, or by the
    end of the output if there is none."""
    lines, ends, begin = said.splitlines(), [], 0
    for at, line in enumerate(lines):
        if line.startswith("== "):
            begin = at
        if re.fullmatch(r"rt: \w+(: its tests are)? NOT PROVED", line):
            ends += lines[max(begin, at + 1 - LAST) : at + 1]
    return [it for it in lines if TOLD.search(it)] + (ends or lines[-LAST:])
