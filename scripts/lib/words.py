"""Words that documents of this field do not use in this meaning, and where to look for them."""

import re

# The words, and what the field uses.
WORDS = {
    r"spell(?:s|ing|ings|ed)?": "encode, encoding",
    r"refus(?:e|es|ed|al|als|ing)": "return an error, reject",
    r"what is wrong": "fault",
    r"wants? of memory": "out of memory",
    r"asks? for(?: no)? memory": "allocate",
    r"behind": "after",
    r"in front": "before",
    r"stands?": "is, is in, depends on",
    r"(?:is|are|be) wanting": "is missing, out of memory",
    r"in(?: the)? place of": "instead of",
    r"goes? past|gone past": "skip",
    r"pass(?:es|ed)? on": "re-export",
    r"ha[sd] to|have to": "must",
    r"(?<=[,;] )else|(?<=\band )else|(?<=\bor )else": "otherwise",
    r"as before": "unchanged",
    r"fewest": "minimal",
    r"passes(?= {3,}| \d)": "exceed",
    r"edits?": "mutation test",
    r"composed of parts": "combinator",
    r"mended|dearest|let go|owes|in the mean|reckons": "fix, most expensive, drop, must satisfy, on average, estimate",
    r"gives?(?! up)|gave": "return, assign, make",
    r"(?:the|its|their|each|a) places?": "index, offset",
    r"conditions?": "precondition",
    r"(?:is|are|be)(?: not)? there": "is present, exists",
    r"so many|so often": "the number by its name",
    r"looks? (?:at|into)|looked (?:at|into)": "examine",
    r"whatever memory": "even if out of memory",
    r"(?:is|are) wrong": "is invalid",
    r"by halves": "binary search",
    r"truth values?": "Boolean",
    r"lends?|lent": "borrow",
    r"hands? back|handed back|comes? back": "return",
    r"without a sign|with a sign": "unsigned, signed",
}
# How a line of a comment begins, by the end of the file's name.
COMMENTS = {
    ".rt": r"//[/!]?",
    ".rs": r"//[/!]?",
    ".antt": r"--",
    ".c": r"/?\*|//",
    ".cpp": r"/?\*|//",
    ".h": r"/?\*|//",
}
# The same in a script of Python, bash or Erlang, whose strings in three quotes are comments too.
SCRIPT = r"#|%%"
# Code in a comment: between backticks, and in C what a pointer leads to.
CODE = r"`[^`\n]*`|\*\w+|\w+->\w+"
# The first line of a mutation test, which is its name.
NAME = r"^(\w+)(?:, harmless)?$"


def prose_of(path, text):
    """Returns the comments of a source file, or the names of mutation tests, each on its line. The other lines are empty."""
    kind = next((it for end, it in COMMENTS.items() if path.endswith(end)), SCRIPT if path.startswith("scripts/") else None)
    if path.endswith("mutations.txt"):
        lines = [re.fullmatch(NAME, line) for line in text.splitlines()]
        return "\n".join(it[1].replace("_", " ") if it else "" for it in lines)
    if kind == SCRIPT:
        text = re.sub(r'"""(.*?)"""', lambda it: "\n".join(f"# {line}" for line in it[1].split("\n")), text, flags=re.S)
    lines = [re.match(rf"\s*(?:{kind})(.*)", line) for line in text.splitlines()] if kind else []
    return "\n".join(it[1] if it else "" for it in lines)


def found_in(path, prose):
    """Each of the words in the prose of a file: where it begins, the word, and what the field uses."""
    bare = re.sub(CODE, lambda it: " " * len(it[0]), prose)
    for word, better in WORDS.items():
        wrapped = re.sub(r"(?<=[a-z)?:]) (?=[a-z(])", r"(?: |\\n *)", word)
        for found in re.finditer(rf"(?<![\w-])(?:{wrapped})(?![\w-])", bare, re.IGNORECASE):
            yield found.start(), " ".join(found[0].split()), better
