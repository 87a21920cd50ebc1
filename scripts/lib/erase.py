"""Takes contracts out of Rattle's sources. What is left is Rust, which needs the module `support` of
bindings/rust/asn1-messages where Rattle's library is not Rust's."""

import re

# A clause of a function; a ghost field, parameter or member; the model of a type.
CLAUSE = re.compile(r"(?:requires|ensures)\*?\s+(?:\w+\s+)?\{")
GHOST = re.compile(r"(?:pub(?:\([^)]*\))?\s+)?ghost\s+\w+\s*[:=]\s*\{|(?:unsafe )?impl(?:<[^{]*>)? Model for [^{]*\{")
MORE = re.compile(r"\s*(?:=|by)\s*\{")
INDENT = re.compile(r"[ \t]*")
# What a line begins with that is a hint to the prover.
HINTS = ("#[cycle", "#[tactic", "#![tactic", "use std::marker::Model;")
# What Rattle's library has and Rust's lacks or has otherwise, and where the module `support` has it.
MOVED = {
    "std::alloc::": "crate::support::",
    "std::borrow::CowSlice": "crate::support::CowSlice",
    "std::convert::AsSlice": "crate::support::AsSlice",
    "std::num::": "crate::support::",
    "itoa::": "crate::support::",
    "ryu::": "crate::support::",
    "json::": "crate::json::",
    "std::": "core::",
}
# An example, which is in Rattle.
FENCE = re.compile(r"(^ *//[/!] ```)(\n.*?^ *//[/!] ```$)", re.S | re.M)
DERIVED = re.compile(r"#\[derive\(([^)]*)\)\]\n")
ERROR = re.compile(
    r"#\[derive\((?P<traits>[^)]*\bError\b[^)]*)\)\]\n(?P<text>#\[error\(\"[^\"]*\"\)\]\n)?"
    r"(?P<head>pub (?:struct|enum) (?P<name>\w+)(?P<of><[^>]*>)? \{\n)(?P<body>.*?\n)\}\n",
    re.S,
)
VARIANT = re.compile(r"#\[error\(\"(?P<text>[^\"]*)\"\)\]\n\s*(?P<name>\w+)(?P<fields>\([^)]*\)|\s*\{[^}]*\})?")


def end_of_block(text, at):
    """Returns the index after the closing brace of the block that begins at an index."""
    depth = 0
    while True:
        depth += {"{": 1, "}": -1}.get(text[at], 0)
        at += 1
        if depth == 0:
            return at


def without_contracts(text):
    """Returns a source without clauses, ghost items and hints."""
    kept, at = [], 0
    while at < len(text):
        start = INDENT.match(text, at).end()
        clause, ghost = CLAUSE.match(text, start), GHOST.match(text, start)
        end = text.find("\n", at) + 1 or len(text)
        if text.startswith("ghost use", start):
            end = text.index(";", start) + 1
        elif clause or ghost:
            end = end_of_block(text, (clause or ghost).end() - 1)
            while more := MORE.match(text, end):
                end = end_of_block(text, more.end() - 1)
            if clause and text[end] == ";":
                kept[-1] = f"{kept[-1].rstrip()};\n"
            while ghost and kept and kept[-1].lstrip().startswith("///"):
                kept.pop()
            end += text[end] in ",;"
        elif not text.startswith(HINTS, start):
            kept.append(text[at:end])
        at = end + (end < len(text) and text[end - 1] != "\n" and text[end] == "\n")
    return "".join(kept)


def shown(text, fields):
    """Returns the arm's pattern and what it writes, for the text of an error with its fields."""
    text = re.sub(r"\{(\d+)", r"{_\1", text)
    used = [it for it in dict.fromkeys(re.findall(r"\{(\w+)", text))]
    if not fields:
        return "", f'f.write_str("{text}")'
    if fields.lstrip().startswith("("):
        names = [f"_{i}" for i in range(fields.count(",") + 1)]
        pattern = f"({', '.join(it if it in used else '_' for it in names)})"
    else:
        pattern = f" {{ {', '.join([*used, '..'])} }}"
    return pattern, f'write!(f, "{text}")'


def with_display(found):
    """Returns the declaration of an error type with its `Display` and `Error`, which a derive makes in Rattle."""
    name, body, of = found["name"], found["body"], found["of"] or ""
    if found["text"]:
        pattern, writes = shown(re.search(r"\"(.*)\"", found["text"])[1], "{}")
        arms = f"        let Self{pattern} = self;\n        {writes}\n"
    else:
        arms = ""
        for it in VARIANT.finditer(body):
            pattern, writes = shown(it["text"], it["fields"])
            arms += f"            Self::{it['name']}{pattern} => {writes},\n"
        arms = f"        match self {{\n{arms}        }}\n"
    traits = ", ".join(it for it in re.split(r",\s*", found["traits"]) if it != "Error")
    body = re.sub(r" *#\[error\(\"[^\"]*\"\)\]\n", "", body)
    return (
        f"#[derive({traits})]\n{found['head']}{body}}}\n\nimpl{of} core::fmt::Display for {name}{of} {{\n"
        f"    fn fmt(&self, f: &mut core::fmt::Formatter<'_>) -> core::fmt::Result {{\n{arms}    }}\n}}\n\n"
        f"impl{of} core::error::Error for {name}{of} {{}}\n"
    )


def as_rust(text, crate, crates):
    """Returns a source of a crate as a module of one crate of Rust, which has all these crates as modules."""
    text = without_contracts(text)
    text = re.sub(r"^use thiserror::Error;\n", "", text, flags=re.M)
    text = ERROR.sub(with_display, text)
    text = DERIVED.sub(lambda it: derived(re.split(r",\s*", it[1])), text)
    text = re.sub(r"<W: fmt::Write>|, W: fmt::Write(?=>)", "", text).replace("fmt::Formatter<W>", "fmt::Formatter<'_>")
    text = re.sub(r": Drop(?=[,>])| \+ Drop\b", "", text)
    text = re.sub(r"impl(<[^>]*>)? Clone for (.*?\{\s*(?:///[^\n]*\s*)*fn clone\(&self\) -> Result<)", r"impl\1 crate::support::Copied for \2", text)
    text = re.sub(r"(?<![\w:])crate::(?!support::|json::)", f"crate::{crate}::", text)
    text = re.sub(rf"(?<![\w:])({'|'.join(crates)})::", r"crate::\1::", text).replace("crate::crate::", "crate::")
    text = text.replace("pub(crate)", f"pub(in crate::{crate})")
    for old, new in MOVED.items():
        text = re.sub(rf"(?<![\w:]){old}", new, text)
    text = FENCE.sub(r"\1ignore\2", text)
    head = re.match(r"(?://!.*\n)*", text).end()
    return f"{text[:head]}\n#[allow(unused_imports)]\nuse crate::support::*;\n{text[head:]}"


def derived(traits):
    """Returns the attribute that derives these traits, but for `Drop`, which Rust has without it."""
    kept = [it for it in traits if it and it != "Drop"]
    return f"#[derive({', '.join(kept)})]\n" if kept else ""
