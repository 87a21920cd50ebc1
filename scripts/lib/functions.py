"""Where functions are in the text of a source file, as `rt fmt` lays it out."""

import re

# A function or a constant of an `impl` or a trait, which a check names as functions.
HEAD = r'^( *)(?:pub(?:\([^)]*\))? )?(?:final )?(?:(?:const )?(?:unsafe )?(?:extern "C" )?fn (\w+)|(?<=    )const (\w+):)'
BLOCK = r"^(?:unsafe )?impl(?:<[^{]*?>)? ([^{]*?)\s*(?:\n\s*where[^{]*)?\{|^(?:pub )?trait (\w+)"
# The first word of a line between a function's head and its body.
CLAUSE = r" *(requires|ensures|ghost|where)\b"
# A body of any type, which says nothing.
NO_BODY = "{ loop {} }"


class Unfit(Exception):
    """Says why a mutation test cannot be tried."""


def place_of(text, file, old):
    """Returns where a text is: module, type, trait and name of the function around it, or None outside of functions."""
    at = text.find(old)
    heads = list(re.finditer(HEAD, text[: at + len(old)], re.M))
    if not heads:
        return None
    end = rf"^{heads[-1][1]}\}}$" if heads[-1][2] else r";$"
    if re.search(end, text[heads[-1].start() : at], re.M):
        return None
    return place_at(text, file, heads[-1])


def place_at(text, file, head):
    """Returns where the function or the constant with this head is."""
    blocks = re.findall(BLOCK, text[: head.start()], re.M) if head[1] else []
    trait, _, of = (blocks[-1][0] or blocks[-1][1] if blocks else "").rpartition(" for ")
    return module_of(file), of, trait, head[2] or head[3]


def module_of(file):
    """Returns the module of a file, as the names of its functions begin."""
    module = re.sub(r"^src/|\.rt$", "", file).replace("/", "::")
    return "" if module in ("lib", "main") else f"{module}::"


def without_parameters(path):
    """Returns the last name of a type's or a trait's path, as a check writes it within a name. A type parameter is one
    letter."""
    last = re.sub(r"<.*", "", path.strip(), flags=re.S).split("::")[-1]
    return "Any" if re.fullmatch("[A-Z]", last) else capitals(last)


def capitals(path):
    """Returns a type or a trait as a check writes it within a name: `From<u8>` is FromU8, `&[u8]` is RefSliceU8."""
    words = re.sub(r"'\w+", "", path).replace("&", " ref ").replace("[", " slice ")
    return "".join(it[0].upper() + it[1:] for it in re.findall(r"\w+", words))


def names_of(place):
    """Returns the names by which a check may print the function of this place."""
    module, of, trait, name = place
    own = without_parameters(of)
    return {f"{module}{own}{it}::{name}" if of else f"{module}{name}" for it in (without_parameters(trait), capitals(trait))}


def function_at(place, known):
    """Returns the function of this place, by the name that a check prints."""
    module, of, _, name = place
    own = without_parameters(of)
    likely = [names_of(place), {it for it in known if it.startswith(module) and it.endswith(f"::{name}")}]
    likely += [{it for it in known if of and re.search(rf"::{own}(\+\w+)?::{name}$", it)}]
    for names in likely:
        if len(names & known) == 1:
            return [*names & known][0]
    raise Unfit(f"no name that a check prints is plainly that of {name} in {module}")


def is_at(place, function, known):
    """Returns whether the function of this place is the one that a check names so."""
    try:
        return function in names_of(place) or function == function_at(place, known)
    except Unfit:
        return False


def told_at(place, known):
    """Returns the function of this place, by the name that a check prints if that is plain, for a message."""
    try:
        return function_at(place, known) if place else "no function"
    except Unfit:
        return place[3]


def in_cycles(text, file, known):
    """Returns which functions of the text, of those known to a check, are in a cycle of calls: a line `#[cycle(NAME)]` is
    above each."""
    marked = r"^ *#\[cycle\(.*\n(?: *#\[.*\n)*\Z"
    heads = [it for it in re.finditer(HEAD, text, re.M) if re.search(marked, text[: it.start()], re.M)]
    return {function_at(place_at(text, file, it), known) for it in heads}


def body_of(text, head):
    """Returns where the body of the function with this head begins and ends, with its braces, or None if it has none."""
    indent, at, has_clauses = head[1], head.start(), False
    for line in text[at:].splitlines():
        has_clauses = has_clauses or bool(re.match(CLAUSE, line) and at > head.start())
        opens = re.search(r"\{(\})?$", line)
        if opens and (line[: opens.start()] == indent or not has_clauses):
            begin = at + opens.start()
            end = re.compile(rf"^{indent}\}}$", re.M).search(text, begin)
            return (begin, begin + 2) if opens[1] else (begin, end.end()) if end else None
        if line.endswith(";"):
            return None
        at += len(line) + 1
    return None


def without_bodies(text, file, left_out, kept):
    """Returns the text without the bodies of functions of these names. Those at a kept place keep theirs, and so do those
    that the compiler may run or must read: a `const fn`, and one that returns an `impl`."""
    parts, last = [], 0
    for head in re.finditer(HEAD, text, re.M):
        place = place_at(text, file, head)
        body = head[2] and place not in kept and names_of(place) & left_out and body_of(text, head)
        if not body or body[0] < last or "const fn" in head[0] or "-> impl" in text[head.start() : body[0]]:
            continue
        parts += [text[last : body[0]], NO_BODY]
        last = body[1]
    return "".join([*parts, text[last:]])
