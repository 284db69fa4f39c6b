"""What tools/rt_ci and tools/planted/proofs read alike: which function of a crate an edit changes."""
import os
import re
from collections import namedtuple

CLAUSE = re.compile(r"\b(?:requires|ensures|ghost)\*?(?:\s+\w+\s*:?)?\s*$")

Place = namedtuple("Place", "path start end name")  # a function: its name, and the span of its text
Edit = namedtuple("Edit", "name pairs functions")  # pairs of (path, old, new); functions: empty if a pair stands in none


def read(path):
    with open(path, encoding="utf-8") as it:
        return it.read()


def masked(text):
    """The text with its comments, strings and characters blanked out."""
    def blank(found):
        return re.sub(r"[^\n]", " ", found[0])

    return re.sub(r"//[^\n]*|/\*.*?\*/|\"(?:\\.|[^\"\\])*\"|'(?:\\[^\n']+|[^\\'\n])'", blank, text, flags=re.S)


def closing(code, at):
    """The place after the brace that closes the one at this place."""
    depth = 0
    for found in re.compile(r"[{}]").finditer(code, at):
        depth += 1 if found[0] == "{" else -1
        if depth == 0:
            return found.end()
    return len(code)


def body_at(code, at):
    """The place of the brace that opens the body of the function whose signature goes on here, past its clauses, or None."""
    depth, since = 0, at
    while at < len(code):
        letter = code[at]
        depth += (letter in "([") - (letter in ")]")
        if letter == ";" and depth == 0:
            return None
        if letter == "{" and depth == 0:
            if not CLAUSE.search(code[since:at]):
                return at
            at = since = closing(code, at)
        else:
            at += 1
    return None


def plain(words):
    """A type or trait without its generics and path, as `Lone` of `crate::Lone<C>`."""
    while re.search(r"<[^<>]*>", words):
        words = re.sub(r"<[^<>]*>", "", words)
    return re.split(r"::", words.strip().lstrip("&"))[-1].strip()


def owners(code):
    """The impls and traits of a file, as the spans of their bodies with the word that stands before their methods and the type's name."""
    for found in re.finditer(r"^[ \t]*(?:pub(?:\([^)]*\))? )?(?:unsafe )?(impl|trait)\b([^{;]*)\{", code, flags=re.M):
        head = re.split(r"\bwhere\b", found[2])[0]
        if found[1] == "trait":
            word = kind = re.match(r"\s*(\w+)", head)[1]
        else:
            head = head.replace("->", "  ")
            while re.match(r"\s*<", head) and re.search(r"<[^<>]*>", head):
                head = re.sub(r"<[^<>]*>", "", head)
            of, _, kind = head.rpartition(" for ")
            kind = plain(kind)
            word = kind + plain(of)
        yield found.end() - 1, closing(code, found.end() - 1), word, kind


def functions(crate, path, text, homes={}):
    """The functions with a body of a file of src/, each with the spans of its whole text and of its body. A method has the module of its
    file, or that which is given for its type."""
    code, module = masked(text), path[len("src/") : -len(".rt")].split("/")
    module = [it for it in module if it not in ("lib", "main", "mod")]
    spans = list(owners(code))
    macros = [(it.end() - 1, closing(code, it.end() - 1)) for it in re.finditer(r"\bmacro_rules!\s*\w+\s*\{", code)]
    for found in re.finditer(r"\bfn\s+(\w+)", code):
        start = body_at(code, found.end())
        if start is None or any(a < start < b for a, b in macros):
            continue
        of = [(word, homes.get(kind) if homes.get(kind) is not None else module) for a, b, word, kind in spans if a < start < b]
        at = [*of[-1][1], *(word for word, _ in of)] if of else module
        yield Place(path, found.start(), closing(code, start), "::".join([crate, *at, found[1]])), start


def names_of(crate, folder):
    """The names by which checks call the crate's functions: a method has the module of the type or trait that it is of."""
    files, homes = [], {}
    for at, _, names in sorted(os.walk(f"{folder}/src")):
        files += [os.path.relpath(f"{at}/{it}", folder) for it in sorted(names) if it.endswith(".rt")]
    texts = {it: read(f"{folder}/{it}") for it in files}
    for path, text in texts.items():
        module = [it for it in path[len("src/") : -len(".rt")].split("/") if it not in ("lib", "main", "mod")]
        for found in re.finditer(r"\b(?:struct|enum|trait)\s+(\w+)", masked(text)):
            homes[found[1]] = None if found[1] in homes else module
    made = set()
    for path, text in texts.items():
        for it, _ in functions(crate, path, text, homes):
            made.add(it.name)
    return made


def function_at(crate, path, text, start, end):
    """The function whose body holds this span, or None."""
    if not path.startswith("src/"):
        return None
    inside = [it for it, body in functions(crate, path, text) if body < start and end <= it.end]
    return inside[-1].name if inside else None


# Edits


def pairs_of(file):
    path, old, pairs = None, None, []
    for line in read(file).split("\n"):
        if line.startswith("file: "):
            path = line[len("file: ") :].strip()
        elif line.startswith("old: "):
            old = line[len("old: ") :]
        elif line.startswith("new:") and path and old:
            pairs.append((path, old, line[len("new:") :].removeprefix(" ")))
    return pairs


def applied(folder, pairs, texts, seen=None):
    """The files as the pairs change them, on top of the changed texts; None where an old text is not there exactly once."""
    texts = dict(texts)
    for path, old, new in pairs:
        text = texts[path] if path in texts else read(f"{folder}/{path}")
        if text.count(old) != 1:
            return None
        if seen:
            at = text.index(old)
            seen(path, text, at + len(os.path.commonprefix([old, new])), at + len(old))
        texts[path] = text.replace(old, new)
    return texts if pairs else None


def name_in(known, name):
    """The name by which checks call a function: the module of a method is that of its type, whichever file it is in."""
    if name is None or name in known:
        return name
    method = "::" + "::".join(name.split("::")[-2:])
    found = [it for it in known if it.endswith(method)]
    return found[0] if len(found) == 1 else None


def read_edit(crate, folder, file, known):
    """The edit with the functions that it changes; None where it no longer fits."""
    found = []
    try:
        pairs = pairs_of(file)
        texts = applied(folder, pairs, {}, lambda *at: found.append(function_at(crate, *at)))
    except (OSError, UnicodeDecodeError):
        return None
    if texts is None:
        return None
    found = [name_in(known, it) for it in found]
    return Edit(os.path.basename(file), pairs, frozenset(found) if all(found) else frozenset())
