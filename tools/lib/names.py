"""What can be checked of the names and the form of the sources, for tools/docs_check."""
import glob
import os
import re

# names that had two meanings, or a second name for one thing, and are gone
GONE = ("PeerFolder", "ServedFolder", "JournalPulls", "JournalSteps", "node_laws", "journal_laws", "sync_layers", "run_and_tell", "store_calls", "worker_calls", "reader_calls",
        "link_calls", "peer_node", "node_asks", "node_recover", "hear_full", "hear_more", "hear_update", "index number", "index numbers")
# the functions of a crate that have more than seven parameters: one whose form is fixed, and those of a proof
PARAMETERS = {"proof_layers": 5, "sync_pull": 1}
# how many columns a clause of a public function may have, but where a comment above it says why: two lines
COLUMNS = 240
# how many lines the page of a crate may have
PAGE_LINES = 10

FUNCTION = re.compile(r"\bfn \w+")
PUBLIC = re.compile(r"\s*pub (?:unsafe )?fn \w+")
CLAUSE = re.compile(r"\s*(?:ensures|requires)\b")
BODY = re.compile(r"\s*\{\s*$|.*\{\}\s*$|.*;\s*$")


def closed(text, at, opens, closes):
    """Where the bracket that opens at a place is closed."""
    depth = 0
    while True:
        if text[at] in opens:
            depth += 1
        elif text[at] in closes and text[at - 1:at + 1] != "->":
            depth -= 1
        at += 1
        if depth == 0:
            return at


def parameters(text):
    """How many parameters each function has."""
    counts = []
    for found in FUNCTION.finditer(text):
        at = found.end()
        if text[at:at + 1] == "<":
            at = closed(text, at, "<", ">")
        if text[at:at + 1] != "(":
            continue
        inner = text[at + 1:closed(text, at, "([{<", ")]}>") - 1].strip()
        depth, count = 0, 1 if inner else 0
        for place, it in enumerate(inner):
            if it in "([{<":
                depth += 1
            elif it in ")]}>" and inner[place - 1:place + 1] != "->":
                depth -= 1
            elif it == "," and depth == 0 and place + 1 < len(inner):
                count += 1
        counts.append(count)
    return counts


def long_clauses(lines):
    """The lines at which clauses of public functions begin that are too long, with no comment above that says why."""
    found, at = [], 0
    while at < len(lines):
        if PUBLIC.match(lines[at]):
            at += 1
            while at < len(lines) and not BODY.match(lines[at]):
                if CLAUSE.match(lines[at]):
                    parts, begin = [lines[at].strip()], at
                    while "".join(parts).count("{") > "".join(parts).count("}") and at + 1 < len(lines):
                        at += 1
                        parts.append(lines[at].strip())
                    if len(" ".join(parts)) > COLUMNS and not lines[begin - 1].strip().startswith("// "):
                        found.append(begin + 1)
                at += 1
        at += 1
    return found


def check(root, uses):
    """What is wrong with the sources of the crates, of which each has those that it uses; and how much was looked at."""
    wrong, below, rest = [], set(), ["bepd"]
    while rest:
        name = rest.pop()
        if name not in below:
            below.add(name)
            rest.extend(it for it in uses[name] if it in uses)
    gone = re.compile(rf"\b({'|'.join(GONE)})\b")
    for crate in uses:
        if crate.startswith("proof_") == (crate in below):
            wrong.append(f"crates/{crate}: a crate begins with proof_ exactly if the program doesn't use it")
        many = 0
        for path in sorted(glob.glob(f"{glob.escape(root)}/crates/{crate}/*/**/*", recursive=True)):
            if not path.endswith((".rt", ".antt")) or f"/crates/{crate}/out/" in path:
                continue
            with open(path, encoding="utf-8") as it:
                text = it.read()
            shown = os.path.relpath(path, root)
            for found in gone.findall(text):
                wrong.append(f"{shown}: {found} is a name that is gone (docs/CHANGING.md, \"Names\")")
            if not path.endswith(".rt"):
                continue
            many += sum(it > 7 for it in parameters(text))
            wrong.extend(f"{shown}:{it}: a public clause of more than {COLUMNS} columns, and no comment above it that says why" for it in long_clauses(text.split("\n")))
            page = len(re.match(r"(?://!.*\n)*", text)[0].splitlines())
            if not page:
                wrong.append(f"{shown}: its first line doesn't say what is in it (//!)")
            if shown == f"crates/{crate}/src/lib.rt" and page > PAGE_LINES:
                wrong.append(f"{shown}: its page has {page} lines, more than {PAGE_LINES}")
        if many > PARAMETERS.get(crate, 0):
            wrong.append(f"crates/{crate}: {many} functions with more than seven parameters, more than {PARAMETERS.get(crate, 0)}")
    return wrong, 5 * len(uses)
