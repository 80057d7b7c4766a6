#!/usr/bin/env python3
"""Spells the names that this repository's specs/ and proofs/ declare as today's Rattle spells names.

usage: tools/respell.py [FOLDER]        FOLDER has crates/; it is . if it is left out

Run once, after Rattle's own port.py. Types, records and facts get upper camel case, all other
names snake case: Place-list becomes PlaceList, all-picks becomes all_picks. OTHERS has the names
that would meet another name, or that carry a name which the library changed.

In .antt files each whole name is turned, comments too; in .rt files only in `ghost` items, clauses
and comments; in .md files only between backticks. The goals and steps that Rattle names in
Answers.antt and Invariants.antt stay, and so do strings, paths of files and Rust's own names.
"""

import os
import re
import sys

# Names that the rule would give a name that stands for something else already, or an old word of the library.
OTHERS = {
    "Place-list": "PlaceListLaws",
    "Place-lists": "PlaceListsLawful",
    "place-lists": "place_lists_lawful",
    "line-length": "length_of_line",
    "total-sumBy": "total_sum_by",
}
OLD_WORDS = {"getD": "get_or", "kept-by": "filter"}

NAME = re.compile(r"[^\s(){}\[\].;,@\"«»|`:]+")
DECLARED = re.compile(
    r"^\s*(?:(?:pub|abbrev|unfoldable|record|data|ruleset|opaque)\s+)*([^\s(){}:;,.λ]+)\s+:\s"
    r"|^\s*(?:(?:pub|abbrev|unfoldable|record|data|ruleset|opaque)\s+)+([^\s(){}:;,.]+)"
    r"|\blet ([^\s(){}:;,.λ]+) (?::|=)"
)
# A head behind which a name is one that Rattle made.
MADE = re.compile(r"(?<![^\s(){}\[\];,@\"«»|`])(?:c|w|l|g|goal|Goals|Given)\.$")
# How the names of goals begin that an answers file declares.
GOALS = ("loop-", "returns-", "invariant", "decreases")


def files(root, endings):
    for folder, dirs, names in os.walk(root):
        dirs[:] = sorted(d for d in dirs if d not in ("out", ".git"))
        for name in sorted(names):
            if name.endswith(endings):
                yield os.path.join(folder, name)


def is_answers(path):
    return os.path.basename(path) in ("Answers.antt", "Invariants.antt", "Proof.antt")


def respelled(name):
    if name in OTHERS:
        return OTHERS[name]
    for old, new in OLD_WORDS.items():
        name = re.sub(rf"(?<![^-]){old}(?![^-])", new, name)
    if name[0].isupper():
        return "".join(part[:1].upper() + part[1:] for part in name.split("-"))
    return name.replace("-", "_")


def declared(root):
    """Each name with a dash that the texts declare, and its new spelling."""
    found = {}
    for path in files(os.path.join(root, "crates"), ".antt"):
        answers = is_answers(path)
        with open(path, encoding="utf-8") as f:
            lines = f.read().split("\n")
        for i, line in enumerate(lines):
            for m in DECLARED.finditer(line):
                name = m[1] or m[2] or m[3]
                if not re.fullmatch(r"[A-Za-z][A-Za-z0-9_']*(-[A-Za-z0-9_']+)+|\w+getD", name):
                    continue
                # an answer names its goal on its own line or on the next
                if answers and ("goal." in line or name.startswith(GOALS)):
                    continue
                if answers and re.match(r"\S.* : ", line) and "goal." in lines[i + 1]:
                    continue
                found[name] = respelled(name)
    for path in files(os.path.join(root, "crates"), (".antt", ".rt")):
        with open(path, encoding="utf-8") as f:
            for name in re.findall(r"\bas ([A-Za-z]+(?:-[A-Za-z]+)+)[,}]", f.read()):
                found[name] = respelled(name)
    return found


def turn(text, table, keep_made):
    def one(m):
        name = m[0]
        if name not in table:
            return name
        if keep_made and MADE.search(text[max(0, m.start() - 16) : m.start()]):
            return name
        return table[name]

    return NAME.sub(one, text)


def aligned(old, new):
    """In the lists that head the files of specs/, what a name means stays in its column."""
    olds, news = old.split("\n"), new.split("\n")
    for i, (a, b) in enumerate(zip(olds, news)):
        if b.startswith("--     ") and len(b) != len(a):
            news[i] = re.sub(r"(?<=[^\s-])(  +)", lambda m: " " * max(2, len(m[0]) + len(a) - len(b)), b, count=1)
    return "\n".join(news)


GHOST = re.compile(
    r"//[^\n]*"
    r"|\bghost use [^;]*;"
    r"|\b(?:requires|ensures)\*?(?: \w+)? \{"
    r"|\bghost \w+(?:: | = )\{"
)


def closing(text, at):
    depth = 0
    for i in range(at, len(text)):
        depth += {"{": 1, "}": -1}.get(text[i], 0)
        if depth == 0:
            return i + 1
    return len(text)


def turn_rt(text, table):
    out, at = [], 0
    while True:
        m = GHOST.search(text, at)
        if not m:
            return "".join(out) + text[at:]
        end = closing(text, m.end() - 1) if m[0].endswith("{") else m.end()
        out.append(text[at : m.start()])
        out.append(turn(text[m.start() : end], table, False))
        at = end


def turn_md(text, table, names):
    """Also the names that port.py turned in the crates, where it turns no page."""

    def one(m):
        words = turn(m[0], table, False)
        return NAME.sub(lambda n: respelled(n[0]) if "-" in n[0] and respelled(n[0]) in names else n[0], words)

    return re.sub(r"`[^`\n]+`", one, text)


def main():
    root = sys.argv[1] if len(sys.argv) > 1 else "."
    table = declared(root)
    names = set()
    for path in files(os.path.join(root, "crates"), ".antt"):
        with open(path, encoding="utf-8") as f:
            names.update(m[1] or m[2] or m[3] for m in map(DECLARED.match, f) if m)
    for path in files(root, (".antt", ".rt", ".edit", ".md")):
        with open(path, encoding="utf-8") as f:
            old = f.read()
        if path.endswith(".antt"):
            new = aligned(old, turn(old, table, is_answers(path)))
        elif path.endswith(".md"):
            new = turn_md(old, table, names)
        else:
            new = turn_rt(old, table)
        if new != old:
            with open(path, "w", encoding="utf-8") as f:
                f.write(new)
    meets = {}
    for old, new in sorted(table.items()):
        if new in meets:
            print(f"falls together: {meets[new]} and {old} as {new}")
        meets[new] = old
    print(f"respell: {len(table)} names")


if __name__ == "__main__":
    main()
