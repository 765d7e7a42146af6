#!/usr/bin/env python3
"""Spells the repository's own definitions and lemmas as today's Rattle does: words in snake case, types in camel case.

usage: tools/respell.py        at the top, once, after port.py

It reads which names the .antt files of crates/ declare, and turns them in .antt files, in clauses and imports of .rt files, in code
spans of pages and in the edits of must-fail/ and compare/teeth/. Functions of src/, labels that Rattle makes, strings, inputs and
outputs stay. Two names that would fall together stay apart: the lemma gets `_lem` (APART).
"""

import collections
import os
import re
import sys

NAME = r"[^\s(){}.;,@\"«»:`]+"
DECLARED = re.compile(r"^(\s*)(?:(?:unfoldable|abbrev|pub|data|record|mutual)\s+)*(" + NAME + r")(?:\s+" + NAME + r"|\s*\([^()]*\)|\s*\{[^{}]*\})*\s+:\s")
# The files of a function's proof: their own names are goals, which Rattle names.
OF_FUNCTION = re.compile(r"(^|/)(Proof|Answers|Invariants|Iterate|[A-Z]\w*)\.antt$")

# Names that would fall together with another name, or that the rule does not fit.
APART = {
    "in-room": "in_room_lem",
    "answer-of": "answer_of_lem",
    "visit-by": "visit_by_lem",
    "word-at": "word_at_lem",
    "computed-as": "computed_as_lem",
    "node-read": "node_read_lem",
    "part-at": "part_at_lem",
    "all-fresh": "all_fresh_lem",
    "type-wrong": "type_wrong_lem",
    "node-wrong": "node_wrong_lem",
    "vars-at": "vars_at_lem",
    "is-type": "is_type_lem",
    "in-limits": "in_limits_lem",
    "types-of": "types_of_lem",
    "reason-of": "reason_of_lem",
    "read-node": "read_node_lem",
    "fork-laid": "fork_laid_lem",
    "P-is-this-tree": "program_is_this_tree",
    "Valued-as": "ValuedAs",
    "Part-made": "PartMade",
    "Tree-made": "TreeMade",
}
# Names that port.py spelled, and that would now meet a definition: where each is.
MET = {
    "moved_as": ("moved_as_lem", ("pieces/proofs/Turns.antt",)),
    "moved_all": ("moved_all_lem", ("pieces/proofs/Snapshots.antt",)),
    "list_at": ("list_at_lem", None),
}
# What port.py turned in sources and not in edits.
OLDER = [(re.compile(r"(?<=[\w)'′]) \.(?=[a-z])"), "."), (re.compile(r"′"), "'"), (re.compile(r"\bgetD\b"), "get_or"), (re.compile(r"\bleZ\b"), "le_z"), (re.compile(r"\bltZ\b"), "lt_z")]


def files(root, *endings):
    for folder, dirs, names in os.walk(root):
        dirs[:] = sorted(d for d in dirs if d not in ("out", "target", ".git"))
        for name in sorted(names):
            if name.endswith(endings):
                yield os.path.join(folder, name)


def of_function(path):
    """Whether the file is one of a function's own: below a folder of proofs/."""
    inside = path.split("/proofs/", 1)
    return len(inside) == 2 and "/" in inside[1] and not inside[1].startswith("Laws/")


def respelled(name):
    if name in APART:
        return APART[name]
    if not name[0].islower():
        return name
    return re.sub(r"(?<=[a-z0-9])[A-Z]", lambda m: "_" + m[0].lower(), name).replace("-", "_")


def read(path):
    with open(path, encoding="utf-8") as it:
        return it.read()


def declared(root):
    """The names that the files declare, and those among them that are fields of records."""
    names, fields = set(), set()
    for path in files(root, ".antt"):
        if of_function(path):
            continue
        record = None
        for line in read(path).split("\n"):
            indent = len(line) - len(line.lstrip())
            if line.strip() and record is not None and indent <= record:
                record = None
            m = DECLARED.match(line)
            if m and not line.lstrip().startswith("--"):
                names.add(m.group(2))
                if record is not None:
                    fields.add(m.group(2))
            if re.match(r"\s*(pub )?record .*where\s*$", line):
                record = indent
    return names, fields


def turner(table, fields, kept):
    word = re.compile(r"(\.?)(" + NAME + r")")

    def one(m):
        dot, name = m.group(1), m.group(2)
        if name not in table or name in kept:
            return m.group(0)
        if dot and name not in fields:
            before = m.string[: m.start()]
            head = re.search(r"(" + NAME + r")$", before)
            if not head or not head.group(1)[0].isupper():
                return m.group(0)
        return dot + table[name]

    return lambda text: word.sub(one, text)


def turn_code(text, comment, turn):
    """Turns code, and of a comment the code spans."""
    out = []
    for line in text.split("\n"):
        at = re.search(r"(?<!\S)" + re.escape(comment), line)
        code, said = (line[: at.start()], line[at.start() :]) if at else (line, "")
        out.append(turn(code) + re.sub(r"`[^`]+`", lambda m: turn(m[0]), said))
    return "\n".join(out)


def main():
    if not os.path.isdir("crates"):
        sys.exit("respell: run it at the top of the repository")
    names, fields = declared("crates")
    table = {n: respelled(n) for n in names}
    table = {n: s for n, s in table.items() if s != n}
    fell = collections.defaultdict(set)
    for old, new in table.items():
        fell[new].add(old)
    for new, olds in sorted(fell.items()):
        if len(olds) > 1 or new in names and new not in MET:
            print("together:", new, sorted(olds))
    goals = re.compile(r"(?m)^(" + NAME + r") : (?:tie|goal)\.")
    for path in files("crates", ".antt", ".rt"):
        text = was = read(path)
        for name, (new, where) in MET.items():
            if where is None and path.endswith(".antt") or where and path.endswith(where):
                text = re.sub(r"(?<![\w'.-])" + name + r"(?![\w'-])", new, text)
        kept = set(goals.findall(text)) if of_function(path) else set()
        text = turn_code(text, "--" if path.endswith(".antt") else "//", turner(table, fields, kept))
        if text != was:
            with open(path, "w", encoding="utf-8") as it:
                it.write(text)
    turn = turner(table, fields, set())
    for path in [*files("docs", ".md"), "README.md", *files("compare", ".md")]:
        text = read(path)
        new = re.sub(r"`[^`\n]+`", lambda m: turn(m[0]), text)
        if new != text:
            with open(path, "w", encoding="utf-8") as it:
                it.write(new)
    for path in files(".", ".edit"):
        lines = read(path).split("\n")
        new = []
        for line in lines:
            if line.startswith(("old: ", "new: ")):
                label, body = line[:5], line[5:]
                for older, today in OLDER:
                    body = older.sub(today, body)
                line = label + turn(body)
            new.append(line)
        if new != lines:
            with open(path, "w", encoding="utf-8") as it:
                it.write("\n".join(new))


main()
