#!/usr/bin/env python3
"""Brings this repository's own names in definitions, theorems and lemmas to the spelling of today's Rattle: snake case for words, a
dash only between two names (docs/PORT.md says when it ran).

usage: tools/respell.py          rewrites crates/, tests/definitions and the names that docs/ has between backticks
       tools/respell.py --list   prints OLD NEW for each name

It reads the names that specs/ and proofs/*.antt declare. Functions of src/, exported names, strings, inputs and outputs stay.
"""

import os
import re
import subprocess
import sys

ROOT = subprocess.run(["git", "rev-parse", "--show-toplevel"], capture_output=True, text=True, check=True).stdout.strip()
# Characters of a name in antt; a dot ends one.
NAME = re.compile(r"[\w'◌+\-−∈⊆]+(?:[\w'◌])|\w")
DECLARED = re.compile(r"^\s*(?:abbrev |unfoldable )?(?:pub )?(?:abbrev |unfoldable )?(?:pub )?([a-z][\w'-]*(?:\s+[a-z][\w'-]*)*)\s*:(?:\s|$)")
# Words of the library that a lemma's name may begin with, joined to the name that it speaks of by a dash.
HEADS = {"length", "take", "drop", "get_or", "set", "map", "reverse", "replicate"}
CAMEL = re.compile(r"^[a-z][a-z0-9]*[A-Z]")


def files(folder, ends):
    for d, ds, fs in os.walk(os.path.join(ROOT, folder)):
        ds[:] = sorted(x for x in ds if x not in ("out", "target"))
        for f in sorted(fs):
            if f.endswith(ends):
                yield os.path.join(d, f)


def read(p):
    with open(p, encoding="utf-8") as f:
        return f.read()


def snake(word):
    return re.sub(r"(?<=[a-z0-9])([A-Z])", lambda m: "_" + m.group(1).lower(), word.replace("getD", "get_or"))


def is_lemma_file(p):
    parts = os.path.relpath(p, ROOT).split(os.sep)  # crates NAME proofs FILE
    return parts[2] == "specs" or (parts[2] == "proofs" and len(parts) == 4)


def declared():
    names, words = set(), set()
    for p in files("crates", ".antt"):
        if not is_lemma_file(p):
            continue
        for line in read(p).split("\n"):
            m = DECLARED.match(line.split("--")[0] if not re.match(r"\s*\S*--", line) else line)
            if m:
                for n in m.group(1).split():
                    names.add(n)
                    if "/specs/" in p:
                        words.add(n)
    return names, words


def new_name(n, words):
    if "-" not in n:
        return snake(n)
    parts = [snake(x) for x in n.split("-")]
    if parts[0] in HEADS and (parts[1] in {snake(w) for w in words} or parts[1] in HEADS | {"append"}):
        return parts[0] + "-" + "_".join(parts[1:])
    return "_".join(parts)


def renames():
    names, words = declared()
    table = {}
    for n in sorted(names):
        if "-" in n or CAMEL.match(n):
            new = new_name(n, words)
            if new != n:
                table[n] = new
    # variables in camel case, and the proofs of functions
    for p in files("crates", ".antt"):
        for line in read(p).split("\n"):
            for n in NAME.findall(line.split("--")[0]):
                if n not in table and CAMEL.match(n) and "-" not in n:
                    table[n] = new_name(n, words)
                if n.endswith("-spec") and not n.startswith("+"):
                    table[n] = n.replace("-", "_")
    return table


def turned(text, table):
    return NAME.sub(lambda m: table.get(m.group(0), m.group(0)), text)


def turned_prose(text, table):
    """Names between backticks, and names in camel case."""
    parts = re.split(r"(`[^`\n]+`)", text)
    camel = {k: v for k, v in table.items() if CAMEL.match(k)}
    return "".join(turned(x, table if i % 2 else camel) for i, x in enumerate(parts))


def turned_code(text, table, comment):
    """Code with its comments; strings stay."""
    lines = []
    for line in text.split("\n"):
        m = re.search(comment, line)
        code, rest = (line[: m.start()], line[m.start() :]) if m else (line, "")
        parts = re.split(r'(b?"(?:[^"\\\n]|\\.)*")', code)
        lines.append("".join(x if i % 2 else turned(x, table) for i, x in enumerate(parts)) + turned_prose(rest, table))
    return "\n".join(lines)


def turned_edit(text, table):
    lines = []
    for line in text.split("\n"):
        if re.match(r"(old|new): ", line):
            lines.append(line[:5] + turned_code(line[5:], table, r"(?:^|\s)(?://|--)(?:\s|$)"))
        elif re.match(r"(law|shown): ", line):
            lines.append(turned(line, table))
        elif re.match(r"(file|crate|by): ", line):
            lines.append(line)
        else:
            lines.append(turned_prose(line, table))
    return "\n".join(lines)


def turned_file(p, text, table):
    if p.endswith(".antt"):
        return turned_code(text, table, r"(?:^|\s)--(?:\s|$)")
    if p.endswith(".rt"):
        return turned_code(text, table, r"(?:^|\s)//")
    if p.endswith(".edit"):
        return turned_edit(text, table)
    parts = re.split(r"(`[^`\n]+`)", text)
    return "".join(turned(x, table) if i % 2 else x for i, x in enumerate(parts))


def apart(table):
    """Where a lemma would have the name of a definition or a variable, it ends in _lem."""
    held = {new for old, new in table.items() if CAMEL.match(old) and "-" not in old}
    seen = set()
    for p in files("crates", ".antt"):
        for line in read(p).split("\n"):
            if not line.lstrip().startswith("use "):
                seen.update(NAME.findall(line.split("--")[0]))
    for old in sorted(table):
        if "-" in old and not old.endswith("-spec") and table[old] in held | (seen - {old}):
            table[old] += "_lem"
    return table


def main(argv):
    table = apart(renames())
    back = {}
    for old, new in table.items():
        if new in back:
            print(f"respell: {old} and {back[new]} -> {new}", file=sys.stderr)
            return 2
        back[new] = old
    if argv[1:] == ["--list"]:
        for old, new in sorted(table.items()):
            print(old, new)
        return 0
    for p in [*files("crates", (".antt", ".rt", ".edit")), *files("tests", ".edit"), *files("docs", ".md")]:
        old = read(p)
        # a lemma there already has the name that a definition gets
        here = table | {"by_row": "by_row_lem"} if p.endswith("lister/proofs/Rows.antt") else table
        new = turned_file(p, old, here)
        if new != old:
            with open(p, "w", encoding="utf-8") as f:
                f.write(new)
    return 0


if __name__ == "__main__":
    raise SystemExit(main(sys.argv))
