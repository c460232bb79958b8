#!/usr/bin/env python3
"""Counts what a call of the API costs in files and lines of the daemon: what a trial that takes it away has to take away.

    benches/call_cost.py [NAME] [--crates] [--files]

NAME is a call's name in code (`unpause`, the default). Counted are the crates below `engined`: of a file, or of a folder of answers, that bears
the name every line; of any other file each line that speaks of the call, with the lines that belong to it (what its brackets
enclose, what is indented below it, the comment right above a definition of its own). Worked facts, edits and READMEs aren't counted:
they may say less of a call or more. It reads the tree as it stands, and changes nothing.
"""
import pathlib
import re
import sys

TOP = pathlib.Path(__file__).resolve().parent.parent
OPEN, CLOSE = "([{", ")]}"


def below(name):
    """The crates on which that one stands, itself among them."""
    deps = {}
    for line in (TOP / "crates.txt").read_text().splitlines():
        line = line.split("#")[0].strip()
        if line:
            head, _, rest = line.partition(":")
            deps[head.split()[0]] = rest.split()
    found, todo = set(), [name]
    while todo:
        crate = todo.pop()
        if crate in deps and crate not in found:
            found.add(crate)
            todo += deps[crate]
    return sorted(found)


def indent(line):
    return len(line) - len(line.lstrip())


def spoken(lines, word):
    """The numbers of the lines that speak of the call, with what belongs to them."""
    taken, i = set(), 0
    while i < len(lines):
        if not word.search(lines[i]):
            i += 1
            continue
        taken.add(i)
        if i and lines[i - 1].lstrip().startswith(("--", "//")) and not lines[i].lstrip().startswith(("use", "ghost", "--", "//")):
            taken.add(i - 1)
        depth = sum(lines[i].count(c) for c in OPEN) - sum(lines[i].count(c) for c in CLOSE)
        j = i + 1
        while j < len(lines) and (depth > 0 or (lines[j].strip() and indent(lines[j]) > indent(lines[i]))):
            depth += sum(lines[j].count(c) for c in OPEN) - sum(lines[j].count(c) for c in CLOSE)
            taken.add(j)
            j += 1
        if j < len(lines) and lines[j].strip() in ("}", "},") and indent(lines[j]) == indent(lines[i]) and j - 1 in taken and j > i + 1:
            taken.add(j)
            j += 1
        i = j
    return taken


def kept(path):
    parts = path.relative_to(TOP / "crates").parts
    return "out" not in parts and path.suffix in (".rt", ".antt") and not path.stem.endswith("Facts")


def main():
    words = [a for a in sys.argv[1:] if not a.startswith("--")]
    name = words[0] if words else "unpause"
    camel = "".join(part.capitalize() for part in name.split("_"))
    word = re.compile(rf"(?<![a-z]){name}(?![a-z])|(?<![A-Z])un_?{name}|{camel}(?![a-z])")
    rows = []
    for crate in below("engined"):
        files = lines = 0
        for path in sorted((TOP / "crates" / crate).rglob("*")):
            if not path.is_file() or not kept(path):
                continue
            text = path.read_text().splitlines()
            parts = path.relative_to(TOP / "crates" / crate).parts
            own = any(word.search(p.replace("Lemmas", "").replace(".", " ")) for p in parts[1:])
            count = len(text) if own else len(spoken(text, word))
            if count:
                files += 1
                lines += count
                if "--files" in sys.argv:
                    print(f"{count:5} {path.relative_to(TOP)}")
        if files:
            rows.append((crate, files, lines))
    if "--crates" in sys.argv or "--files" in sys.argv:
        for crate, files, lines in rows:
            print(f"{crate}: {files} files, {lines} lines")
    print(f"{name}: {sum(r[1] for r in rows)} files, {sum(r[2] for r in rows)} lines")


if __name__ == "__main__":
    main()
