#!/usr/bin/env python3
"""Counts the definitions that a definition rests on, and their lines without blanks and comments.

    python3 benches/definitions.py [CRATE MODULE NAME]

Without words: those of the session guarantee. It reads specs/ by their layout, and follows names.
"""
import glob
import os
import re
import sys

TOP = os.path.join(os.path.dirname(os.path.abspath(__file__)), "..", "crates")
USE = re.compile(r"(?:pub )?use (Rattle\.[\w.]+)(?:\.\{(.*)\})?(?: as (\w+))?$")
HEAD = re.compile(r"^((?:(?:abbrev|unfoldable|pub)\s+)*)(?:(data|record)\s+)?([^\s:(){}]+)(?=\s|$)(.*)$")
WORD = re.compile(r"[A-Za-z_][\w'-]*")


def read(path):
    """The definitions of a file by name, what their section declares, and the names that it uses."""
    items, sections, uses, name, section, margin = {}, {}, {}, None, None, None
    for line in open(path, encoding="utf-8"):
        text = line.rstrip("\n")
        if not text.strip() or text.strip().startswith("--"):
            continue
        use = USE.match(text)
        if use:
            for word in (use.group(2) or "").split(","):
                old, _, new = word.strip().partition(" as ")
                uses[new or old] = (use.group(1), old)
            continue
        if text.startswith("module _"):
            section, margin, name = text, None, None
            continue
        if section:
            indent = len(text) - len(text.lstrip())
            margin = indent if margin is None else margin
            section = section if indent else None
            text = text[min(indent, margin):] if section else text
        head = HEAD.match(text) if text[0] not in " \t|]});" else None
        if head and (head.group(1) or head.group(2) or re.match(r"\s*(\{[^}]*\}\s*)?:\s", head.group(4) + " ")):
            name = head.group(3)
            if section:
                sections[name] = section
        if name:
            items.setdefault(name, []).append(text)
    return items, sections, uses


def main(start):
    modules, passed_on = {}, {}
    for path in glob.glob(TOP + "/*/specs/**/*.antt", recursive=True):
        crate, rest = re.match(r".*/crates/([^/]+)/specs/(.*)\.antt$", path).groups()
        if rest == "Lib":
            for line in open(path, encoding="utf-8"):
                use = re.match(r"pub use (Rattle\.[\w.]+?)(?: as \w+)?$", line.strip())
                if use:
                    passed_on[f"Rattle.{crate}.specs." + use.group(1).split(".")[-1]] = use.group(1)
        else:
            modules[f"Rattle.{crate}.specs." + rest.replace("/", ".")] = read(path)
    makers = {}
    for module, (items, _, _) in modules.items():
        for name, lines in items.items():
            if re.match(r"(?:pub )?data", lines[0]):
                for line in lines[1:]:
                    made = re.match(r"\s+([A-Z]\w*(?:\s+[A-Z]\w*)*)\s*:", line)
                    for word in made.group(1).split() if made else []:
                        makers[(module, word)] = (module, name)

    def find(module, name):
        for _ in range(5):
            module = passed_on.get(module, module)
            module, name = makers.get((module, name), (module, name))
            if module not in modules:
                return None
            if name in modules[module][0]:
                return module, name
            if name not in modules[module][2]:
                return None
            module, name = modules[module][2][name]
        return None

    seen, todo = set(), [find(*start)]
    while todo:
        item = todo.pop()
        if item is None or item in seen:
            continue
        seen.add(item)
        items, sections, uses = modules[item[0]]
        text = "\n".join(items[item[1]] + [sections.get(item[1], "")])
        for word in set(WORD.findall(text)):
            todo.append(find(item[0], word))
            if word in uses:
                todo.append(find(*uses[word]))
    crates = {}
    for module, name in seen:
        crate = crates.setdefault(module.split(".")[1], [0, 0, set()])
        crate[0] += 1
        crate[1] += len(modules[module][0][name])
        if name in modules[module][1]:
            crate[2].add((module, modules[module][1][name]))
    for crate, (count, lines, sections) in sorted(crates.items()):
        print(f"{crate:20} {count:5} definitions {lines + len(sections):6} lines")
    print(f"{'all':20} {sum(c[0] for c in crates.values()):5} definitions "
          f"{sum(c[1] + len(c[2]) for c in crates.values()):6} lines")


if __name__ == "__main__":
    words = sys.argv[1:] or ["session_model", "Guarantee", "Serves"]
    main((f"Rattle.{words[0]}.specs.{words[1]}", words[2]))
