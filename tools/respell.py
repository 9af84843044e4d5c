#!/usr/bin/env python3
"""Respells the names of this repository's definitions and lemmas: words in snake case, a dash only between two names.

usage: python3 tools/respell.py [--list]     at the top of the repository, once, right after the kit's port.py

A definition's or a field's camel case becomes snake case (stackAt: stack_at). In a lemma's name a dash stays where it
stands between two names, of a definition here or of a list function of std (length-take), and else becomes `_`
(target-taken: target_taken). A lemma that would get its definition's name gets `_lem`. Types, facts and modules keep
their camel case, and names of src/ keep their spelling. Comments and texts are left alone. --list only prints the names.
"""

import pathlib
import re
import sys

TOKEN = re.compile(r"(?<![\w'·-])[A-Za-z_][\w']*(?:-[\w']+)*(?![\w'·])")
DECLARED = re.compile(r"^ *((?:(?:abbrev|unfoldable|pub|record|data) +)*)([A-Za-z_][\w'-]*) *[:({]")
# plain words that are names of std
STD_NAMES = {"length", "take", "drop", "map", "set", "append", "range_with_len", "range_with_len_more", "get_or", "min"}
# names that the two rules would spell badly
CHOSEN = {"get_d_beyond": "items_at_beyond"}

# names that port.py respelled in code, but not in edits and pages
BY_PORT = "aboveOf atLeast callsAt isCall leftAt noSlot planOf slotBy slotsOf stackOf stepOf stepsOf waysAt".split()


def snake(name):
    if name[0].isupper():
        return name
    return re.sub(r"(?<=[a-z0-9])([A-Z])", lambda m: "_" + m.group(1).lower(), name)


def code_of(line, comment):
    """The part of a line before its comment."""
    at = re.search(r"(?:^|\s)" + re.escape(comment), line)
    return (line[: at.start()], line[at.start() :]) if at else (line, "")


def declared(root):
    """The names that specs/ and proofs/ declare, each with what declares it: a definition, a field or a lemma."""
    kinds = {}
    for path in sorted(root.glob("crates/*/specs/**/*.antt")) + sorted(root.glob("crates/*/proofs/**/*.antt")):
        inside = None
        for line in path.read_text().splitlines():
            code = code_of(line, "--")[0]
            found = DECLARED.match(code)
            if not found or re.search(r": *goal\.", code):
                continue
            words, name = found.group(1).split(), found.group(2)
            indent = len(code) - len(code.lstrip())
            if "record" in words or "data" in words:
                inside = words[-1] if words[-1] in ("record", "data") else ("record" if "record" in words else "data")
                kinds.setdefault(name, "definition")
            elif indent == 2 and inside == "record" and words[:1] == ["pub"]:
                kinds.setdefault(name, "field")
            elif indent == 2 and inside == "data":
                kinds.setdefault(name, "definition")
            elif "abbrev" in words or "unfoldable" in words:
                inside = None if indent == 0 else inside
                kinds.setdefault(name, "definition")
            else:
                inside = None if indent == 0 else inside
                kinds.setdefault(name, "lemma")
    return kinds


def respelled(kinds):
    """The new spelling of each name that changes."""
    names = {snake(n) for n, kind in kinds.items() if kind == "definition"} | STD_NAMES
    new, taken = {}, {snake(n) for n, kind in kinds.items() if kind == "definition"}
    for name, kind in kinds.items():
        if name in CHOSEN:
            to = CHOSEN[name]
        elif kind != "lemma":
            to = snake(name).replace("-", "_")
        else:
            parts = [snake(p) for p in name.split("-")]
            to = parts[0]
            for before, after in zip(parts, parts[1:]):
                to += ("-" if before in names and after in names else "_") + after
            if to in taken:
                to += "_lem"
        if to != name:
            new[name] = to
    return new


def fell_together(kinds, new):
    seen = {}
    for name in kinds:
        seen.setdefault(new.get(name, name), []).append(name)
    return {to: olds for to, olds in seen.items() if len(olds) > 1}


def turned(text, new, comment):
    def one(m):
        # behind a dot, a name with a dash is one that the prover made
        made = "-" in m.group(0) and m.start() > 0 and m.string[m.start() - 1] == "."
        return m.group(0) if made else new.get(m.group(0), m.group(0))

    lines = []
    for line in text.split("\n"):
        code, rest = code_of(line, comment) if comment else (line, "")
        lines.append(TOKEN.sub(one, code) + rest)
    return "\n".join(lines)


def turn_code(line, new):
    return re.sub(r"`[^`]*`", lambda m: turned(m.group(0), new, None), line)


def main(argv):
    root = pathlib.Path(".")
    kinds = declared(root)
    new = respelled(kinds)
    for name, to in new.items():
        print(f"{name} -> {to}")
    for to, olds in fell_together(kinds, new).items():
        print(f"fall together: {', '.join(olds)} -> {to}")
    if "--list" in argv:
        return 0
    everywhere = new | {n: snake(n) for n in BY_PORT}
    for path in sorted(root.glob("crates/**/*")):
        if "out" in path.parts or not path.is_file():
            continue
        comment = {".antt": "--", ".rt": "//", ".edit": None}.get(path.suffix, "skip")
        if comment == "skip":
            continue
        text = path.read_text()
        if path.suffix == ".rt":
            ghost = {n: to for n, to in new.items() if re.search(r"[A-Z]|-", n)}
            path.write_text(turned(text, ghost, comment))
        else:
            path.write_text(turned(text, new if path.suffix == ".antt" else everywhere, comment))
    for path in [root / "README.md", *sorted(root.glob("docs/*.md"))]:
        path.write_text("\n".join(turn_code(line, everywhere) for line in path.read_text().split("\n")))
    return 0


if __name__ == "__main__":
    raise SystemExit(main(sys.argv[1:]))
