#!/usr/bin/env python3
"""Brings the repository's own definitions and lemmas to snake case, once, after the kit's port script.

usage: python3 tools/snake_names.py [--dry]      at the top of the repository

A name of specs/ or proofs/ that begins with a small letter loses its capitals and hyphens: bad-set and isEmpty become bad_set and is_empty.
Names of the kit keep theirs. Functions of src/, strings, inputs and outputs are not touched. Changed are: .antt files, .rt files outside
strings and comments, the texts of the must-fail edits (also under more-edits/), and names between backticks in the pages and comments.
Where a lemma's name would fall together with a function's, it gets _lem; those are printed.
"""
import os
import re
import sys

WORD = re.compile(r"[A-Za-z_◌][\w'′◌-]*")
DEFINES = re.compile(r"^\s*(?:mutual\s+)?(?:abbrev |unfoldable )?(?:pub )?(?:abbrev |unfoldable )?([a-z_][\w'-]*)\s*(?:\([^:]*:.*\)|\{[^:]*:.*\})*\s*:(?!\S)")
MORE = re.compile(r"^\s*(?:pub )?((?:[a-z_][\w'-]*\s+)+):(?!\S)")
MODULE_USE = re.compile(r"use ([\w.'·-]+)\.\{([^}]*)\}")
NUMBERS = "crates/common/specs/Answers.antt"
# lemmas that the kit's script had spelled already as a function will be
LEMMAS = ["in_pair", "no_return", "not_within"]
KIT = ("Rattle.std", "Rattle.core", "lib.", "mathlib.", "borrow.", "denote.", "Prim", "algebra")


def snake(name):
    name = re.sub(r"(?<=[a-z0-9])([A-Z])", lambda m: "_" + m.group(1).lower(), name)
    name = re.sub(r"([A-Z])", lambda m: m.group(1).lower(), name)
    name = name.replace("-", "_").replace("′", "'")
    return re.sub(r"__+", "_", name)


def odd(name):
    return name[0].islower() and ("-" in name or "′" in name or re.search(r"[A-Z]", name))


def files(*tops, ends):
    for top in tops:
        if os.path.isfile(top):
            yield top
        for folder, dirs, names in os.walk(top):
            dirs[:] = sorted(d for d in dirs if d not in ("out", ".git", "target"))
            for n in sorted(names):
                if n.endswith(ends):
                    yield os.path.join(folder, n)


def read(path):
    with open(path, encoding="utf-8") as f:
        return f.read()


def gather():
    own, kit = set(), set()
    plain = {}
    for p in files("crates", ends=(".antt", ".rt")):
        text = read(p)
        for m in MODULE_USE.finditer(text):
            if m.group(1).startswith(KIT):
                for n in m.group(2).split(","):
                    kit.add(n.split(" as ")[0].strip())
        if not p.endswith(".antt"):
            continue
        for line in text.splitlines():
            if line.lstrip().startswith("--"):
                continue
            m = DEFINES.match(line) or MORE.match(line)
            if m:
                for n in m.group(1).split():
                    (own.add(n) if odd(n) else plain.setdefault(n, p))
    return own, kit, plain


def turn_words(text, names):
    # an answer's number keeps its name, and is always written behind its module's: answer.bad_set; a lemma of that name is bad_set_lem
    def turn(m):
        before = text[max(0, m.start() - 7) : m.start()]
        if before == "proofs.":
            return m.group(0)
        qualified = "answer." + m.group(0) if before == "answer." else m.group(0)
        return names.get(qualified, names.get(m.group(0), m.group(0)))

    return WORD.sub(turn, text)


def turn_ticks(text, names):
    return re.sub(r"`[^`\n]*`", lambda m: turn_words(m.group(0), names), text)


def turn_antt(text, names):
    out = []
    for line in text.split("\n"):
        at = re.search(r"(^|\s)--(\s|$)", line)
        if at:
            out.append(turn_words(line[: at.start()], names) + turn_ticks(line[at.start():], names))
        else:
            out.append(turn_words(line, names))
    return "\n".join(out)


def turn_rt(text, names):
    out = []
    for line in text.split("\n"):
        parts = re.split(r'("(?:\\.|[^"\\])*"|//.*$)', line)
        for i, part in enumerate(parts):
            if i % 2 == 0:
                parts[i] = turn_words(part, names)
            elif part.startswith("//"):
                parts[i] = turn_ticks(part, names)
        out.append("".join(parts))
    return "\n".join(out)


def turn_edit(text, names):
    antt = False
    out = []
    for line in text.split("\n"):
        if line.startswith("file:"):
            antt = line.strip().endswith(".antt")
        if line.startswith(("old:", "new:")):
            head, tail = line[:4], line[4:]
            out.append(head + (turn_antt(tail, names) if antt else turn_rt(tail, names)))
        else:
            out.append(turn_ticks(line, names))
    return "\n".join(out)


def main():
    own, kit, plain = gather()
    both = own & kit
    names = {n: snake(n) for n in own - kit}
    by_new = {}
    for old, new in names.items():
        by_new.setdefault(new, []).append(old)
    together = {new: olds for new, olds in by_new.items() if len(olds) > 1 or new in plain}
    numbers = set(re.findall(r"^abbrev pub ([\w'-]+) :", read(NUMBERS), re.M))
    for new, olds in together.items():
        for old in olds:
            if "-" in old:
                names[old] = new + "_lem"
                if old in numbers:
                    names["answer." + old] = new
    names.update({n: n + "_lem" for n in LEMMAS})
    names.update({"answer." + n: n for n in LEMMAS})
    print(f"{len(names)} names; {len(both)} of them are the kit's too and stay: {' '.join(sorted(both))}")
    for new, olds in sorted(together.items()):
        print("falls together:", new, "<-", *sorted(olds), *(["(plain in " + plain[new] + ")"] if new in plain else []))
    if "--dry" in sys.argv:
        return
    for ends, turn, tops in (((".antt",), turn_antt, ["crates"]), ((".rt",), turn_rt, ["crates"]), ((".edit",), turn_edit, ["crates", "more-edits"]), ((".md",), turn_ticks, ["docs", "README.md"])):
        for p in files(*tops, ends=ends):
            old = read(p)
            these = dict(names)
            if p == NUMBERS:
                these.update({n[7:]: new for n, new in names.items() if n.startswith("answer.")})
            if p.endswith((".md", ".edit")):
                # names that the kit's script has spelled already: in crates/, but not there
                these.update({n: snake(n) for n in set(WORD.findall(read(p))) - set(these) - both if odd(n) and snake(n) in plain})
            if p.endswith(".rt"):
                for n in LEMMAS:
                    del these[n]
            new = turn(old, these)
            if new != old:
                with open(p, "w", encoding="utf-8") as f:
                    f.write(new)


main()
