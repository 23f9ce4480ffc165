#!/usr/bin/env python3
"""Lists the places of src/ that docs/DESIGN-PASS.md counts, point by point: design_places.py [FOLDER] [--list].
By text alone: each rule below is one regular expression or one comparison of functions, so that the same rule counts the same
places in any commit. FOLDER is a checkout (the one that this file stands in, where none is given); --list prints each place."""

import collections
import os
import re
import sys

HERE = os.path.dirname(os.path.dirname(os.path.abspath(__file__)))
FUNCTION = re.compile(r"^(?P<indent> *)(?:pub(?:\([a-z]+\))? )?(?:extern \"C\" )?fn (?P<name>\w+)", re.M)
MANY = 7
THRICE = 3

# one regular expression a rule: point, what it counts, the expression
RULES = [
    (1, "a field that is an answer's number, a fault, a status or a flag beside the value", r"^\s+(?:pub(?:\(crate\))? )?(?:answer|fault|status|there|failed): (?:u32|bool),"),
    (1, "a use of an answer's number", r"\banswers::[A-Z][A-Z_]+"),
    (1, "a constant that numbers a kind, a state, an ending or a fault", None),
    (3, "a loop that is no `for`", r"^\s*(?:while\b.*|loop )\{"),
    (4, "a byte, digit or word taken apart or put together by hand", r"/ (?:256|65536|16777216)\b|\b(?:256|65536|16777216) \* |\b1048576 \*"),
    (4, "arithmetic by std's free functions in the place of methods", r"std::num::wrapping_\w+"),
    (4, "a comparison or a ladder of tests that ends in true or false by hand", r"^\s*return (?:true|false);"),
    (6, "a lent buffer with the place in it beside", r"\b(?:out|line|bytes|row): &mut \[\w+(?:; \w+)?\],\s+(?:at|length|n|i): (?:usize|u32)"),
    (6, "a name whose letters are bytes and not text", r"\b(?:say|tell|complain|note|print|show)\w*\(\s*(?:&mut rt\.\w+\(\)|rt),\s*b\""),
    (7, "a switch on a number that says which kind", r"\b(?:match|if) (?:\w+\.)?kind\b(?! !=)"),
]

KINDS = re.compile(r"^(?:pub(?:\(crate\))? )?const (?P<name>[A-Z_]+): u(?:8|32|64) = \d+;", re.M)
# constants that are amounts and no kinds
AMOUNTS = re.compile(r"(?:LONGEST\w*|MOST|SIZE|ROOM|PLACES|BUDGET|NAMES?|CALLS|READS|ROWS?|ENTRY|ENTRIES|DEEPEST|LOWEST|HIGHEST|LARGEST|\w*MARK|SHOWN|BEFORE|PAST|SAMPLE|MAIN|NUMBERS|[ABX]|LOW|RD|JUMPED|UNASKED|NOWHERE|NO_REGISTER|COLUMNS?|CELL|WIDTH|FEED|RETURN)$")


def sources(folder):
    for crate in sorted(os.listdir(os.path.join(folder, "crates"))):
        root = os.path.join(folder, "crates", crate, "src")
        for at, _, names in sorted(os.walk(root)):
            for name in sorted(names):
                if name.endswith(".rt"):
                    path = os.path.join(at, name)
                    with open(path, encoding="utf-8") as file:
                        yield crate, os.path.relpath(path, folder), file.read()


def bare(text):
    """The code without comments and without clauses."""
    text = re.sub(r"//.*", "", text)
    return re.sub(r"^\s*(?:requires|ensures|ghost)\b.*\n", "", text, flags=re.M)


def functions(text):
    """Name, parameters and body of each function, by its braces."""
    for found in FUNCTION.finditer(text):
        end = re.compile(r"^" + found["indent"] + r"\}", re.M).search(text, found.end())
        piece = text[found.start() : end.end() if end else len(text)]
        brace = piece.find("{\n")
        if brace < 0:
            continue
        head, body = piece[:brace], piece[brace:]
        inside = head[head.find("(") + 1 :]
        depth, count, seen = 0, 0, False
        for letter in inside:
            if letter in "([<":
                depth += 1
            elif letter in ")]>":
                if letter == ")" and depth == 0:
                    break
                depth -= 1
            elif letter == "," and depth == 0:
                count += 1
                seen = False
                continue
            if not letter.isspace():
                seen = True
        yield found["name"], count + seen, head, body, text[: found.start()].count("\n") + 1


def shape(head, body):
    """A function with its names and numbers replaced by their order: twins have one shape."""
    words = {}
    keep = {"fn", "pub", "let", "mut", "while", "if", "else", "return", "match", "for", "in", "as", "usize", "true", "false", "loop", "self"}

    def named(found):
        word = found[0]
        if word in keep:
            return word
        if re.fullmatch(r"u8|u16|u32|u64", word) or re.fullmatch(r"[0-9]\w*", word):
            return "#"
        return words.setdefault(word, "v%d" % len(words))

    text = re.sub(r'b?"[^"]*"|b?\'[^\']*\'', "#", head + body)
    return re.sub(r"\s+", " ", re.sub(r"pub(?:\(crate\))? ", "", re.sub(r"\b\w+\b", named, text)))


def main():
    folder = next((a for a in sys.argv[1:] if not a.startswith("--")), HERE)
    listed = "--list" in sys.argv
    counts = collections.OrderedDict()

    def add(point, what, place):
        counts.setdefault((point, what), []).append(place)

    shapes = collections.defaultdict(list)
    requires = collections.defaultdict(list)
    for crate, path, whole in sources(folder):
        text = bare(whole)
        plain = re.sub(r"//.*", "", whole)
        for point, what, rule in RULES:
            if rule:
                for found in re.finditer(rule, plain if point == 6 else text, re.M):
                    add(point, what, path + ": " + found[0].strip()[:70])
            else:
                for found in KINDS.finditer(text):
                    if not AMOUNTS.match(found["name"]):
                        add(point, what, path + ": " + found["name"])
        for name, parameters, head, body, line in functions(text):
            if parameters >= MANY:
                add(5, "a function of %d parameters or more" % MANY, "%s: %s (%d)" % (path, name, parameters))
            if len(body) >= 50:
                shapes[shape(head, body)].append("%s: %s" % (path, name))
        for found in re.finditer(r"^\s+requires (?:\w+ )?\{(.*)\}", whole, re.M):
            requires[crate, re.sub(r"\s+", " ", found[1].strip())].append(path)
    for same in shapes.values():
        if len(same) > 1:
            for place in same:
                add(2, "a function with a twin: one shape, other names, types or numbers", place + "  ~ " + ", ".join(p for p in same if p != place)[:120])
    for (crate, fact), places in requires.items():
        if len(places) >= THRICE:
            add(5, "a fact that %d or more functions of a crate require" % THRICE, "%s: %s (%d)" % (crate, fact, len(places)))
    for point, what in sorted(counts):
        print("%d  %4d  %s" % (point, len(counts[point, what]), what))
        if listed:
            for place in counts[point, what]:
                print("          " + place)


main()
