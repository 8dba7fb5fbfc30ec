#!/usr/bin/env python3
"""Counts, in crates/*/src, the places that docs/DESIGN-PASS.md speaks of, point by point.

    tools/design_count.py [FOLDER] [--list POINT]

FOLDER is a checkout (default: the one that this script stands in). --list prints the places of one
row. It goes by the text alone: a place is what the row's pattern finds, and the page says what each is.
"""
import os
import re
import sys
from collections import defaultdict

TOP = os.path.dirname(os.path.dirname(os.path.abspath(__file__)))


def sources(top):
    for crate in sorted(os.listdir(os.path.join(top, "crates"))):
        src = os.path.join(top, "crates", crate, "src")
        if os.path.isdir(src):
            for name in sorted(os.listdir(src)):
                if name.endswith(".rt"):
                    with open(os.path.join(src, name), encoding="utf-8") as f:
                        yield crate, name, f.read()


def bare(text):
    """The text without comments and ghost lines."""
    lines = []
    for line in text.split("\n"):
        s = line.strip()
        lines.append("" if s.startswith("//") or s.startswith("ghost use") else line)
    return "\n".join(lines)


def close(text, at):
    """The place behind the brace that closes the one at a place."""
    deep = 0
    for i in range(at, len(text)):
        if text[i] == "{":
            deep += 1
        elif text[i] == "}":
            deep -= 1
            if deep == 0:
                return i + 1
    return len(text)


def functions(text):
    """(name, signature with clauses, body) of each function."""
    for m in re.finditer(r"^( *)(?:pub(?:\([a-z]+\))? )?(?:extern \"C\" )?fn (\w+)", text, re.M):
        body = re.compile(r"^" + m.group(1) + r"\{$|\) (?:-> [^\n]*)?\{$", re.M).search(text, m.end())
        if body:
            start = body.end() - 1
            yield m.group(2), text[m.start():start], text[start:close(text, start)]


def enums(text):
    for m in re.finditer(r"^(?:pub )?enum (\w+)[^{\n]*\{", text, re.M):
        inside = text[m.end():close(text, m.end() - 1) - 1]
        variants = re.findall(r"^    (\w+)\s*(\(|\{|,|$)", inside, re.M)
        yield m.group(1), [(v, p in "({") for v, p in variants if v]


def structs(text):
    for m in re.finditer(r"^(?:pub )?struct (\w+)[^{;\n]*\{", text, re.M):
        inside = text[m.end():close(text, m.end() - 1) - 1]
        yield m.group(1), re.findall(r"^    (?:pub )?(\w+): ([^\n]*),$", inside, re.M)


def shaped_enums(text):
    """Of two variants: one with and one without a value, or both with one; or with a variant that says what is wrong."""
    for name, vs in enums(text):
        full = [v for v, p in vs if p]
        wrong = [v for v, _ in vs if v in ("Wrong", "Bad", "Stop", "Full", "Odd", "Refused", "Missing")]
        if len(vs) == 2 and full or (wrong and full):
            yield name


def flagged(text):
    """A flag or a refusal's number beside a value."""
    for name, fs in structs(text):
        if any(n in ("fine", "good", "number") and t in ("bool", "u8") for n, t in fs):
            yield name


def kinds_by_number(text):
    """A parameter, field or result that is a kind's, a refusal's, a state's or an error's number."""
    for name, head, _ in functions(text):
        if re.search(r"\b(kind|code|state|refusal): u8\b", head):
            yield name
    for name, fs in structs(text):
        for n, t in fs:
            if n in ("kind", "state", "error") and t == "u8":
                yield f"{name}.{n}"
    for name, vs in re.findall(r"^pub const (LABEL|CHIP): (u8)", text, re.M):
        yield name


def counted_loops(text):
    for name, _, body in functions(text):
        for _ in re.finditer(r"^\s*while ", body, re.M):
            yield name


def all_or_none(text):
    """A function whose whole body is one match with true and false in every arm."""
    for name, _, body in functions(text):
        arms = re.findall(r"=> ([^\n]*),$", body, re.M)
        if len(arms) > 1 and set(arms) <= {"true", "false"} and "match" in body:
            yield name


def ladders(text):
    """`if a { return true; }` or `return false;` before a last test: a truth table written by hand."""
    for name, head, body in functions(text):
        if "-> bool" in head and re.search(r"return (true|false);", body) and "while" not in body and "for " not in body:
            yield name


def out_at(text):
    for name, head, _ in functions(text):
        if re.search(r"out: &mut \[u8\],\s*at: usize", head) or re.search(r"out: &mut \[u8\],\s*\) -> usize", head):
            yield name


def line_at(text):
    for name, head, _ in functions(text):
        if re.search(r"line: &\[u8\],\s*at: usize", head):
            yield name


def buffers(text):
    for name, head, _ in functions(text):
        if len(re.findall(r"&mut \[u8\]", head)) >= 4:
            yield name


def asked_kind(text):
    """A parameter that says which step to run, matched or tested at once."""
    for name, head, body in functions(text):
        for p, t in re.findall(r"(\w+): (Ask|Tail|Counted|Verb)\b", head):
            if re.search(r"match " + p + r"\b", body):
                yield name


def places_of(text, finder):
    return list(finder(bare(text)))


def repeated_clauses(top):
    """A `requires` that stands word for word, but for names, in three or more functions."""
    seen = defaultdict(list)
    for crate, name, text in sources(top):
        for fn, head, _ in functions(bare(text)):
            for clause in re.findall(r"^\s*requires (?:\w+ )?\{ (.*) \}$", head, re.M):
                key = re.sub(r"\b\w+\.(now|old)\b", "x", clause)
                seen[key].append(f"{crate}/{name}:{fn}")
    return [(k, v) for k, v in seen.items() if len(v) >= 3]


def twins(top):
    """Functions of one crate whose bodies are the same but for literals, types and their own names."""
    rows = defaultdict(list)
    for crate, name, text in sources(top):
        for fn, head, body in functions(bare(text)):
            b = re.sub(r"b?\"[^\"]*\"|b'.{1,2}'|\b0x[0-9A-Fa-f]+\b|\b\d+\b", "#", body)
            b = re.sub(r"\b[A-Z]\w*(::\w+)*", "T", b)
            b = re.sub(r"\b" + fn + r"\b", "F", b)
            b = re.sub(r"\s+", " ", b)
            if len(b) > 40:
                rows[(crate, b)].append(f"{crate}/{name}:{fn}")
    return [v for v in rows.values() if len(v) > 1]


ROWS = [
    ("1a", "enums of the shape of Option or Result, or with a variant for what is wrong", shaped_enums),
    ("1b", "structs with a flag or a refusal's number beside a value", flagged),
    ("1c", "kinds, states, codes and refusals as numbers", kinds_by_number),
    ("3", "loops that count by hand (`while`)", counted_loops),
    ("4a", "matches that only say true or false", all_or_none),
    ("4b", "ladders that return true or false", ladders),
    ("5a", "`out`, `at`: a text laid into a buffer", out_at),
    ("5b", "`line`, `at`: a place of a line", line_at),
    ("5c", "four or more buffers side by side", buffers),
    ("7", "a parameter that says which step to run", asked_kind),
]


def main():
    args = [a for a in sys.argv[1:] if not a.startswith("--")]
    wanted = None
    if "--list" in sys.argv:
        wanted = sys.argv[sys.argv.index("--list") + 1]
        args.remove(wanted)
    top = os.path.abspath(args[0]) if args else TOP
    for key, words, finder in ROWS:
        found = []
        for crate, name, text in sources(top):
            found += [f"{crate}/{name}:{p}" for p in places_of(text, finder)]
        if wanted is None:
            print(f"{key:3} {len(found):4}  {words}")
        elif wanted == key:
            print("\n".join(found))
    groups = twins(top)
    clauses = repeated_clauses(top)
    if wanted is None:
        print(f"2   {len(groups):4}  groups of twins ({sum(map(len, groups))} functions)")
        print(f"5d  {len(clauses):4}  `requires` in three or more functions ({sum(len(v) for _, v in clauses)} functions)")
    elif wanted == "2":
        print("\n".join("  ".join(g) for g in groups))
    elif wanted == "5d":
        print("\n".join(f"{len(v):3} {k}" for k, v in sorted(clauses, key=lambda r: -len(r[1]))))


main()
