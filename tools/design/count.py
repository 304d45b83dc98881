#!/usr/bin/env python3
"""Counts the places of docs/DESIGN-PASS.md in crates/*/src, and with --list shows each.

    tools/design/count.py [--list] [ROOT]     ROOT: another checkout, of another commit say
"""
import os
import re
import sys

COLUMNS = {"elements", "element_offset", "element_to_block", "begin", "marked_split", "end"}


def sources(root):
    for crate in sorted(os.listdir(os.path.join(root, "crates"))):
        top = os.path.join(root, "crates", crate, "src")
        for where, _, files in sorted(os.walk(top)):
            for name in sorted(files):
                if name.endswith(".rt"):
                    path = os.path.join(where, name)
                    with open(path, encoding="utf-8") as f:
                        yield os.path.relpath(path, root), f.read()


def bare(text):
    """Without comments and clauses."""
    text = re.sub(r"//[^\n]*", "", text)
    return re.sub(r"^\s*(requires|ensures|ghost)\b[^{;\n]*\{[^\n]*(\n\s{8,}[^\n]*\})?", "", text, flags=re.M)


def functions(text):
    """Each function's name and the names and types of its parameters."""
    for m in re.finditer(r"\bfn ([a-z_0-9]+)(?:<[^>]*>)?\(([^)]*)\)", text):
        params = [p.strip() for p in m.group(2).split(",") if p.strip()]
        pairs = [p.split(":", 1) for p in params if ":" in p]
        yield m, m.group(1), [(a.replace("mut ", "").strip(), b.strip()) for a, b in pairs]


def by_lines(pattern):
    r = re.compile(pattern)
    return lambda text: [(n, l.strip()) for n, l in enumerate(text.split("\n"), 1) if r.search(l.split("//")[0])]


def loops(text):
    """A while whose first test is on a name that the body raises by 1."""
    lines, found = text.split("\n"), []
    for i, line in enumerate(lines):
        m = re.match(r"^(\s*)while (.*) \{$", line)
        if not m:
            continue
        end = next(j for j in range(i + 1, len(lines)) if lines[j] == m.group(1) + "}")
        names = re.findall(r"\b([a-z_]+)\b(?: <| !=)", m.group(2))[:1]
        if any(re.match(r"^\s*%s \+= 1;$" % v, b) for v in names for b in lines[i + 1:end]):
            found.append((i + 1, line.strip()))
    return found


def together(test):
    def find(text):
        return [(text[:m.start()].count("\n") + 1, name) for m, name, params in functions(text) if test(params)]
    return find


def slices(params):
    return {a for a, b in params if b.startswith("&") and "[" in b}


def numbered(text):
    return by_lines(r"\b(number|refused) != 0|\bnumber == 0")(text)


POINTS = [
    ("1 own enums and structs of an answer", by_lines(r"^(pub )?(enum|struct) [A-Za-z]*(Outcome|Answer)\b")),
    ("1 a refusal told by its number", numbered),
    ("1 functions that answer a refusal, 0 for none", by_lines(r"-> Refusal\b")),
    ("1 numbers of refusals", by_lines(r"^pub const [A-Z_]+: u64 = \d+;")),
    ("1 a flag with values beside it", by_lines(r"^\s+(pub )?(good|go|ended|short|broken|refused|cyclic): bool,")),
    ("1 numbers of operations and of their families", by_lines(r"^pub const [A-Z_]+: usize = \d+;")),
    ("1 letters for kinds", by_lines(r"\bkind: u8")),
    ("2 functions of one body at several sizes or types",
     by_lines(r"\bfn (clear_(three|four|five|seven)|copy_bytes|(wide|byte)_column|between_bytes|fill_text|refusing_\w+|flag|number|number_of)\(")),
    ("3 loops that count an index", loops),
    ("4 structs and enums with no derived comparison",
     lambda text: [(text[:m.start()].count("\n") + 1, m.group(2)) for m in
                   re.finditer(r"((?:#\[[^\n]*\]\n)*)(?:pub )?(?:struct|enum) ([A-Za-z]+)", text) if "PartialEq" not in m.group(1)]),
    ("4 a test written as if .. { true } else { false }",
     lambda text: [(text[:m.start()].count("\n") + 1, m.group(0).split("\n")[0]) for m in
                   re.finditer(r"\{\s*(true|false)\s*\} else \{\s*(true|false)\s*\}", text)]),
    ("5 source, label and target side by side",
     together(lambda p: len({"source", "label", "target"} & slices(p)) == 3 or len({"back_source", "back_label", "back_target"} & slices(p)) == 3)),
    ("5 four or more of a partition's columns side by side", together(lambda p: len(COLUMNS & slices(p)) >= 4)),
    ("5 three key columns side by side", together(lambda p: len({"a", "b", "c"} & slices(p)) == 3 and dict(p)["a"] == "&[u16]")),
    ("5 six or more slots side by side", together(lambda p: len([a for a, b in p if b.replace("mut ", "") == "&Slot"]) >= 6)),
    ("6 a buffer with its length or its place beside it",
     together(lambda p: any(a in ("used", "tail", "h", "count", "len") for a, b in p if b == "usize") and bool(slices(p) | {a for a, b in p if "Sink" in b}))),
    ("7 a match on an operation's number", by_lines(r"match (operation|operation\.which\(\)|family\(operation\)|kind|largest) \{|operation == [A-Z_]+")),
]


def proofs(root):
    hand = auto = lines = 0
    for where, _, files in os.walk(os.path.join(root, "crates")):
        if "/out" in where or "/proofs" not in where:
            continue
        for f in files:
            if f.endswith(".antt"):
                lines += sum(1 for _ in open(os.path.join(where, f), encoding="utf-8"))
            hand += f == "Proof.antt"
            auto += f == "Answers.antt"
    return hand, auto, lines


def main(args):
    show = "--list" in args
    rest = [a for a in args if a != "--list"]
    root = rest[0] if rest else os.path.join(os.path.dirname(os.path.abspath(__file__)), "..", "..")
    texts = list(sources(root))
    for title, find in POINTS:
        found = [(path, n, what) for path, text in texts for n, what in find(text)]
        print(f"{len(found):4}  {title}")
        if show:
            for path, n, what in found:
                print(f"        {path}:{n}: {what}")
    hand, auto, lines = proofs(root)
    print(f"{hand:4}  8 functions proved by hand (Proof.antt); {auto} with answers, {lines} lines in proofs/")


main(sys.argv[1:])
