#!/usr/bin/env python3
"""What changed of public signatures, clauses, types, definitions and laws, old and new side by side, as Markdown tables.

    tools/design/changes.py OLD [NEW]     two checkouts of the repository; NEW is this one

A function that became a method, or whose `_refusal` became `check_`, is found by its name. A law is a public statement of a file at the
top of a crate's proofs/. Those that README or docs name, and those of the files in MAIN, come first; the others stand at the end.
"""
import os
import re
import sys

MAIN = ("Theorems", "OneResult", "Determined", "OfCalls")
STATED = re.compile(r" *(abbrev |unfoldable )?(pub )?(record |data )?([^\s:(){}]+)(?(3)| :)")


def walk(root, part, ending):
    crates = os.path.join(root, "crates")
    for crate in sorted(os.listdir(crates)):
        top = os.path.join(crates, crate, part)
        for where, _, files in sorted(os.walk(top)):
            for name in sorted(files):
                if name.endswith(ending):
                    path = os.path.join(where, name)
                    with open(path, encoding="utf-8") as f:
                        yield crate, os.path.splitext(os.path.relpath(path, top))[0], f.read()


def squeeze(text):
    text = re.sub(r"\s+", " ", text).strip()
    return text.replace("( ", "(").replace(",)", ")").replace(", )", ")")


def public(root):
    """crate and name -> signature and clauses; and public types."""
    found, types = {}, {}
    for crate, path, text in walk(root, "src", ".rt"):
        module = "" if path == "lib" else path.replace(os.sep, "::") + "::"
        lines = text.split("\n")
        owner = ""
        for i, line in enumerate(lines):
            m = re.match(r"impl(?:<[^>]*>)? (?:[A-Za-z<>_]+ for )?([A-Za-z]+)", line)
            if m:
                owner = m.group(1) + "::"
            if line == "}":
                owner = ""
            m = re.match(r"( *)pub fn ([a-z_0-9]+)", line)
            if m:
                j, said = i, []
                while True:
                    said.append(lines[j])
                    if lines[j] == m.group(1) + "{" or (lines[j].endswith(" {") and not re.match(r"\s*(requires|ensures)", lines[j])):
                        break
                    j += 1
                found[(crate, module + owner + m.group(2))] = re.sub(r" ?\{$", "", squeeze(" ".join(said)))
            m = re.match(r"(pub )?(struct|enum|type) ([A-Za-z]+)", line)
            if m and m.group(1):
                j = i
                while not (lines[j] == "}" or lines[j].endswith(";") or lines[j].endswith("{}")):
                    j += 1
                derived = lines[i - 1] if lines[i - 1].startswith("#[derive") else ""
                body = "\n".join(l for l in lines[i:j + 1] if not l.strip().startswith("//"))
                types[(crate, module + m.group(3))] = squeeze(derived + " " + body)
    return found, types


def depth(line):
    return len(line) - len(line.lstrip())


def statements(text, whole):
    """Each statement of a file: whether it is public, its name, and its text behind the parameters of the modules around it. A record has
    its fields, a definition its body; where `whole`, each statement has what follows it."""
    lines = [l for l in text.split("\n") if l.strip() and not l.strip().startswith("--")]
    opened = {name for l in lines if l.strip().startswith("unfolding ") for name in l.split()}
    around, end = [], 0
    while end < len(lines):
        i, end = end, end + 1
        while around and depth(lines[i]) <= around[-1][0]:
            around.pop()
        m = STATED.match(lines[i])
        if lines[i].strip().startswith("module "):
            while not lines[end - 1].endswith("where"):
                end += 1
            around.append((depth(lines[i]), squeeze(" ".join(lines[i:end]))[len("module _ "):-len(" where")]))
        elif m:
            defined, shown, _, name = m.groups()
            more = (name, "unfolding") if whole or defined or name in opened else ()
            while end < len(lines) and (depth(lines[end]) > depth(lines[i]) or lines[end].split()[0] in more):
                end += 1
            said = squeeze(" ".join(lines[i:end]))
            yield bool(shown), name, f"module _ {' '.join(p for _, p in around)} where {said}" if around else said


def stated(root, part, whole=False):
    """crate, file and name -> what is said: of the public ones, and of the private ones."""
    found = {True: {}, False: {}}
    for crate, path, text in walk(root, part, ".antt"):
        if part == "specs" or os.sep not in path:
            for shown, name, said in statements(text, whole):
                found[shown][(crate, path + "." + name)] = said
    return found[True], found[False]


def named(*roots):
    """Whether README or docs of one of these checkouts name a law, or it stands in one of the MAIN files."""
    text = ""
    for root in roots:
        docs = os.path.join(root, "docs")
        pages = [os.path.join(docs, n) for n in sorted(os.listdir(docs)) if n.endswith(".md") and n not in ("DESIGN-PASS.md", "LOOK-BACK.md")]
        for page in [os.path.join(root, "README.md")] + pages:
            with open(page, encoding="utf-8") as f:
                text += f.read()
    return lambda key: key[1].split(".")[0] in MAIN or f"`{key[1].split('.')[1]}`" in text


def short(name):
    return re.split(r"::|\.", name)[-1]


def heir(key, old, new):
    """What an old one became: the same name in another file or as a method of some type, or check_.. for .._refusal."""
    crate, name = key
    names = [] if (crate, short(name)) == ("columns", "number") else [short(name)]
    if short(name).endswith("_refusal"):
        names.append("check_" + short(name)[:-len("_refusal")])
    for n in names:
        near = [k for k in new if k not in old and k[0] == crate and short(k[1]) == n]
        same = [k for k in near if re.split(r"::|\.", k[1])[0] == re.split(r"::|\.", name)[0]]
        if near:
            return (same or near)[0]
    return None


def law_heir(key, old, new):
    """What an old law became: the same law in another file or crate, or its name in another file of its crate."""
    alike = [k for k in new if short(k[1]) == short(key[1])]
    return ([k for k in alike if new[k] == old[key]] + [k for k in alike if k[0] == key[0]] + [None])[0]


def listed(title, keys):
    print(f"\n{title}: " + (", ".join(f"`{c}::{n}`" for c, n in keys) or "none") + ".")


def cell(text):
    return "`" + text.replace("|", "\\|").replace("`", "") + "`"


def table(title, old, new, found=heir, of=lambda key: True, private=()):
    print(f"\n### {title}\n")
    taken, rows, gone = set(), [], []
    for key in sorted(filter(of, old)):
        now = key if key in new else found(key, old, new)
        if now is None:
            gone.append(key)
            continue
        taken.add(now)
        row = (key[0], f"| {cell(old[key])} | {cell(new[now])} |")
        if old[key] != new[now] and row not in rows:
            rows.append(row)
    last = None
    for crate, row in rows:
        if crate != last:
            print(f"\n`{crate}`\n\n| old | new |\n|---|---|")
        print(row)
        last = crate
    listed("Gone", [k for k in gone if k not in private])
    if private:
        listed("Private now", [k for k in gone if k in private])
    listed("New", [k for k in sorted(filter(of, new)) if k not in old and k not in taken])


def main(args):
    old = args[0]
    new = args[1] if len(args) > 1 else os.path.join(os.path.dirname(os.path.abspath(__file__)), "..", "..")
    (f0, t0), (f1, t1) = public(old), public(new)
    table("Public functions", f0, f1)
    table("Public types", t0, t1)
    table("Definitions", stated(old, "specs", True)[0], stated(new, "specs", True)[0])
    laws, (now, private), first = stated(old, "proofs")[0], stated(new, "proofs"), named(old, new)
    table("Theorems", laws, now, law_heir, first, private)
    table("Other laws", laws, now, law_heir, lambda key: not first(key), private)


main(sys.argv[1:])
