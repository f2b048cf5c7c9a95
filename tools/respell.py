#!/usr/bin/env python3
"""Spells the repository's own definitions and lemmas as Rattle does: words in snake case, facts and types in camel case.

usage: tools/respell.py          at the top, once, on what the kit's port/port.py left

Rows are made from the declarations of specs/ and of the lemma files of proofs/. A name in camel case that starts small gets
underscores; a dash stays where all that it joins are names, and else becomes an underscore; the three facts that began small
get a capital. Turned are crates/ (code, clauses, comments), the must-fail edits, and the code spans of the pages.
An edit's text is also brought to the projections, primes and paths that port.py writes. Lines that begin 'look:' are for a reader.
"""
import glob
import os
import re
import subprocess
import sys

# the facts that began small, two lemmas that would fall together with a definition, and a constructor
GIVEN = {"about": "IsAbout", "aboutDecoded": "IsAboutDecoded", "livesAt": "IsAliveAt", "by_two": "by_two_lem", "data-frame": "data_frame_lem", "open-stream": "open_stream"}
# std's words of an older kit, in the edits that port.py leaves
WORDS = {"getD": "get_or", "_≡_": "◌≡◌"}
# std beside the page that `rt doc` names
KIT = os.path.join(os.path.dirname(subprocess.run(["rt", "doc"], capture_output=True, text=True, check=True).stdout.strip()), "rattle/std")
TOKEN = re.compile(r"[^\s(){}.;,:@\"«»`]+")
DECLARED = re.compile(r"^(?:(?:pub|abbrev|unfoldable|record|data)\s+)*([^\s:(){}]+)\s*(?:\(.*\)|\{.*\})*\s*:")


def read(path):
    with open(path, encoding="utf-8") as f:
        return f.read()


def write(path, text):
    with open(path, "w", encoding="utf-8") as f:
        f.write(text)


def snake(name):
    return re.sub(r"(?<=[a-z0-9])([A-Z])", lambda m: "_" + m.group(1).lower(), name) if name[:1].islower() else name


def library_names():
    found = set()
    for path in (KIT + "/specs/Prelude.antt", KIT + "/proofs/Common.antt"):
        for group in re.findall(r"\{([^}]*)\}", read(path)):
            found |= {word.strip() for word in group.split(",")}
    return found


def declared():
    names = {}
    for path in sorted(glob.glob("crates/*/specs/**/*.antt", recursive=True)) + sorted(glob.glob("crates/*/proofs/*.antt")):
        for line in read(path).splitlines():
            m = DECLARED.match(line)
            if m and not line.startswith(("use ", "--", " ", "mod ", "pub mod ")):
                names.setdefault(m.group(1), []).append(path)
    return names


def all_names(parts, names):
    """Whether the parts, joined in some way by underscores, are all names."""
    if not parts:
        return True
    return any("_".join(parts[:i]) in names and all_names(parts[i:], names) for i in range(1, len(parts) + 1))


def rows():
    names = declared()
    known = library_names() | {snake(n) for n, where in names.items() if any("/specs/" in p for p in where)}
    table = {}
    for n in names:
        if n in GIVEN:
            table[n] = GIVEN[n]
        elif "-" in n:
            parts = [snake(p) for p in n.split("-")]
            table[n] = ("-" if all_names(parts, known) else "_").join(parts)
        else:
            table[n] = snake(n)
    return {old: new for old, new in (GIVEN | table).items() if old != new}, names


def turned(text, table):
    return TOKEN.sub(lambda m: word(m.group(0), table), text)


def turned_file(text, table, mark):
    """Code and comments apart: in a comment a name in camel case turns, and any other that the file's code has, but for plain words."""
    lines = [line.partition(mark) for line in text.split("\n")]
    code = {t for a, _, _ in lines for t in TOKEN.findall(a)}
    shown = {a: b for a, b in table.items() if not a.isalpha() and a in code or re.search("[a-z][A-Z]", a)}
    return "\n".join(turned(a, table) + m + turned(b, shown) for a, m, b in lines)


def word(token, table):
    if token in table:
        return table[token]
    bare = token.rstrip("'")
    if bare in table:
        return table[bare] + token[len(bare):]
    # a local name
    return snake(token) if re.fullmatch(r"[a-z]+(?:[A-Z][a-z]+)+[₀-₉']*", token) else token


def projections(text):
    text = text.replace("′", "'").replace("«", "").replace("»", "")
    text = re.sub(r"Rattle·(\w+)·specs\.specs\.", r"Rattle.\1.specs.", text)
    text = re.sub(r"Rattle·(\w+)\.specs\.", r"Rattle.\1.specs.", text)
    while True:
        after = re.sub(r"\(([\w']+(?: \.[\w«»']+)+)\)", lambda m: m.group(1).replace(" .", "."), text)
        after = re.sub(r"(?<=[\w')]) \.(?=[\w«])", ".", after)
        if after == text:
            return text
        text = after


def turn_edit(path, table):
    lines = []
    target = ""
    for line in read(path).splitlines():
        if line.startswith("file: "):
            target = line
        head, colon, rest = line.partition(": ")
        if head in ("old", "new") and colon:
            for a, b in WORDS.items():
                rest = rest.replace(a, b)
            if target.endswith(".antt") or "ghost use" in rest or "ensures" in rest:
                rest = projections(rest)
            line = head + ": " + turned(rest, table)
        lines.append(line)
    write(path, "\n".join(lines) + "\n")


def stands(path):
    """What of an edit does not stand exactly once in its file."""
    root = path.split("/must-fail/")[0]
    text, wrong = "", []
    for line in read(path).splitlines():
        if line.startswith("file: "):
            target = os.path.join(root, line[6:])
            text = read(target) if os.path.exists(target) else ""
        if line.startswith("old: ") and text.count(line[5:]) != 1:
            wrong.append(line[5:])
    return wrong


def main():
    table, names = rows()
    after = {}
    for old in names:
        after.setdefault(table.get(old, old), []).append(old)
    for new, olds in sorted(after.items()):
        if len(olds) > 1:
            print(f"look: {' and '.join(olds)} are both {new}: {sorted({p for o in olds for p in names[o]})}")
    for path in sorted(glob.glob("crates/*/src/**/*.rt", recursive=True)) + sorted(glob.glob("crates/*/**/*.antt", recursive=True)):
        text = read(path)
        new = turned_file(text, table, "//" if path.endswith(".rt") else "--")
        if new != text:
            write(path, new)
    for path in sorted(glob.glob("crates/*/must-fail/*.edit")):
        turn_edit(path, table)
        for line in stands(path):
            print(f"look: {path} no longer stands: {line}")
    for path in ["README.md"] + sorted(glob.glob("docs/**/*.md", recursive=True)) + sorted(glob.glob("tests/**/*.md", recursive=True)):
        text = read(path)
        new = re.sub(r"`[^`\n]+`", lambda m: turned(m.group(0), table), text)
        if new != text:
            write(path, new)
    print(f"respell: {len(table)} names")
    for old, new in sorted(table.items()):
        print(f"  {old} {new}")


if __name__ == "__main__":
    sys.exit(main())
