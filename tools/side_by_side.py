#!/usr/bin/env python3
"""side_by_side.py OLD NEW: what the public functions, the public types and the definitions of two trees say, old and new, where they differ, as the tables
of docs/DESIGN-PASS.md. OLD and NEW are folders with crates/; the kit's contracts.py compares functions and definitions, types are compared here."""
import glob
import json
import re
import subprocess
import sys

old, new = sys.argv[1:3]
run = [sys.executable, "/opt/rattle/port/contracts.py", old, new, "--json"]
found = json.loads(subprocess.run(run, stdout=subprocess.PIPE, check=False).stdout)


def cell(text):
    text = re.sub(r"\s+", " ", text).replace("|", "\\|").replace("( ", "(").replace(", )", ")")
    return f"`{text}`" if text else ""


def is_public(tree, place):
    crate, file, *name = place.split()
    source = open(f"{tree}/crates/{crate}/{file}", encoding="utf-8").read()
    return re.search(rf"\n *pub (extern \"C\" )?fn {re.escape(name[-1])}\b", source) is not None


def short(place):
    crate, file, *name = place.split()
    return f"`{crate}::{'::'.join(name)}`"


def clauses(kinds):
    said = []
    for word, rows in kinds:
        said += [f"{word} {name} {{ {text} }}".replace("  ", " ") for name, text in rows]
    return "<br>".join(cell(it) for it in said) or "no clause"


def types(tree):
    """The public structs and enums of a tree, each by crate and name, without its comments."""
    found = {}
    for file in sorted(glob.glob(f"{tree}/crates/*/src/**/*.rt", recursive=True)):
        crate = file.split("/crates/")[1].split("/")[0]
        source = re.sub(r" *//[^\n]*", "", open(file, encoding="utf-8").read())
        for name, body in re.findall(r"^pub ((?:struct|enum) \w+.*?) ?\{\n(.*?)^\}", source, re.M | re.S):
            found[crate, name.split("<")[0]] = body.strip().rstrip(",")
    return found


print("### Public functions that have another signature\n\n| function | old | new |\n|---|---|---|")
for place, before, after in sorted(found["signatures changed"]):
    if is_public(new, place):
        print(f"| {short(place)} | {cell(before)} | {cell(after)} |")

print("\n### Public functions whose clauses read otherwise\n\n| function | old | new |\n|---|---|---|")
for place, requires, ensures, requires_now, ensures_now in sorted(found["contracts changed"]):
    if is_public(new, place):
        before = clauses([("requires", requires), ("ensures", ensures)])
        after = clauses([("requires", requires_now), ("ensures", ensures_now)])
        print(f"| {short(place)} | {before} | {after} |")

print("\n### Public types that read otherwise, or are new\n\n| type | old | new |\n|---|---|---|")
before, after = types(old), types(new)
for crate, name in sorted(after):
    if before.get((crate, name)) != after[crate, name]:
        print(f"| `{crate}`: `{name}` | {cell(before.get((crate, name), ''))} | {cell(after[crate, name])} |")

print("\n### Definitions that read otherwise\n\n| definition | old | new |\n|---|---|---|")
for row in sorted(found["definitions"]["changed"]):
    crate, name, before, after = row
    print(f"| `{crate}`: `{name}` | {cell(' '.join(before))} | {cell(' '.join(after))} |")
