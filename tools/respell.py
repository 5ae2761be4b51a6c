#!/usr/bin/env python3
"""Brings the repository's own definitions and lemmas to snake case, after port.py: `fillFrom` and `fill-from` become `fill_from`, a fact (a definition that gives
a type) becomes `FillsFrom`. What other libraries declare, functions of src/, strings, exported names, inputs and outputs keep their names.

usage: respell.py [--check] ROOT     --check writes nothing and prints what would be renamed, and where two names would fall together
"""
import collections
import os
import re
import sys

NAME = r"[^\s(){}.;,@\"«»:]+"
DECLARED = re.compile(rf"^ *(?:(?:pub|abbrev|unfoldable|private|opaque) )*({NAME})(?: \{{[^{{}}\n]*\}})* :(?![\w=])", re.M)
TYPE = re.compile(rf"^ *(?:(?:pub) )?(?:record|data) ({NAME})", re.M)
USE = re.compile(r"^( *)((?:pub |ghost )?use )([^\s;{]+?)(?:\.\{([^}]*)\})?( as [^\s;]+)?(;?)[ \t]*$", re.M)
QUIET = re.compile(r'"(?:[^"\\\n]|\\.)*"|(?<![^\s(){}.;,@"«»])--[^\n]*|\{-.*?-\}', re.S)
WORD = re.compile(r'[^\s(){}.;,@"«»]+')

HERE = os.path.dirname(os.path.realpath(__file__))


def rows():
    """Names that would fall together with another of their file, or with a definition: each with its new name."""
    with open(f"{HERE}/respelled.tsv", encoding="utf-8") as it:
        for row in it:
            if row.strip() and not row.startswith("#"):
                where, old, new = row.rstrip("\n").split("\t")
                yield (where, old), new


OWN = dict(rows())


def snake(name):
    if "◌" in name:
        return name
    words = re.sub(r"(?<=[a-z0-9])[A-Z](?=[a-z0-9]|$)", lambda m: "_" + m[0].lower(), name) if name[:1].islower() else name
    return words[:1] + words[1:].replace("-", "_")


def files(root):
    for crate in sorted(os.listdir(f"{root}/crates")):
        for part in ("src", "specs", "proofs"):
            for folder, dirs, names in os.walk(f"{root}/crates/{crate}/{part}"):
                dirs.sort()
                for it in sorted(names):
                    if it.endswith((".antt", ".rt")):
                        yield crate, part, os.path.join(folder, it)


def module_of(root, path):
    """The name by which another file imports this one's declarations."""
    steps = os.path.relpath(path, f"{root}/crates")[: -len(".antt")].split("/")
    return ".".join(["Rattle", *steps])


def fields_of(root, texts):
    """The fields of the repository's own records, each with its new name."""
    fields = {}
    for _, _, path in files(root):
        indent = None
        for line in texts[path].split("\n"):
            stands = len(line) - len(line.lstrip())
            if re.match(r" *(pub )?record ", line):
                indent = stands
            elif indent is not None and line.strip() and not line.strip().startswith("--"):
                if stands <= indent:
                    indent = None
                elif m := re.match(rf" *(?:pub )?({NAME}) :", line):
                    fields[m[1]] = snake(m[1])
    return {old: new for old, new in fields.items() if old != new}


def main(argv):
    check = "--check" in argv
    root = [it for it in argv if it != "--check"][0]
    texts = {path: open(path, encoding="utf-8").read() for _, _, path in files(root)}
    declares = {}  # module -> {old: new}
    for crate, part, path in files(root):
        if not path.endswith(".antt"):
            continue
        code = QUIET.sub(" ", texts[path])
        where = os.path.relpath(path, f"{root}/crates")
        found = {}
        for it in [m for m in DECLARED.findall(code)] + TYPE.findall(code):
            if it in ("let", "in", "#") or it.startswith("-"):
                continue
            found[it] = OWN.get((where, it), snake(it))
        declares[module_of(root, path)] = found
    everywhere = collections.defaultdict(set)
    for module, found in declares.items():
        for old, new in found.items():
            if old != new:
                everywhere[old].add(new)
    fields = fields_of(root, texts)
    said = []
    for crate, part, path in files(root):
        text = texts[path]
        where = os.path.relpath(path, f"{root}/crates")
        mine = declares.get(module_of(root, path), {}) if path.endswith(".antt") else {}
        table, theirs, heads, others = dict(mine), set(), {}, set()
        code = QUIET.sub(" ", text) if path.endswith(".antt") else re.sub(r'//[^\n]*|"(?:\\.|[^"\\])*"', " ", text)
        for m in USE.finditer(code):
            module, items, alias = m[3], m[4], m[5]
            of = declares.get(module)
            if of is None and items is not None:
                # a submodule's or a library's
                for it in re.split(r",\s*", items):
                    theirs.add(it.split(" as ")[-1].strip("«» "))
                continue
            if items is not None:
                for it in re.split(r",\s*", items):
                    name, _, other = it.partition(" as ")
                    name = name.strip("«» ")
                    if name == "*":
                        table.update(of)
                        continue
                    if name not in of:
                        continue
                    if not other:
                        table[name] = of[name]
            elif module in declares:
                heads[(alias or " as " + module.rsplit(".", 1)[1])[4:].strip()] = declares[module]
            elif alias and module.rsplit(".", 1)[0] not in declares:
                others.add(alias[4:])
            elif module.rsplit(".", 1)[0] in declares:
                # one item with no braces
                of = declares[module.rsplit(".", 1)[0]]
                name = module.rsplit(".", 1)[1]
                if name in of:
                    table[(alias or " as " + name)[4:].strip()] = of[name] if not alias else alias[4:].strip()
        theirs -= set(mine)
        for it in theirs:
            table.pop(it, None)
        table = {old: new for old, new in table.items() if old != new}
        # names that would fall together
        words = set(WORD.findall(code))
        for old, new in table.items():
            if new in words or new in theirs or [o for o, n in table.items() if n == new and o != old]:
                said.append(f"together: {where}: {old} -> {new}")

        def turned(code_text):
            def one(m):
                word = m[0]
                before = code_text[max(0, m.start() - 1) : m.start()]
                if before == ".":
                    # the item of a module's alias, or of a path written whole
                    head = re.search(rf"({NAME}(?:\.{NAME})*)\.$", code_text[: m.start()])
                    if head and head[1] in heads:
                        return heads[head[1]].get(word, word)
                    if head and head[1] in declares:
                        return declares[head[1]].get(word, word)
                    return word if head and head[1] in others else fields.get(word, word)
                if word in fields and re.match(r" +=(?![\w=])", code_text[m.end() : m.end() + 4]):
                    return fields[word]
                return table.get(word, word)

            return WORD.sub(one, code_text)

        out, last = [], 0
        comment = re.compile(r'"(?:[^"\\\n]|\\.)*"|(?<![^\s(){}.;,@"«»])--[^\n]*|\{-.*?-\}' if path.endswith(".antt") else r'//[^\n]*|"(?:\\.|[^"\\])*"|\'(?:\\.|[^\'\\])\'', re.S)

        def prose(text):
            def span(m):
                return "`" + re.sub(WORD, lambda w: table.get(w[0]) or (next(iter(everywhere[w[0]])) if len(everywhere.get(w[0], ())) == 1 else w[0]), m[1]) + "`"

            text = re.sub(r"`([^`\n]*)`", span, text)
            return re.sub(
                r"(?<![\w`-])[a-z]\w*[a-z0-9][A-Z]\w*(?![\w`-])",
                lambda m: table.get(m[0]) or (next(iter(everywhere[m[0]])) if len(everywhere.get(m[0], ())) == 1 else m[0]),
                text,
            )

        for m in comment.finditer(text):
            out.append(turned(text[last : m.start()]))
            out.append(m[0] if m[0].startswith(('"', "'")) else prose(m[0]))
            last = m.end()
        out.append(turned(text[last:]))
        new = "".join(out)
        # items of a use line from a module of ours
        def use_line(m):
            module, items = m[3], m[4]
            of = declares.get(module)
            if of is None and module.rsplit(".", 1)[0] in declares and items is None:
                of = declares[module.rsplit(".", 1)[0]]
                head, tail = module.rsplit(".", 1)
                return f"{m[1]}{m[2]}{head}.{of.get(tail, tail)}{m[5] or ''}{m[6]}"
            if of is None or items is None:
                return m[0]
            turned_items = []
            for it in re.split(r",\s*", items):
                name, _, other = it.partition(" as ")
                bare = name.strip("«» ")
                turned_items.append(of.get(bare, bare) + (f" as {other}" if other else ""))
            return f"{m[1]}{m[2]}{module}.{{{', '.join(turned_items)}}}{m[5] or ''}{m[6]}"

        # (the use lines are taken from the text as it was)
        uses = iter([use_line(m) for m in USE.finditer(text)])
        new = USE.sub(lambda m: next(uses), new)
        if new != text and not check:
            with open(path, "w", encoding="utf-8") as f:
                f.write(new)
    for it in sorted(set(said)):
        print(it)
    if check:
        for module, found in sorted(declares.items()):
            for old, new in found.items():
                if old != new:
                    print(f"{module}\t{old}\t{new}")
    return 0


if __name__ == "__main__":
    raise SystemExit(main(sys.argv[1:]))
