#!/usr/bin/env python3
"""Gives the definitions and lemmas of this repository the spelling of today's Rattle: snake case, types in upper camel case.

usage: python3 tools/respell.py [--table FILE]     at the top of the repository, once, after the toolchain's own script

The table, respell.tsv beside this file, holds a line for each name: the old spelling, a tab, the new one. Names are
replaced as whole words in specs/ and proofs/ (not in comments), in the clauses, ghost items and ghost imports of src/, and
in the back quotes of README.md and docs/, but for PORT.md, which tells the old names too. A name that Rattle makes, as the one behind `w.`, stays. Prints each file in
which a new name stood already, so that names that fall together are seen.
"""
import os
import re
import sys

HERE = os.path.dirname(os.path.realpath(__file__))
WORD = re.compile(r"[^\s(){}\[\],;.`\"]+")
FIELD = re.compile(r"^\s+(?:pub )?([^\s:(){}\[\],;.]+)\s+:\s")


def table(path):
    with open(path, encoding="utf-8") as f:
        return dict(line.rstrip("\n").split("\t") for line in f if line.strip())


def sources(top, endings):
    for folder, dirs, files in os.walk(os.path.join(top, "crates")):
        dirs[:] = sorted(d for d in dirs if d != "out")
        for name in sorted(files):
            if name.endswith(endings):
                yield os.path.join(folder, name)


def read(path):
    with open(path, encoding="utf-8") as f:
        return f.read()


def record_fields(top):
    """The names of the fields of the repository's own records: behind a dot these alone are renamed."""
    fields = set()
    for path in sources(top, ".antt"):
        inside = False
        for line in read(path).splitlines():
            if re.match(r"\s*(pub )?record\s", line):
                inside = True
            elif line and not line.startswith(" "):
                inside = False
            elif inside and (m := FIELD.match(line)):
                fields.add(m[1])
    return fields


def renamed(text, names, fields):
    out, last = [], 0
    for m in WORD.finditer(text):
        new = names.get(m[0])
        if new is None:
            continue
        if text[m.start() - 1 : m.start()] == ".":
            before = re.search(r"([^\s(){}\[\],;.`]*)\.$", text[: m.start()])[1]
            if not before[:1].isupper() and m[0] not in fields:
                continue
        out += [text[last : m.start()], new]
        last = m.end()
    return "".join(out) + text[last:]


def antt(text, names, fields):
    lines = []
    for line in text.split("\n"):
        m = re.search(r"(^|\s)--\s", line)
        code = line[: m.start()] if m else line
        lines.append(renamed(code, names, fields) + line[len(code) :])
    return "\n".join(lines)


def ghost_parts(text):
    """Where clauses, ghost items and ghost imports stand in a source file."""
    plain = re.sub(r"//[^\n]*|\"(?:\\.|[^\"\\])*\"", lambda m: " " * len(m[0]), text)
    for m in re.finditer(r"\bghost use [^;]*;|\b(?:requires|ensures|ghost)\b[^{};]*\{", plain):
        end = m.end()
        if plain[end - 1] == "{":
            deep = 1
            while deep and end < len(plain):
                deep += (plain[end] == "{") - (plain[end] == "}")
                end += 1
        yield m.start(), end


def rust(text, names, fields):
    out, last = [], 0
    for start, end in ghost_parts(text):
        if start < last:
            continue
        out += [text[last:start], renamed(text[start:end], names, fields)]
        last = end
    return "".join(out) + text[last:]


def page(text, names, fields):
    return re.sub(r"`[^`\n]+`", lambda m: renamed(m[0], names, fields), text)


def main(argv):
    top = os.getcwd()
    names = table(argv[1] if argv[:1] == ["--table"] else os.path.join(HERE, "respell.tsv"))
    fields = record_fields(top)
    pages = [p for p in ["README.md", *("docs/" + d for d in sorted(os.listdir("docs")) if d.endswith(".md") and d != "PORT.md")] if os.path.exists(p)]
    changed = 0
    for path in [*sources(top, (".antt", ".rt")), *pages]:
        text = read(path)
        turn = antt if path.endswith(".antt") else rust if path.endswith(".rt") else page
        new = turn(text, names, fields)
        if new == text:
            continue
        had = set(WORD.findall(text))
        for old in sorted(had & names.keys()):
            if names[old] in had and not path.endswith(".md"):
                print(f"falls together? {os.path.relpath(path, top)}: {old} and {names[old]}")
        with open(path, "w", encoding="utf-8") as f:
            f.write(new)
        changed += 1
    print(f"{changed} files")


if __name__ == "__main__":
    main(sys.argv[1:])
