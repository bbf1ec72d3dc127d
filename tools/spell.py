#!/usr/bin/env python3
"""Spells the repository's own ghost names as today's Rattle does: words in snake case, types and modules in camel case.

usage: python3 tools/spell.py [--list]      at the top of the repository, once, after port.py

It renames in crates/*/specs, crates/*/proofs, the clauses and ghost imports of crates/*/src, the edits of must-fail/, and the words
between backquotes in comments. A name is the repository's own where a file of it declares or binds it; names that are imported
from a library, and the goals of a walk by hand (`tie.`), stay. Names that would fall together are refused. --list prints what
would be renamed and writes nothing."""

import collections
import os
import re
import sys

TOKEN = re.compile(r"[^\s(){}\[\].,;:\"«»⌜⌝=|`]+")
DECLARED = re.compile(r"^ *(?:(?:abbrev|opaque|unfoldable|pub|instance)\s+)*(?:(?:record|data)\s+)?(?:pub\s+)?([^\s:(){},.=|]+)(?:\s+[^=]*?)?\s*:(?:\s|$)")
BOUND = re.compile(r"\blet\s+([^\s:=]+)|λ\s+([^.]*)\.|\(((?:[^\s(){}:]+\s+)+):|\{((?:[^\s(){}:]+\s+)+):|(?:[;{]|record \{)\s*([^\s(){}:=;]+)\s*=")
USE = re.compile(r"^(?:pub )?(?:ghost )?use ([A-Za-z]\S*?)\.\{([^}]*)\}")
KEPT = {"T-dec": "T_dec", "T_true": "T_true", "T_false": "T_false"}
WORDS = {"use", "mod", "open", "module", "let"}


def files(root):
    for folder, dirs, names in os.walk(os.path.join(root, "crates")):
        dirs[:] = sorted(d for d in dirs if d != "out")
        for name in sorted(names):
            if name.endswith((".antt", ".rt", ".edit")):
                yield os.path.join(folder, name)


def spelt(name):
    if name in KEPT:
        return KEPT[name]
    if name[0].isupper():
        return "".join(w[:1].upper() + w[1:] for w in re.split("[-_]", name))
    return name.replace("-", "_")


def odd(name):
    return bool(re.search(r"[A-Za-zα-ω]", name)) and ("-" in name or (name[0].isupper() and "_" in name)) and spelt(name) != name


def own_module(path, crates):
    parts = path.split(".")
    return parts[0] == "Rattle" and len(parts) > 1 and parts[1] in crates


def names(root):
    crates = set(os.listdir(os.path.join(root, "crates")))
    own, foreign, goals = set(), set(), set()
    for path in files(root):
        if path.endswith(".edit"):
            continue
        text = open(path, encoding="utf-8").read()
        for line in text.split("\n"):
            if (m := USE.match(line)) and not own_module(m[1], crates):
                foreign |= {n.split(" as ")[-1].strip() for n in m[2].split(",")}
            if path.endswith(".rt"):
                continue
            code = re.sub(r"\s*--.*", "", line)
            if (m := DECLARED.match(code)) and m[1] not in WORDS:
                (goals if re.search(r":\s*(?:\(.*\)\s*→\s*)?tie\.(Need|invariant|decreases|Inv|Measure)", code) else own).add(m[1])
            for m in BOUND.finditer(code):
                own |= set(" ".join(g for g in m.groups() if g).split())
    return {n for n in own - foreign - goals if odd(n) and TOKEN.fullmatch(n)}, own & foreign


def renamed(text, table, ghost):
    """The text with its names respelled: all of it where `ghost`, and else clauses, ghost imports and backquoted words alone."""

    def words(s, before=""):
        out, last = [], 0
        for m in TOKEN.finditer(s):
            if m[0] in table and not re.search(r"\btie\.$", s[: m.start()]):
                out += [s[last : m.start()], table[m[0]]]
                last = m.end()
        return "".join(out) + s[last:]

    quoted = lambda s: re.sub(r"`[^`\n]*`", lambda m: words(m[0]), s)  # noqa: E731
    lines, clause = [], 0
    for line in text.split("\n"):
        mark = "--" if ghost else "//"
        at = line.find(mark) if not ghost else (m.start() if (m := re.search(r"(^|\s)--", line)) else -1)
        code, comment = (line, "") if at < 0 else (line[:at], line[at:])
        if ghost or clause or re.match(r"\s*(ghost use|requires|ensures|ghost )", code):
            if not ghost:
                clause = 0 if code.lstrip().startswith("ghost use") else max(0, clause + code.count("{") - code.count("}"))
            code = words(code)
        lines.append(code + quoted(comment))
    return "\n".join(lines)


def main(argv):
    own, both = names(".")
    table = {n: spelt(n) for n in own}
    fall = collections.defaultdict(set)
    for old, new in table.items():
        fall[new].add(old)
    there = set()
    for path in files("."):
        if path.endswith(".antt"):
            there |= set(TOKEN.findall(open(path, encoding="utf-8").read()))
    bad = [(new, olds) for new, olds in sorted(fall.items()) if len(olds) > 1]
    if bad:
        raise SystemExit(f"fall together: {bad}")
    if "--list" in argv:
        print("of a library too, and kept:", *sorted(n for n in both if odd(n)))
        print("\n".join(f"{a} {b}{' also there' if b in there else ''}" for a, b in sorted(table.items())))
        return
    changed = 0
    for path in files("."):
        text = open(path, encoding="utf-8").read()
        if path.endswith(".edit"):
            new = "\n".join(renamed(l, table, "specs/" in text or "proofs/" in text) if l[:4] in ("old:", "new:") else l for l in text.split("\n"))
        else:
            new = renamed(text, table, path.endswith(".antt"))
        if new != text:
            changed += 1
            open(path, "w", encoding="utf-8").write(new)
    print(f"{len(table)} names, {changed} files")


main(sys.argv[1:])
