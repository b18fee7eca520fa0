#!/usr/bin/env python3
"""Spells this repository's own definitions and lemmas as today's Rattle does: words in snake case. Run once, after the kit's port.py.

usage: tools/respell.py [--check] [FOLDER]

A name turns if it has a small letter followed by a capital, or a dash, and if the repository's specs/ or proofs/ declare it: as a definition, a lemma, a field, a
constructor or an alias. What a file imports from the kit under that spelling stays there, and so do the names that Rattle makes. Names turn in antt, in the clauses
and ghost items of .rt files, in the lines of must-fail edits, and between backquotes in comments and pages. A lemma that would have a definition's name gets _lem.
The crate hex becomes hexlines, since Rattle has a library hex, and the module Contracts of analyser's specs CallAnswers, since Rattle makes a module contracts there.
--check writes nothing and prints names that fall together in a file.
"""

import collections
import os
import re
import sys

WORD = re.compile(r'[^\s(){}.;,@"«»]+')
DECLARED = re.compile(r"^ *(?:(?:abbrev|unfoldable|pub) )*([^\s(){}.;,@\"«»:λ]+)(?: (?:[(\{][^\n]*?[)\}]))* :(?: |$)")
TAKEN = re.compile(r"^ *(?:pub )?(?:record|data) ")
KIT = re.compile(r"\buse (?:mathlib|native|lib|borrow|Prim|denote|logic|Rattle\.(?:std|core|io|libc|os|std_\w+))\b[^{;\n]*\{([^}]*)\}")
ALIAS = re.compile(r"(?<![^\s{,])\S+ as ([^\s,};]+)")
# Names that Rattle makes, and the names that proofs give to what it asks by those names.
MADE = re.compile(r"^(?:\+.*|Need-.*|At-.*|loop-.*|invariant-.*|decreases-.*|returns-.*|overflow_.*|returns)$")


# Names that would fall together with another, and what they are called.
OTHERWISE = {
    "of_one": "of_one_lem",
    "row_count": "row_count_lem",
    "lines-from": "lines_from_lem",
    "at-least": "at_least_lem",
    "no_line": "not_line",
    "entity-rule": "entity_rule_broken",
    "rowlist-prints": "rowlist_prints_lem",
    "strike-prints": "strike_prints_lem",
}
# The same in one file alone.
THERE = {
    "crates/policy/proofs/Laws/Tables.antt": {"no-entity": "no_entity_lem"},
}
PATHS = [("crates/hex", "crates/hexlines"), ("crates/analyser/specs/Contracts.antt", "crates/analyser/specs/CallAnswers.antt")]


def turned(name):
    return re.sub(r"(?<=[a-z0-9])[A-Z]", lambda m: "_" + m[0].lower(), name).replace("-", "_")


def files(root):
    for folder, dirs, names in os.walk(root):
        dirs[:] = sorted(d for d in dirs if d not in ("out", ".git", "target"))
        for n in sorted(names):
            yield os.path.join(folder, n)


def wanted(name):
    if MADE.match(name):
        return False
    if re.match(r"^[a-z][^A-Z]*[A-Z]", name) and "-" not in name and not re.match(r"^[a-z0-9_]*[A-Z]$", name):
        return True
    return re.search(r"(?<=[\w'ᴰ₀-₉])-(?=\w)", name) is not None


def mapping(root):
    found = {}
    members = set()
    for p in files(os.path.join(root, "crates")):
        if not p.endswith((".antt", ".rt")):
            continue
        with open(p, encoding="utf-8") as f:
            text = f.read()
        names = []
        block = None
        for line in text.split("\n"):
            if not line.strip():
                continue
            indent = len(line) - len(line.lstrip())
            if block is not None and indent <= block:
                block = None
            if TAKEN.match(line):
                block = indent
            elif p.endswith(".antt") and not line.lstrip().startswith(("--", "use ")):
                m = DECLARED.match(line)
                if m:
                    names.append(m[1])
                    if block is not None:
                        members.add(m[1])
        for item in re.findall(r"\buse [^\n;{]*\{[^}]*\}", text):
            names += ALIAS.findall(item)
        for n in names:
            if wanted(n):
                found[n] = turned(n)
    back = collections.defaultdict(list)
    for old in sorted(found):
        back[found[old]].append(old)
    for new, olds in back.items():
        for old in olds:
            if len(olds) > 1 and "-" in old and old not in members:
                found[old] = new + "_lem"
    found.update(OTHERWISE)
    return found


def kept(text):
    """The names that the file has from the kit."""
    names = set()
    for m in KIT.finditer(text):
        for item in m[1].split(","):
            words = item.split()
            if words:
                names.add(words[0])
                names.add(words[-1])
    return names


def swap(text, table, stay):
    def one(m):
        w = m[0]
        if w in stay or w not in table:
            return w
        before = text[: m.start()]
        if before.endswith(("tie.", "goal.")):
            return w
        if before.endswith(".") and w in OTHERWISE:
            return turned(w)
        return table[w]

    out = WORD.sub(one, text)
    return re.sub(r"(?<![^\s{,])(\S+) as \1(?=[\s,};])", r"\1", out)


def in_quotes(text, table, stay):
    return re.sub(r"`[^`\n]+`", lambda m: re.sub(r"[^\s(){}.;,@\"«»`:]+", lambda w: table.get(w[0], w[0]) if w[0] not in stay else w[0], m[0]), text)


def code(text, table, stay, mark):
    out = []
    for line in text.split("\n"):
        at = 0 if line.lstrip().startswith(mark) else len(line)
        if at:
            m = re.search(r"(?<=\s)" + re.escape(mark) + r"(?=\s)", line)
            at = m.start() if m else len(line)
        out.append(swap(line[:at], table, stay) + in_quotes(line[at:], table, stay))
    return "\n".join(out)


def edit(text, table):
    out = []
    for line in text.split("\n"):
        m = re.match(r"^(old: |new: )(.*)$", line)
        out.append(m[1] + swap(m[2], table, set()) if m else in_quotes(line, table, set()) if line.startswith("#") else line)
    return "\n".join(out)


def crates(text):
    """The crate hex and the module Contracts by their new names."""
    text = re.sub(r"\bRattle\.hex(?=\.)", "Rattle.hexlines", text)
    text = re.sub(r"(?<![\w.:])hex(?=::)|(?<=crates/)hex(?=/)", "hexlines", text)
    return re.sub(r"(?<=Rattle\.analyser\.specs\.)Contracts\b|(?<=^pub mod )Contracts$", "CallAnswers", text, flags=re.M)


def main():
    args = sys.argv[1:]
    check = "--check" in args
    root = ([a for a in args if a != "--check"] or ["."])[0]
    everywhere = mapping(root)
    changed = 0
    if not check:
        for old, new in PATHS:
            os.rename(os.path.join(root, old), os.path.join(root, new))
    for p in files(root):
        short = os.path.relpath(p, root)
        page = p.endswith(".md") and not short.startswith("docs/PORT")
        if not (page or short == "crates.txt" or (short.startswith("crates/") and p.endswith((".antt", ".rt", ".edit")))):
            continue
        with open(p, encoding="utf-8") as f:
            text = f.read()
        stay = kept(text)
        table = everywhere | THERE.get(short, {})
        if short == "crates.txt":
            new = re.sub(r"\bhex\b", "hexlines", text)
        elif page:
            new = in_quotes(text, table, set())
        elif p.endswith(".edit"):
            new = edit(text, table)
        else:
            new = code(text, table, stay, "--" if p.endswith(".antt") else "//")
            words = {w for line in text.split("\n") if not line.lstrip().startswith(("--", "//")) for w in re.findall(r'(?<![\w.])[^\s(){}.;,@"«»:]+', line)}
            for old in sorted(words & table.keys() - stay):
                if table[old] in words or any(o != old and table[o] == table[old] for o in words & table.keys() - stay):
                    print(f"{short}: {old} meets {table[old]}")
        new = crates(new)
        if new != text:
            changed += 1
            if not check:
                with open(p, "w", encoding="utf-8") as f:
                    f.write(new)
    print(f"{len(everywhere)} names, {changed} files")


if __name__ == "__main__":
    main()
