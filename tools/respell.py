#!/usr/bin/env python3
"""Spells the repository's own definitions and lemmas as today's Rattle does: words in snake case, where they were in
camel case or had dashes. Types, modules, functions, exported names and strings keep theirs.

usage: python3 tools/respell.py [--papers]      at the top of a checkout, once, after the port's own scripts

What is renamed: the definitions, constructors, fields and lemmas that a file of specs/ or proofs/ declares, wherever
they are cited: in specs/, proofs/, clauses and must-fail edits; with --papers, between backticks in README.md and docs/.
A word that a file has from a library of the kit keeps its spelling there.
"""
import collections
import glob
import os
import re
import sys

WORD = r"[A-Za-zκμ][\w'₀-₉-]*"
# Where two names would fall together, the definition takes the plain one.
APART = {
    "pastEnd": "past_window_end",
    "startUp": "start_up_of",
    "readAgain": "lent_again",
    "guid-words": "guid_words_lem",
    "words-bytes": "words_bytes_lem",
    "bankFits": "bank_fits_words",
    "entryIn": "entry_words_in",
    "no-session": "no_session_stays",
    "every_in": "every_in_lem",
    "all_in": "all_in_lem",
    "ones-in": "ones_in_lem",
}


def spelled(name):
    out = re.sub(r"(?<=[a-z0-9₀-₉])([A-Z])", lambda m: "_" + m.group(1).lower(), name)
    return out.replace("-", "_")


def antt_files():
    for at, folders, files in os.walk("crates"):
        folders[:] = sorted(f for f in folders if f not in ("out", "src", "must-fail", "data"))
        for f in sorted(files):
            if f.endswith(".antt"):
                yield os.path.join(at, f)


def read(path):
    with open(path, encoding="utf-8") as f:
        return f.read()


def declared():
    """The names that files of specs/ and proofs/ declare, each with its files, and those that are fields."""
    names, fields = collections.defaultdict(set), set()
    for path in antt_files():
        if path.endswith("/Proof.antt"):
            continue
        in_record = False
        for line in read(path).split("\n"):
            if re.match(r"\s*(?:pub )?(?:abbrev )?(?:pub )?record ", line):
                in_record = True
            elif line and not line.startswith(" "):
                in_record = False
            m = re.match(rf"( *)(?:(?:abbrev|unfoldable) )?(?:pub )?({WORD}) :(?: |$)", line)
            if m:
                names[m.group(2)].add(path)
                if in_record and m.group(1):
                    fields.add(m.group(2))
    return names, fields


def table():
    names, fields = declared()
    turned = {n: spelled(n) for n in names if n[0].islower() and spelled(n) != n}
    after = collections.defaultdict(set)
    for n in names:
        after[turned.get(n, n)].add(n)
    for new, olds in after.items():
        if len(olds) < 2:
            continue
        plain = [o for o in olds if re.search("[a-z][A-Z]", o)]
        for o in olds:
            if o not in plain:
                turned[o] = new + "_lem"
    for old, new in APART.items():
        if old in names:
            turned[old] = new
            for o in after.get(spelled(old), ()):
                if o != old and o not in APART:
                    turned.pop(o, None) if spelled(o) == o else turned.__setitem__(o, spelled(o))
    return turned, fields


def foreign(text):
    """The words that a file has from a library of the kit."""
    own = {os.path.basename(c) for c in glob.glob("crates/*")}
    words = set()
    for m in re.finditer(r"^\s*(?:ghost )?use ([\w'.◌+-]+)\.\{([^}]*)\}", text, re.M):
        head = m.group(1).split(".")
        if head[0] == "Rattle" and len(head) > 1 and head[1] in own:
            continue
        words |= {w.split(" as ")[-1].strip() for w in m.group(2).split(",")}
    return words


def turn(text, turned, fields, skip):
    aliases = set(re.findall(r"^\s*(?:ghost )?use [\w'.+-]+ as ([a-z][\w'-]*)", text, re.M))

    def one(m):
        word, before = m.group(0), m.string[: m.start()]
        if word in skip or word not in turned:
            return word
        if before.endswith("."):
            dotted = re.search(r"([\w'-]+)\.$", before)
            by_module = dotted and (dotted.group(1)[0].isupper() or dotted.group(1) in aliases)
            if word not in fields and not by_module:
                return word
        if m.string[m.end():].startswith(".") and re.search(r"(?:use|Rattle)[\w .'-]*$", before.split("\n")[-1]):
            return word
        return turned[word]

    return re.sub(rf"(?<![\w'₀-₉-]){WORD}", one, text)


def in_clauses(text, turned, fields, skip):
    """A .rt file with the clauses and ghost items alone turned: no plain Rust name has a dash or a camel's hump."""
    out = []
    for line in text.split("\n"):
        if line.lstrip().startswith("//"):
            out.append(line)
        else:
            words = {w: n for w, n in turned.items() if "-" not in w}
            out.append(turn(line, words, fields, skip))
    return "\n".join(out)


def main():
    turned, fields = table()
    for path in antt_files():
        text = read(path)
        new = turn(text, turned, fields, foreign(text))
        if new != text:
            open(path, "w", encoding="utf-8").write(new)
    for path in sorted(glob.glob("crates/*/src/**/*.rt", recursive=True)):
        text = read(path)
        new = in_clauses(text, turned, fields, foreign(text))
        if new != text:
            open(path, "w", encoding="utf-8").write(new)
    for path in sorted(glob.glob("crates/*/must-fail/*.edit")):
        lines = read(path).split("\n")
        at_rt = any(l.startswith("file: src/") for l in lines)
        words = {w: n for w, n in turned.items() if not (at_rt and "-" in w)}
        new = "\n".join(turn(l, words, fields, set()) if l[:5] in ("old: ", "new: ") else l for l in lines)
        if new != "\n".join(lines):
            open(path, "w", encoding="utf-8").write(new)
    if "--papers" in sys.argv:
        for path in ["README.md"] + sorted(glob.glob("docs/*.md")):
            text = read(path)
            new = re.sub(r"`[^`\n]+`", lambda m: turn(m.group(0), turned, fields, set()), text)
            if new != text:
                open(path, "w", encoding="utf-8").write(new)
    print(f"respelled: {len(turned)} names")
    seen = collections.Counter(turned.values())
    for new, n in seen.items():
        if n > 1:
            print("fall together:", new, [o for o in turned if turned[o] == new])


main()
