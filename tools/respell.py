#!/usr/bin/env python3
"""Brings this repository's own definitions and lemmas to snake case: longestText becomes longest_text, digit-bits-other digit_bits_other.

usage: tools/respell.py [FOLDER]        once, at the top of the repository, behind port.py

It turns .antt and .rt files, must-fail edits, promises.txt and the pages. Names of the kit keep their spelling, and so do the names that the check makes (`tie.`, `Need-`, `After-`).
A lemma whose new name is a definition's gets `_lem` behind it.
"""
import glob
import os
import re
import sys

TOKEN = re.compile(r"[A-Za-z_Α-ω𝓤-𝔃][\w'₀-₉]*(?:-[\w'₀-₉]+)*")
DECLARED = re.compile(r"^\s*(?:(?:abbrev|unfoldable|pub)\s+)*([^\s:(){}]+) :(?!:)")
USE = re.compile(r"^\s*(?:ghost )?use ([^\s{;]+)")


def snake(name):
    name = name.replace("-", "_")
    name = re.sub(r"([a-z])(F\d\d)", r"\1_\2", name)
    if name[0].islower():
        name = re.sub(r"([A-Z])([A-Z][a-z])", r"\1_\2", name)
        name = re.sub(r"([a-z0-9])([A-Z])", r"\1_\2", name).lower()
    return name


def read(path):
    with open(path, encoding="utf-8") as f:
        return f.read()


def camel(name):
    return name[0].islower() and re.search(r"[a-z0-9][A-Z]", name) is not None


def declared(text):
    """Names that a file declares, without those whose type the check makes."""
    for line in text.splitlines():
        m = DECLARED.match(line)
        if m and not re.match(r"\s*(tie\.|\{M : Type 1\} → statement)", line[m.end():]) and "use " not in line[: m.start(1)]:
            yield m.group(1)


def main(root):
    os.chdir(root)
    crates = sorted(os.listdir("crates"))
    antt = [p for p in sorted(glob.glob("crates/*/**/*.antt", recursive=True)) if "/out/" not in p]
    rt = [p for p in sorted(glob.glob("crates/*/src/**/*.rt", recursive=True))]
    definitions, lemmas = set(), set()
    for p in antt:
        (definitions if "/specs/" in p else lemmas).update(declared(read(p)))
    words = {}
    taken = {snake(n) for n in definitions}
    for n in sorted(definitions | lemmas):
        if "-" not in n and not camel(n):
            continue
        new = snake(n)
        if n not in definitions and "-" in n and new in taken:
            new += "_lem"
        words[n] = new
    # names that share a line, and parameters of several words
    for n in ("readingRefusedAt", "writingRefusedAt", "readingRefused", "writingRefused", "grammarIn", "badCount", "mantissaRadix"):
        words[n] = snake(n)
    back = {}
    for n, new in words.items():
        back.setdefault(new, []).append(n)
    for new, ns in back.items():
        if len(ns) > 1:
            print("look: two names fall together:", new, ns)

    def turned(text, kept, comments):
        def word(m):
            w = m.group(0)
            if w in kept or w.startswith(("Need-", "After-", "At-")) or m.string[: m.start()].endswith("tie."):
                return w
            return words.get(w, w)

        out = []
        for line in text.splitlines(keepends=True):
            code, mark, comment = line.partition("--") if comments else (line, "", "")
            comment = re.sub(r"`[^`]*`", lambda m: TOKEN.sub(word, m.group(0)), comment)
            comment = TOKEN.sub(lambda m: words[m.group(0)] if camel(m.group(0)) and m.group(0) in words else m.group(0), comment)
            out.append(TOKEN.sub(word, code) + mark + comment)
        return "".join(out)

    def kit_names(text):
        kept = set()
        for line in text.splitlines():
            m = USE.match(line)
            if m and not (m.group(1).startswith("Rattle.") and m.group(1).split(".")[1] in crates):
                kept.update(TOKEN.findall(line[m.end():]))
        return kept

    n = 0
    for p in antt:
        t = read(p)
        new = turned(t, kit_names(t), True)
        if new != t:
            open(p, "w", encoding="utf-8").write(new)
            n += 1
    for p in rt + sorted(glob.glob("crates/*/must-fail/*.edit")) + ["promises.txt", "README.md", "CONTRIBUTING.md"] + sorted(glob.glob("docs/**/*.md", recursive=True)):
        if p == "docs/PORT.md" or not os.path.exists(p):
            continue
        t = read(p)
        plain = p.endswith((".edit", "promises.txt"))
        new = TOKEN.sub(lambda m: words[m.group(0)] if m.group(0) in words and (plain or camel(m.group(0))) else m.group(0), t)
        if new != t:
            open(p, "w", encoding="utf-8").write(new)
            n += 1
    print(f"respell: {len(words)} names, {n} files")


main(sys.argv[1] if len(sys.argv) > 1 else ".")
