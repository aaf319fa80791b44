#!/usr/bin/env python3
"""Respells the repository's own ghost names: words in snake case, types and facts in camel case.

usage: python3 tools/respell.py     at the top of the repository, once, after port.py

tools/respell.txt has a line for each definition, lemma, field and local name: the old name and the new one. Two more turns, in
proof files of functions (Answers.antt, Invariants.antt): in the names that the checker makes, a name of the source is spelled as the
source spells it (support-word-requires becomes support_word-requires), and the checker's own words of two parts have an underscore.
Only .antt files, the ghost text of .rt files and the lines 'old:' and 'new:' of must-fail edits are written.
"""

import os
import re
import sys

HERE = os.path.dirname(os.path.abspath(__file__))
WORD = r"[^\s(){}.;,@\"«»\[\]\\]+"
TOKEN = re.compile(r"\"(?:[^\"\\]|\\.)*\"|«[^»]*»|" + WORD)
CLAUSE = re.compile(r"\b(?:ghost use|ghost|requires|ensures|invariant)\b[^{;\n]*\{")
CHECKER = re.compile(
    r"(?<![\w-])(overflow-(?:add|sub|mul|shl|shr|cast|step)|nonzero-(?:div|rem)|(?:offset|slice)-bounds|invariant-of|type-inv"
    r"|in-(?:default|ok|err)|call-mut)(?![^-.;,)}\s])"
)


def table():
    with open(os.path.join(HERE, "respell.txt"), encoding="utf-8") as f:
        return dict(line.split() for line in f if line.strip())


def respelled(text, names):
    """The text with each whole word that the table has replaced; a word may carry a colon or a ¬."""

    def turn(m):
        w = m[0]
        if w in names:
            return names[w]
        core = w.strip(":¬")
        return w.replace(core, names[core]) if core in names else w

    return TOKEN.sub(turn, text)


def ghost_text(text, names):
    """A .rt file with its ghost parts respelled: what stands between the braces of ghost use, clauses and ghost members."""
    out, at = [], 0
    for m in CLAUSE.finditer(text):
        if m.start() < at or text[text.rfind("\n", 0, m.start()) + 1 : m.start()].lstrip().startswith("//"):
            continue
        deep, end = 1, m.end()
        while deep and end < len(text):
            deep += (text[end] == "{") - (text[end] == "}")
            end += 1
        out += [text[at : m.end()], respelled(text[m.end() : end], names)]
        at = end
    return "".join(out + [text[at:]])


def source_names(crate):
    """The identifiers with an underscore that the crate's source has, by their old spelling with dashes."""
    found = {}
    for folder, _, files in os.walk(os.path.join("crates", crate, "src")):
        for f in files:
            with open(os.path.join(folder, f), encoding="utf-8") as it:
                for w in re.findall(r"\b[A-Za-z][A-Za-z0-9]*(?:_[A-Za-z0-9]+)+\b", it.read()):
                    found[w.replace("_", "-")] = w
    return found


def generated(text, sources):
    """The names that the checker makes, spelled as it spells them now."""
    for old in sorted(sources, key=len, reverse=True):
        text = re.sub(r"(?<![A-Za-z0-9_'])" + re.escape(old) + r"(?![A-Za-z0-9_'])", sources[old], text)
    return CHECKER.sub(lambda m: m[1].replace("-", "_"), text)


def edit(text, names):
    head, *lines = text.split("\n")
    rust = head.strip().endswith(".rt")
    turned = []
    for line in lines:
        m = re.match(r"(old: |new: )(.*)", line)
        if m and not rust:
            line = m[1] + respelled(m[2], names)
        turned.append(line)
    return "\n".join([head] + turned)


def main():
    if not os.path.isdir("crates"):
        print("run it at the top of the repository", file=sys.stderr)
        return 2
    names = table()
    for folder, dirs, files in os.walk("crates"):
        dirs[:] = sorted(d for d in dirs if d != "out")
        crate = folder.split(os.sep)[1] if os.sep in folder else ""
        for f in sorted(files):
            path = os.path.join(folder, f)
            if not f.endswith((".antt", ".rt", ".edit")):
                continue
            with open(path, encoding="utf-8") as it:
                old = it.read()
            if f.endswith(".rt"):
                new = ghost_text(old, names)
            elif f.endswith(".edit"):
                new = edit(old, names)
            else:
                new = respelled(old, names)
                if f in ("Answers.antt", "Invariants.antt"):
                    new = generated(new, source_names(crate))
            if new != old:
                with open(path, "w", encoding="utf-8") as it:
                    it.write(new)
                print(path)
    return 0


if __name__ == "__main__":
    sys.exit(main())
