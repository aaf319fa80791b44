#!/usr/bin/env python3
"""Lists the places in crates/*/src where an older form of the language may stand, one heading a form.

    python3 tools/places.py [FOLDER]

A row is a place to look at, not a fault; docs/DESIGN-PASS.md says what became of each.
"""
import collections
import itertools
import pathlib
import re
import sys

ROOT = pathlib.Path(sys.argv[1] if len(sys.argv) > 1 else ".")
FILES = sorted(ROOT.glob("crates/*/src/**/*.rt"))
TEXT = {f: f.read_text() for f in FILES}
CODE = {f: [re.sub(r"//.*", "", line) for line in s.splitlines()] for f, s in TEXT.items()}


def where(f):
    return str(f.relative_to(ROOT / "crates")).replace("/src/", "/")


def heading(text, rows):
    print(f"{text}: {len(rows)}")
    for row in rows:
        print(f"    {row}")


def lines(pattern, keep=lambda line: True):
    return [
        f"{where(f)}:{n}: {line.strip()}"
        for f in FILES
        for n, line in enumerate(CODE[f], 1)
        if re.search(pattern, line) and not line.startswith("ghost use") and keep(line)
    ]


FUNCTION = re.compile(
    r"^( *)(?:pub(?:\(crate\))? )?(?:final )?fn (\w+)(?:<[^(]*>)?\((.*?)\)(?: -> [^\n{]*?)?((?:\n\1    (?:requires|ensures)[^\n]*)*)(?:\n\1)? ?\{(.*?)(?:^\1)?\}$",
    re.M | re.S,
)


def functions():
    for f in FILES:
        for m in FUNCTION.finditer(TEXT[f]):
            params = [p.strip() for p in re.split(r",(?![^<]*>)", m[3]) if p.strip()]
            yield f, m[2], params, m[4], re.sub(r"//.*", "", m[5])


ALL = list(functions())

print("# 1. Own enums like Option or Result, a flag with a value beside it, numbers for kinds or refusals")
heading("enums", lines(r"^\s*(pub )?enum \w+"))
heading("flags in structs", lines(r"^\s+(pub(\(crate\))? )?\w+: bool,$"))
heading("numbers for levels or refusals", lines(r"fn .*level: u32|^\s+level: u32,|level: u32 \}|^(pub )?fn refusal.*-> u32"))
heading("a number that stands for none", lines(r"let mut \w+: \w+ = (33|MAX|u\w+::MAX);"))

print("# 2. Functions or types that differ only in a type, a size or a constant")


def shape(body):
    body = re.sub(r"\b[A-Z]\w*\b|\b(u8|u16|u32|u64|usize)\b", "T", body)
    body = re.sub(r"\b\d[\w']*\b", "0", body)
    return re.sub(r"\s+", " ", body).strip()


twins = collections.defaultdict(list)
for f, name, params, _, body in ALL:
    if len(shape(body)) > 10:
        twins[shape(body)].append(f"{where(f)} {name}")
heading("functions of one body", [", ".join(v) for v in twins.values() if len(v) > 1])
named = collections.defaultdict(set)
for f, name, params, _, body in ALL:
    if len(body) > 30 and "tests" not in str(f):
        named[name].add(where(f))
heading("functions of one name", [f"{k}: {', '.join(sorted(v))}" for k, v in sorted(named.items()) if len(v) > 1])

print("# 3. Loops over an index")
heading("for over a range", lines(r"\bfor .* in .*\.\."))
heading("while", lines(r"^\s*while\b"))

print("# 4. Equality, order, copying, conversion and printing by hand")
heading("casts", lines(r" as (u8|u16|u32|u64|usize)\b"))
heading("conversions named by hand", lines(r"fn (numbered|from_\w+|to_\w+|answer_of)\b"))
heading("printing of a case by hand", lines(r"fn (show_call|show_answer|show_refusal|level_name|lack)\b"))
heading("impl of Clone, Copy, PartialEq, Ord by hand", lines(r"impl.*\b(Clone|Copy|PartialEq|Eq|PartialOrd|Ord) for"))

print("# 5. Facts in the contracts of three or more functions, and parameters that travel together")
facts = collections.defaultdict(list)
groups = collections.defaultdict(list)
for f, name, params, clauses, _ in ALL:
    for clause in re.findall(r"requires[^{\n]*(\{.*\})", clauses):
        facts[clause].append(f"{f.parts[-3] if f.parts[-2] == 'src' else f.parts[-4]}::{name}")
    words = [p.split(":")[0].replace("mut ", "").strip() for p in params if "self" not in p.split(":")[0]]
    words = [w for w in words if len(w) > 1]
    for size in (2, 3, 4):
        for g in itertools.combinations(sorted(set(words)), size):
            groups[(where(f).split("/")[0], g)].append(name)
heading("facts", [f"{len(v)} {k}: {', '.join(v)}" for k, v in sorted(facts.items(), key=lambda x: -len(x[1])) if len(v) > 2])
many = {k: v for k, v in groups.items() if len(v) > 3}
largest = [k for k in many if not any(k != l and k[0] == l[0] and set(k[1]) < set(l[1]) and len(many[l]) == len(many[k]) for l in many)]
heading("parameters", [f"{len(many[k])} {k[0]}: {', '.join(k[1])}" for k in sorted(largest, key=lambda k: -len(many[k]))])

print("# 6. Buffers with a length beside them, parallel arrays, lists searched by hand, arenas")
heading("lengths in structs", lines(r"^\s+(pub )?(items|count|len|head|option|pair): usize,$"))
heading("slices side by side in structs", lines(r"^\s+(pub )?\w+: &'a (mut )?\[\w+\],$"))

print("# 7. Switches on which step to run, tables of functions")
heading("match on a call", lines(r"match call\b"))
heading("tables", lines(r"\[(fn|&dyn)"))
