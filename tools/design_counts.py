#!/usr/bin/env python3
"""Counts, by patterns, the places of each point of docs/DESIGN-PASS.md in crates/*/src: design_counts.py [-v] [ROOT]. -v lists them."""
import glob
import os
import re
import sys

VERBOSE = "-v" in sys.argv
ROOT = ([a for a in sys.argv[1:] if a != "-v"] or ["."])[0]
FILES = {f[len(ROOT) + 1:]: open(f).read() for f in sorted(glob.glob(f"{ROOT}/crates/*/src/*.rt"))}
FN = re.compile(r"(?m)^(?:    )?(?:pub(?:\(super\))? )?(?:extern \"C\" )?fn (\w+)(?:<[^(]*>)?\((.*?)\)", re.S)


def lines(pattern, only=""):
    found = []
    for f, s in FILES.items():
        if only in f:
            for n, line in enumerate(s.split("\n"), 1):
                if not line.lstrip().startswith("//") and re.search(pattern, line):
                    found.append(f"{f}:{n}: {line.strip()[:110]}")
    return found


def report(label, found):
    print(f"{len(found):4}  {label}")
    if VERBOSE:
        for it in found:
            print("        " + it)


def functions():
    for f, s in FILES.items():
        for m in FN.finditer(s):
            params = [p for p in re.split(r",(?![^<\[(]*[>\])])", m.group(2)) if p.strip()]
            yield f, m.group(1), params


def shapes():
    groups = {}
    for f, s in FILES.items():
        for m in re.finditer(r"(?m)^(?:pub(?:\(super\))? )?(?:extern \"C\" )?fn (\w+)(?:(?!^\{$|^\}$).)*?(?:^\{\n|\{\n)(.*?)^\}\n", s, re.S):
            k = re.sub(r"\b[a-z_]\w*\b", "v", m.group(2))
            k = re.sub(r"\b[A-Z_]{2,}\b", "C", re.sub(r"\b\d+\b", "0", k))
            k = re.sub(r"\s+", " ", k)
            if len(k) > 8:
                groups.setdefault(k, []).append(f"{f[7:-3].replace('/src/', '::')}::{m.group(1)}")
    return [", ".join(v) for v in groups.values() if len(v) > 1]


def facts():
    for fact in (r"plan_refusal plan\.now ≡ 0", r"Laid plan\.now", r"48 ≤ length plan\.now", r"length image\.(now|old) ≡ image_length",
                 r"Sized \w", r"checked\w* ≡ plan_refusal|checked_number checked", r"oracles_in_range \S+ \S*(oracles|states)\S* ≡ true",
                 r"Tables pops", r"≡ states_before plan\.now n", r"length (stack|values)\.old ≡", r"Owned plan\.now", r"AllChosen|ChosenIn|chosen_table"):
        found = [x for x in lines(r"^\s*requires.*(?:" + fact + ")")]
        if len(found) > 2:
            yield fact, found


print("1 Option, Result, enums")
report("a number for a refusal or a cause: a parameter, a field, a variant or a result", lines(r"\b(checked|refusal|cause): u8|(Refused|Wrong)\(u8\)|fn \w*(refusal|check|unreadable)\(.*-> u8"))
report("a value that stands for none, or a flag with a value beside it: constants and fields",
       lines(r"const (BROKEN|NOBODY|NOWHERE|NO_NUMBER|NONE)\b|pub (made|counted|best|answer|bits|index|number|lane|oracles|refusal): |== 255|!= 255|255 =>"))
report("a number for a kind or a step: constants, and matches and tests over it", lines(r"const (REFUSED|BAD_ROSTER|IDLE|NOTHING|ANSWER|TURN|NUMBER|SIGNED|IMAGE|IMAGES|WAITS)\b|match (word|kind|n|w) \{|kind == \d|\* 65536\b|/ 65536"))
print("2 twins")
report("groups of functions whose bodies are alike but for names and numbers", shapes())
print("3 loops that count an index by hand")
report("while loops, but those that take bits off a mask", [x for x in lines(r"^\s*while ") if not re.search(r"while (left|above|s\.left) != 0", x)])
report("in another way: lines that step a variable by one", lines(r"^\s*(\w+) (\+=|-=) 1;|^\s*(\w+) = \3 [+-] 1;"))
print("4 equality, order, copying, conversion, printing by hand")
report("conversions by `as`", lines(r"\bas (u8|u16|u32|u64|usize|i32|i64)\b"))
report("functions that convert, compare or print", lines(r"fn (wide\w*|number|truth|lower|packed|equal|at_least|from_bits|to_bits|told|numbered|say\w*|ranged)\b"))
print("5 facts and parameters that travel together")
for fact, found in facts():
    report(f"clauses that ask for: {fact}", found)
report("functions with more than six parameters", [f"{f} {n}: {len(p)}" for f, n, p in functions() if len(p) > 6])
report("functions that are lent locations, ports and values", [f"{f} {n}" for f, n, p in functions() if re.search(r"locations: &.*ports: &.*values: &", " ".join(p), re.S)])
print("6 buffers with a length beside, parallel arrays, lists searched by hand")
report("arrays of a fixed size: declared, in a parameter or a field", lines(r": (&mut |&'a |&)?\[\w+; \w+.*\]|= \[[^\]]*; \w+\]"))
print("7 switches on a step, tables of functions")
report("matches over a number", lines(r"match (word|kind|n|w|\w*answer \w.*) \{"))
print("8 proofs")
answers = [a for a in glob.glob(f"{ROOT}/crates/*/proofs/**/Answers.antt", recursive=True)]
print(f"{sum(len(re.findall(r'(?m)^pub [a-z]', open(a).read())) for a in answers):4}  answers in {len(answers)} files")
for c in sorted(os.listdir(f"{ROOT}/crates")):
    n = sum(open(a).read().count("\n") for a in glob.glob(f"{ROOT}/crates/{c}/proofs/**/*.antt", recursive=True))
    if VERBOSE and n:
        print(f"{n:8}  lines of proofs in {c}")
