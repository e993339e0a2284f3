#!/usr/bin/env python3
"""Counts, in src/ of every crate, the places that docs/DESIGN-PASS.md speaks of, a line or two for each point.

Run at the top. With --list it prints each place. It finds places by their text alone, so it finds some that a reader
would not, and docs/DESIGN-PASS.md says of each that is left why it stays.
"""
import os
import re
import subprocess
import sys
from collections import defaultdict

LIST = "--list" in sys.argv


def files(pattern):
    said = subprocess.run(["git", "ls-files", pattern], capture_output=True, text=True, check=True).stdout
    return [f for f in said.split("\n") if f and os.path.exists(f)]


SRC = {f: open(f).read() for f in files("crates/*/src/*.rt") + files("crates/*/src/**/*.rt")}
LINES = [(f, n + 1, line) for f in sorted(SRC) for n, line in enumerate(SRC[f].split("\n"))]
CODE = [(f, n, line) for f, n, line in LINES if not line.strip().startswith("//")]


def say(name, places):
    print(f"{len(places):4} {name}")
    if LIST:
        for place in places:
            print(f"       {place}")


def matching(pattern, lines=CODE):
    return [f"{f}:{n}: {line.strip()}" for f, n, line in lines if re.search(pattern, line)]


def functions():
    """Each function with its file, name, head and body."""
    found = []
    for f in sorted(SRC):
        text = "\n".join("" if line.strip().startswith("//") else line for line in SRC[f].split("\n"))
        for m in re.finditer(r"\bfn ([a-z_0-9]+)", text):
            depth, i, begins = 0, m.end(), None
            while i < len(text):
                if text[i] == ";" and begins is None and "{" not in text[m.end():i].replace("ensures {", "").replace(
                        "requires {", ""):
                    break
                if text[i] == "{" and depth == 0 and re.search(r"\n\s*$|[^}]$", text[:i]):
                    word = re.search(r"(ensures|requires)( [a-z_0-9]+)? $", text[:i])
                    if not word and begins is None:
                        begins = i
                if text[i] == "{":
                    depth += 1
                if text[i] == "}":
                    depth -= 1
                    if depth == 0 and begins is not None:
                        found.append((f, m.group(1), text[m.end():begins], text[begins:i + 1]))
                        break
                i += 1
    return found


FUNCTIONS = functions()


def shape(body):
    body = re.sub(r'b?"(\\.|[^"\\])*"|b?\'(\\.|[^\'\\])\'|\b0x[0-9A-Fa-f]+\b|\b\d[\d_]*\b|\btrue\b|\bfalse\b', "#", body)
    body = re.sub(r"\b[A-Z][A-Za-z0-9_]*\b", "T", body)
    return re.sub(r"\s+", " ", body)


def twins():
    groups = defaultdict(list)
    for f, name, _, body in FUNCTIONS:
        groups[shape(body)].append(f"{f}: {name}")
    return [" | ".join(g) for b, g in sorted(groups.items()) if len(g) > 1 and b != "{ }"]


def names():
    groups = defaultdict(set)
    for f, name, _, _ in FUNCTIONS:
        groups[name].add(f)
    return [f"{name}: {len(fs)}" for name, fs in sorted(groups.items()) if len(fs) > 1]


def clauses():
    count = defaultdict(set)
    for f, name, head, _ in FUNCTIONS:
        for m in re.finditer(r"(?:requires|ensures)(?: [a-z_0-9]+)? \{((?:[^{}]|\{[^{}]*\})*)\}", head):
            count[re.sub(r"\s+", " ", m.group(1)).strip()].add((f, name))
    return [f"{len(w)} times: {c}" for c, w in sorted(count.items()) if len(w) > 2]


def parameters():
    count = defaultdict(set)
    for f, name, head, _ in FUNCTIONS:
        m = re.search(r"\(((?:[^()]|\([^()]*\))*)\)", head)
        taken = [re.sub(r"\s+", " ", p).strip() for p in m.group(1).split(",")] if m else []
        taken = sorted(p for p in taken if ":" in p)
        for i, p in enumerate(taken):
            for q in taken[i + 1:]:
                count[(p, q)].add((f, name))
    return [f"{len(w)} functions: {p}, {q}" for (p, q), w in sorted(count.items()) if len(w) > 2]


print("1. enums, flags, numbers, what is handed on")
say("enums (own ones of the shape of Option or Result: by reading)", matching(r"^ *(pub(\([a-z]*\))? )?enum "))
say("a flag in a result, or beside a value in a struct", matching(r"(Result|Option)<bool|^ *(pub )?[a-z_]+: bool,"))
say("an absent value or an error handed on by hand",
    matching(r"let (Some|Ok)\(.*else \{|None => (None|ShortBytes|0,|Err)|Err\(_\) => |None => unreachable"))
say("a number for a kind: a motion or a place by its number", matching(r"\b(motion|number): u(8|16|size)"))
print("2. twins")
say("groups of functions alike but for types and constants", twins())
say("names that functions of several files have", names())
print("3. loops")
say("loops over numbers, and while and loop", matching(r"\bfor .* in [^{]*\.\.|\bwhile |\bloop \{"))
print("4. written by hand")
say("equality by fields", matching(r"other\.[a-z]+ == self\.|self\.[a-z]+ == other\.|\.row != .*\.column != "))
say("a test of a variant by a match", matching(r"_ => false|_ => true"))
say("the first place, the unheld cursor, the blank, written out",
    matching(r"row: 0, column: 0|row: 0,$|held: false|code: 0x20, pen: 0|0x20.*0x7E \|\||>= 0x20 &&"))
say("digits by arithmetic", matching(r"b'0' \+|b'A' - 10|% 10\b"))
say("text to a kind by comparing words", matching(r'if [a-z]+ [!=]= "'))
say("pieces of text appended one by one", matching(r"^ *append(_[a-z]+)?\(out|return append"))
print("5. facts and parameters")
say("clauses that three or more functions have", clauses())
say("pairs of parameters that three or more functions have", parameters())
say("the view of a private struct named in clauses", matching(r"bytes_of|surface \(?(self|canvas|result)"))
print("6. buffers")
say("arrays, lengths and indices in structs; arrays made", matching(r"\[[a-z0-9]+; [0-9]+\]|^ *(pub )?(len|at): usize"))
print("7. steps picked by a value")
say("an enum handed down to pick a step, function tables, dyn", matching(r"writing: Writing|dyn |: fn\("))
print("8. proofs")
PROOFS = files("crates/*/proofs/*.antt") + files("crates/*/proofs/**/*.antt")
ANSWERS = sorted({f for f in PROOFS if f.endswith(("Answers.antt", "Invariants.antt"))})
say("files of answers and invariants", ANSWERS)
say("answers", [f"{f}: {m}" for f in ANSWERS if f.endswith("Answers.antt")
                for m in re.findall(r"^pub ([^ :]+) :", open(f).read(), re.M)])
say("lines of proofs/", [line for f in sorted(set(PROOFS)) for line in open(f).read().split("\n")[:-1]])
