#!/usr/bin/env python3
"""Brings the definitions and lemmas of this repository to snake case, as today's Rattle spells words.

Run once, at the top, straight after the toolchain's own port.py. It renames each definition, record field and lemma of
specs/ and proofs/ whose name has a hyphen, wherever a file of the repository's own crates says it. Names that the
checker makes (of goals and calls) and names of the library keep their hyphens; functions, strings, inputs and outputs
are not touched. Where a new name would fall together with a function of the same file, the import takes another name.
"""
import os
import re
import sys

TOKEN = re.compile(r"(?<![\w'′·-])[A-Za-z][\w'′]*(?:-[\w'′]+)+(?![\w·-])")
HEAD = re.compile(r"^\s*(?:abbrev |unfoldable )*(?:pub )?(?:record |data )?([A-Za-z][\w'′]*(?:-[\w'′]+)+) (?:[^:=]*)[:=]")
FIELD = re.compile(r"^\s*(?:pub )?([A-Za-z][\w'′]*(?:-[\w'′]+)+) :")
# Names that the checker gives to goals, and names of the library that begin a line of a proof.
MADE = re.compile(r"^(returns|invariant|loop|overflow|index|requires)-|-requires$|^(in|if|else)-(?!state$)|^then-(?!more$)")
LIBRARY = {"cond-false", "cond-true", "Decides-like"}
# A function of the same file has the name: the definition is imported under this one.
BESIDE = {
    "crates/dec_panel/src/reading.rt": {"pen_after": "after_parameter", "pen_by": "after_parameters"},
}


def files(endings):
    for root, folders, names in os.walk("crates"):
        folders[:] = [f for f in folders if f not in ("out", "must-fail")]
        for name in sorted(names):
            if name.endswith(endings):
                yield os.path.join(root, name)


def read(path):
    with open(path, encoding="utf8") as f:
        return f.read()


def own_names():
    names = set()
    for path in files((".antt",)):
        for line in read(path).split("\n"):
            if line.lstrip().startswith("--") or line.lstrip().startswith("use "):
                continue
            for pattern in (HEAD, FIELD):
                m = pattern.match(line)
                if m and not MADE.search(m[1]) and m[1] not in LIBRARY:
                    names.add(m[1])
    return names


def main():
    names = own_names()
    snake = {n: n.replace("-", "_") for n in names}
    said = set()
    for path in files((".antt", ".rt")):
        text = read(path)
        for n, s in snake.items():
            if re.search(r"(?<![\w'′·-])" + re.escape(s) + r"(?![\w'′-])", text):
                said.add((s, path))
    if "--list" in sys.argv:
        for n in sorted(names):
            print(n)
        for s, path in sorted(said):
            print("beside:", s, path)
        return
    for path in files((".antt", ".rt")):
        text = read(path)
        new = []
        for line in text.split("\n"):
            if path.endswith(".rt") and '"' in line and "ensures" not in line:
                new.append(line)
                continue
            new.append(TOKEN.sub(lambda m: snake.get(m[0], m[0]), line))
        out = "\n".join(new)
        for name, other in BESIDE.get(path, {}).items():
            out = re.sub(r"(ghost use [^\n]*[{ ])" + name + r"(?=[,}])", r"\g<1>" + name + " as " + other, out)
            lines = out.split("\n")
            for i, line in enumerate(lines):
                if "ensures" in line or line.strip().startswith("≡"):
                    lines[i] = re.sub(r"(?<![\w.])" + name + r"(?!\w)", other, line)
            out = "\n".join(lines)
        if out != text:
            with open(path, "w", encoding="utf8") as f:
                f.write(out)
            print("renamed in", path)


main()
