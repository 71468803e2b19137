#!/usr/bin/env python3
"""Counts the places in src/ that could have another form: places.py [--list POINT] [COMMIT]. Without a commit, those of the files as they stand."""

import re
import subprocess
import sys


def sources(commit):
    """Yields the name and the text of each source file."""
    if commit:
        names = subprocess.run(["git", "ls-tree", "-r", "--name-only", commit, "crates"], capture_output=True, text=True, check=True).stdout.split("\n")
    else:
        names = subprocess.run(["git", "ls-files", "crates"], capture_output=True, text=True, check=True).stdout.split("\n")
    for name in names:
        if not re.fullmatch(r"crates/\w+/src/.*\.rt", name):
            continue
        if commit:
            yield name, subprocess.run(["git", "show", f"{commit}:{name}"], capture_output=True, text=True, check=True).stdout
        else:
            try:
                yield name, open(name).read()
            except FileNotFoundError:
                pass


def functions(text):
    """Yields the line, the name, the parameters and the body of each function."""
    for head in re.finditer(r"^( *)(?:pub )?(?:extern \"C\" )?fn (\w+)(?:<[^>]*>)?\(", text, re.M):
        depth, at = 0, head.end() - 1
        while True:
            depth += {"(": 1, ")": -1}.get(text[at], 0)
            if depth == 0:
                break
            at += 1
        body = re.compile(rf"^{head[1]}\}}$", re.M).search(text, at)
        start = re.compile(rf"^{head[1]}\{{$|\{{$", re.M).search(text, at)
        if body and start:
            parameters = [it.strip() for it in re.split(r",(?![^\[<(]*[\]>)])", text[head.end() : at]) if it.strip()]
            yield text[: head.start()].count("\n") + 1, head[2], parameters, text[start.end() : body.start()]


def lines_with(pattern):
    def places(files):
        for name, text in files:
            for number, line in enumerate(text.split("\n"), 1):
                if re.search(pattern, line) and not line.lstrip().startswith("//"):
                    yield f"{name}:{number}: {line.strip()}"

    return places


def twins(files):
    """Functions of one crate whose bodies are equal but for types, numbers and names of functions."""
    seen = {}
    for name, text in files:
        for line, function, parameters, body in functions(text):
            shape = re.sub(r"\b(u8|u16|u32|u64|usize|f64|bool)\b", "T", " ".join(body.split()))
            shape = re.sub(r"\b\d[\d_]*(u8|u32|u64|\.\d+|f64)?\b", "0", shape)
            shape = re.sub(r"\b\w+(::\w+)*\(", "f(", shape)
            if len(shape) > 60:
                seen.setdefault((name.split("/")[1], shape), []).append(f"{name}:{line}: {function}")
    for group in seen.values():
        if len(group) > 1:
            yield from group


def counted(files):
    """Loops by `while` whose index is counted by one in the body."""
    for name, text in files:
        for loop in re.finditer(r"^( *)(?:'\w+: )?while ([^\n]*)\{\n(.*?)^\1\}$", text, re.M | re.S):
            for index in re.findall(r"\b([a-z_]\w*)\b", loop[2]):
                if re.search(rf"^ *{index} (\+= 1|-= 1|= {index} [+-] 1);", loop[3], re.M):
                    yield f"{name}:{text[: loop.start()].count(chr(10)) + 1}: while {loop[2]}"
                    break


def wide(files):
    for name, text in files:
        for line, function, parameters, _ in functions(text):
            if len(parameters) >= 8:
                yield f"{name}:{line}: {function}, {len(parameters)} parameters"


def switches(files):
    for name, text in files:
        for line, function, parameters, _ in functions(text):
            kinds = [it for it in parameters if re.search(r": (bool|Form)$", it)]
            if kinds:
                yield f"{name}:{line}: {function}({', '.join(kinds)})"


POINTS = [
    ("1 own enums of the shape of Option or Result", lines_with(r"^ +(Refused\(u32\)|Absent|Nothing|Bad|SameId),$")),
    ("1 flags beside a value", lines_with(r"\b(found|whole): bool\b")),
    ("1 numbers for refusals, by use", lines_with(r"\brefusal::(?!\w*LIMIT)[A-Z][A-Z0-9_]+\b")),
    ("1 places that say that there is nothing", lines_with(r"\bNOWHERE\b")),
    ("2 twins", twins),
    ("3 loops that count an index", counted),
    ("3 loops by while, all", lines_with(r"^ *('\w+: )?while ")),
    ("4 copies, zeros, equality and order by hand", lines_with(r"\bfn (copy_|clear_|id_before|same_|is_same|common_length|fewer|least|is\()\w*")),
    ("5 functions of eight parameters or more", wide),
    ("6 arrays of a fixed length as parameters", lines_with(r": &(mut )?\[\w+; \d+\]")),
    ("7 switches as parameters", switches),
]


def main():
    words = sys.argv[1:]
    shown = words[1] if words[:1] == ["--list"] else None
    commit = words[2 if shown else 0] if len(words) > (2 if shown else 0) else None
    files = list(sources(commit))
    for point, places in POINTS:
        found = list(places(files))
        if shown is None:
            print(f"{len(found):5} {point}")
        elif point.startswith(shown):
            print(point)
            print("\n".join(f"  {it}" for it in found))


main()
