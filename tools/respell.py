#!/usr/bin/env python3
"""Spells the repository's own definitions, fields and lemmas in snake case, in every crate's specs/, proofs/ and clauses.

usage: python3 tools/respell.py [--clashes] [--table]

Run at the top of the repository, once, right after the toolchain's port.py. A name is taken if specs/ or a lemma file of proofs/
declares it in lower case with a hump or a dash: each hump becomes an underscore, each dash too, and getD reads get_or. A lemma that
would get the name of a definition has _lem behind it. Comments and strings keep their words, but for names with a hump. In clauses
p.entry.now and p.exit.now of a reference read p.now, p.old or p.new.
--clashes lists the files in which two names would fall together, and writes nothing; --table prints old and new names, and writes nothing.
"""

import collections
import glob
import re
import sys

DECLARED = re.compile(
    r"^( *)((?:(?:abbrev|unfoldable|pub|data|record|module|private) +)*)([^\s(){};,.@\"]+)(?: \{[^{}\n]*\}| \([^()\n]*\))* :(?!=)"
)
WORD = r"[^\s(){}.;,@\"«»:]+"
COMMENT = {"antt": r"(?m)(?<!\S)--.*$", "rt": r"//.*$"}
# A lemma of the name of a field, or of a name of the toolchain: the files in which it is the lemma, and its new name there.
LEMMAS = {
    "by-id": ("by_id_lem", ("orders/proofs/Orders", "ranks/proofs/InIdOrder", "ranks/proofs/SameIds", "idbytes/proofs/Sharing")),
    "modules-in": ("modules_in_lem", ("entries_aware/proofs/AsItems", "entries_aware/proofs/Runs")),
}
# Names that would meet another in their own file; and fields that port.py turned where they are declared, but not in each clause.
SPELLED = {
    "bit-and": "bit_and_lem",
    "bit-or": "bit_or_lem",
    "bit-xor": "bit_xor_lem",
    "none_allowed": "none_allowed_lem",
    "takes_at": "takes_at_lem",
    "whole_above": "whole_above_lem",
    "whole_below": "whole_below_lem",
}
FIELDS = {f"{n}-of": f"{n}_of" for n in ("chunk", "group", "name", "size", "bits", "mark", "first", "next")}
FIELDS |= {"by-order": "by_order", "is-nan": "is_nan", "isNan": "is_nan", "sizeOf": "size_of", "bitsOf": "bits_of"}
# Names of the toolchain that a lemma here has too: they stay in a file that imports them.
IMPORTED = re.compile(r"(?m)^use (?:borrow\.Author\.Tests|mathlib\.Core\.List)\.\{[^}]*\b(not-true|not-false|foldl-append)\b")


def lemma_files():
    found = glob.glob("crates/*/specs/**/*.antt", recursive=True)
    return sorted(found + [f for f in glob.glob("crates/*/proofs/**/*.antt", recursive=True) if not f.endswith("/Proof.antt")])


def in_snake_case(name):
    if name[0].isupper():
        return name
    name = name.replace("getD", "get_or")
    name = re.sub(r"(?<=[a-z0-9₀-₉])[A-Z]", lambda m: "_" + m[0].lower(), name)
    return re.sub(r"(?<=[\w'])-(?=\w)", "_", name)


def table():
    """Old names with their new ones."""
    kinds = collections.defaultdict(set)
    for path in lemma_files():
        with open(path, encoding="utf-8") as f:
            for line in f:
                m = DECLARED.match(line)
                if m and not line.lstrip().startswith("--"):
                    heads = m[2].split()
                    is_field = "/specs/" in path and m[1] and "unfoldable" not in heads and "abbrev" not in heads
                    is_definition = "unfoldable" in heads or "abbrev" in heads or "data" in heads
                    kinds[m[3]].add("definition" if is_definition else "field" if is_field else "lemma")
    new = {n: SPELLED.get(n, in_snake_case(n)) for n in kinds}
    olds = collections.defaultdict(set)
    for n in new:
        olds[new[n]].add(n)
    for n in list(new):
        if "-" in n and kinds[n] == {"lemma"} and n not in SPELLED and any("-" not in o for o in olds[new[n]]):
            new[n] += "_lem"
    for n in FIELDS:
        new.setdefault(n, FIELDS[n])
    return {n: w for n, w in new.items() if n != w}


def parts(text, kind):
    """The text in turn as code and as a comment."""
    at = 0
    pattern = re.compile(COMMENT[kind], re.M)
    for m in pattern.finditer(text):
        yield text[at : m.start()], False
        yield m[0], True
        at = m.end()
    yield text[at:], False


def turned(text, kind, names):
    word = re.compile(WORD)
    out = []
    for part, is_comment in parts(text, kind):
        if is_comment:
            out.append(re.sub(r"[\w'₀-₉-]+", lambda m: names.get(m[0], m[0]) if re.search(r"[a-z0-9][A-Z]", m[0]) else m[0], part))
        else:
            out.append(word.sub(lambda m: names.get(m[0], m[0]), part))
    return "".join(out)


def words_of(text, kind):
    found = set()
    for part, is_comment in parts(text, kind):
        if not is_comment:
            found |= set(re.findall(WORD, part))
    return found


def behind(text, at):
    """The place behind the bracket that closes the one before `at`."""
    depth = 1
    while depth:
        depth += (text[at] in "([{") - (text[at] in ")]}")
        at += 1
    return at


def with_plain_references(text):
    """The text of a .rt file, with what references point to named as today in the clauses of its functions."""
    clause = re.compile(r"\s*(?:->\s*(?:\[[^\]]*\]|[^{;])*?(?=\s*(?:requires|ensures|\{|;)))?\s*(requires|ensures)\s*\*?\s*\w*\s*\{")
    at = 0
    while m := re.compile(r"\bfn \w+\s*(?:<[^>]*>)?\s*\(").search(text, at):
        at = behind(text, m.end())
        kinds = {p[1]: p[2] or "" for p in re.finditer(r"(\w+)\s*:\s*(&mut |&)?", text[m.end() : at - 1])}
        while c := clause.match(text, at):

            def name(it):
                kind, says = kinds.get(it[1]), it[2]
                if kind == "&" and says != ".now":
                    return it[1] + ".now"
                if kind == "&mut " and (says != ".now" or c[1] == "requires"):
                    return it[1] + (".new" if says == ".exit.now" else ".old")
                return it[0]

            end = behind(text, c.end())
            body = re.sub(r"(?<![\w.])(\w+)(\.entry\.now|\.exit\.now|\.now)(?![\w.])", name, text[c.end() : end])
            text = text[: c.end()] + body + text[end:]
            at = c.end() + len(body)
    return text


def main(argv):
    names = table()
    if "--table" in argv:
        for old in sorted(names):
            print(old, names[old])
        return 0
    paths = sorted(glob.glob("crates/*/specs/**/*.antt", recursive=True) + glob.glob("crates/*/proofs/**/*.antt", recursive=True) + glob.glob("crates/*/src/**/*.rt", recursive=True))
    clashes = 0
    for path in paths:
        kind = "rt" if path.endswith(".rt") else "antt"
        with open(path, encoding="utf-8") as f:
            text = f.read()
        here = {n: w for n, (w, files) in LEMMAS.items() if any(path == f"crates/{f}.antt" for f in files)}
        if not path.startswith("crates/merge/proofs/"):
            here |= FIELDS
        if IMPORTED.search(text):
            here |= {n: n for n in ("not-true", "not-false", "foldl-append")}
        if "--clashes" in argv:
            found = words_of(text, kind)
            for w in sorted(found & set(names)):
                now = names | here
                met = sorted(x for x in found if x != w and now.get(x, x) == now[w])
                if met:
                    print(path, w, names[w], *met)
                    clashes += 1
            continue
        new = turned(text, kind, names | here)
        if kind == "rt":
            new = with_plain_references(new)
        if new != text:
            with open(path, "w", encoding="utf-8") as f:
                f.write(new)
    if "--clashes" in argv:
        print(clashes, "clashes")
    return 0


if __name__ == "__main__":
    sys.exit(main(sys.argv[1:]))
