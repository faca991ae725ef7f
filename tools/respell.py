#!/usr/bin/env python3
"""Brings this repository's own names of definitions and lemmas to today's spelling, once, after the kit's port.py.

A type, or a fact that is a type, is in upper camel case; all else is in snake case. A dash stays in a lemma's name
where it joins the names of two functions, as in length-laid. Names of src/, strings and comments outside backticks
keep their spelling.

usage: python3 tools/respell.py [--list] [--here]     turns the checkout that it lies in, or with --here the current folder;
                                                      --list prints the table and changes nothing
"""
import glob
import os
import re
import sys

WORD = r"[A-Za-z_][A-Za-z0-9_'·]*(?:-[A-Za-z0-9_'·]+)*"
TOKEN = re.compile(r"(?<![\w'◌·-])" + WORD + r"(?![\w'◌·-])")
DECLARED = re.compile(r"^\s*(?:(?:abbrev|unfoldable|pub|private)\s+)*(" + WORD + r"(?:\s+" + WORD + r")*)\s*:(?!:)")
TYPE = re.compile(r"^\s*(?:pub\s+)?(?:record|data)\s+(" + WORD + r")")
ALIAS = re.compile(r"\bas (" + WORD + r")(?=[,}])")
# lemmas of one function of another: the first names with which a dash stays
OUTER = set("length take nth laid placed numbers jobs versions queue sheet".split())
# what such a lemma speaks of
INNER = set("entered first_written firsts_after founded laid laid_from numbers row_written rows_after shown waiting map set part".split())
INNER |= set("replicate put_on listed sum submitted take".split())
CHOSEN = {"put-on-length": "length-put_on", "put_on-length": "length-put_on"}


def shared(path):
    """Files of definitions and lemmas: all of specs/, and proofs/ but for the folders of functions."""
    return "/specs/" in path or re.search(r"/proofs/[^/]+\.antt$", path)


def folders():
    return sorted(glob.glob("crates/*/specs/**/*.antt", recursive=True) + glob.glob("crates/*/proofs/**/*.antt", recursive=True))


def declared():
    """Each declared name with a dash, and whether a file of specs/ declares it."""
    found = {}
    for path in folders():
        for line in open(path, encoding="utf-8"):
            line = line.split("--")[0]
            if not shared(path):
                m = DECLARED.match(line)
                if not m or re.search(r":\s*(goal|need|needs)\.", line) or re.match(r"^\s*(pub\s+)?(abbrev\s+)?(pub\s+)?(invariant|decreases)-", line):
                    continue
            for m in (TYPE.match(line), DECLARED.match(line)):
                if not m:
                    continue
                words = m.group(1).split()
                if words[0] in ("use", "module", "record", "data", "let", "import"):
                    continue
                for w in words:
                    found[w] = found.get(w, False) or "/specs/" in path
    return found


def camel(word):
    return "".join(p[:1].upper() + p[1:] for p in re.split("[-_]", word))


def table():
    names = declared()
    out = {}
    for n, spec in sorted(names.items()):
        if "-" not in n:
            continue
        if n in CHOSEN:
            out[n] = CHOSEN[n]
        elif n[:1].isupper() and n.split("-")[0] not in ("All",):
            out[n] = camel(n)
        elif n[:1].isupper():
            continue
        else:
            parts = n.split("-")
            new = None
            if not spec:
                for i in range(1, len(parts)):
                    a, b = "_".join(parts[:i]), "_".join(parts[i:])
                    if a in OUTER and b in INNER:
                        new = a + "-" + b
            out[n] = new or "_".join(parts)
    return {a: b for a, b in out.items() if a != b}


def aliases(text):
    """The names that a file gives to what it brings in."""
    return {a: a.lower().replace("-", "_") for a in ALIAS.findall(text) if "-" in a}


def turned(text, names):
    return TOKEN.sub(lambda m: names.get(m.group(0), m.group(0)), text)


def quoted_apart(line, names):
    """Turns what stands outside double quotes."""
    return "".join(p if i % 2 else turned(p, names) for i, p in enumerate(re.split(r'("(?:[^"\\]|\\.)*")', line)))


def ticked(text, names):
    return re.sub(r"`[^`\n]*`", lambda m: turned(m.group(0), names), text)


def code(text, comment, names):
    lines = []
    for line in text.split("\n"):
        at = line.find(comment)
        while at > 0 and line[:at].count('"') % 2:
            at = line.find(comment, at + 1)
        if at < 0:
            lines.append(quoted_apart(line, names))
        else:
            lines.append(quoted_apart(line[:at], names) + ticked(line[at:], names))
    return "\n".join(lines)


def main():
    chosen = table()
    if "--list" in sys.argv:
        for a, b in chosen.items():
            print(a, b)
        return
    for path in folders() + sorted(glob.glob("crates/*/src/**/*.rt", recursive=True)) + sorted(glob.glob("crates/*/must-fail/*.edit")) + sorted(glob.glob("docs/*.md")) + ["README.md"]:
        old = open(path, encoding="utf-8").read()
        names = chosen if path.endswith(".md") else chosen | aliases(old)
        if path.endswith(".antt"):
            new = code(old, "--", names)
        elif path.endswith(".rt"):
            new = code(old, "//", names)
        elif path.endswith(".edit"):
            new = old if "file: src/" in old else turned(old, names)
        else:
            new = ticked(old, names)
        if new != old:
            with open(path, "w", encoding="utf-8") as f:
                f.write(new)
    print(f"respelled {len(chosen)} names")


if __name__ == "__main__":
    if "--here" not in sys.argv:
        os.chdir(os.path.join(os.path.dirname(os.path.realpath(__file__)), ".."))
    main()
