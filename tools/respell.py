#!/usr/bin/env python3
"""tools/respell.py: brings the repository's own definitions and lemmas to snake case. Run once, at the top, after the kit's port.py.

A name of specs/ or proofs/*.antt written aB or a-b becomes a_b, in antt files, in clauses and comments of .rt files, in must-fail edits and in pages.
A lemma a-b beside a definition aB becomes a_b_lem. Names of the library, of Rattle's functions, of files and of what Rattle makes stay, and so do
strings, inputs and outputs. With --list it prints each old name and its new one.
"""
import collections
import glob
import re
import sys

TOKEN = re.compile(r"[^\s(){}\[\];,.\"«»`]+")
NAME = re.compile(r"^[a-z][A-Za-z0-9_'\-]*$")
HEAD = re.compile(r"(?:(?:abbrev|unfoldable|pub)\s+)*(?:(?:record|data)\s+)?([^\s(){}\[\];,.\"«»:]+)\s*(?:[({].*?[)}]\s*)*:(?!:)\s")
RULES = re.compile(r"(?:(?:abbrev|unfoldable|pub)\s+)*ruleset\s+(\S+)\s*=")


def declared(text):
    for line in text.split("\n"):
        s = line.strip()
        if not s.startswith("--"):
            m = HEAD.match(s + " ") or RULES.match(s)
            if m:
                yield m.group(1)


def snake(name):
    return re.sub(r"(?<=.)([A-Z])", lambda m: "_" + m.group(1).lower(), name).replace("-", "_").replace("__", "_")


def read(path):
    with open(path, encoding="utf-8") as f:
        return f.read()


def table():
    files = glob.glob("crates/*/specs/*.antt") + glob.glob("crates/*/proofs/*.antt")
    own, dashed = set(), set()
    for path in files:
        own.update(declared(read(path)))
    theirs = set()
    for path in glob.glob("crates/*/specs/**/*.antt", recursive=True) + glob.glob("crates/*/proofs/**/*.antt", recursive=True):
        for m in re.finditer(r"^\s*(?:pub )?use (\S+?)\.\{(.*)\}", read(path), re.M):
            crate = m.group(1).split(".")
            if not (crate[0] == "Rattle" and crate[1] != "std"):
                theirs.update(TOKEN.findall(m.group(2)))
    to = {}
    for name in sorted(own):
        if NAME.match(name) and name not in theirs and snake(name) != name:
            to[name] = snake(name)
    defs = {n for n in to if "-" not in n} | {n for n in own if n not in to}
    taken = {to.get(n, n) for n in defs}
    for name in to:
        if "-" in name and to[name] in taken:
            to[name] += "_lem"
    # what port.py brought to snake case from a dash, beside a definition in camel case
    both = {to[n] for n in to if "-" not in n} & (own - set(to))
    for name in both:
        to[name] = name + "_lem"
    seen = collections.Counter(to.get(n, n) for n in own)
    assert all(v == 1 for v in seen.values()), [n for n, v in seen.items() if v > 1]
    return to, {to.get(n, n) for n in own}


def swap(text, to):
    def one(m):
        name = m.group(0)
        if name not in to or name == snake(name) and text[m.start() - 1:m.start()] == ".":
            return name
        return to[name]

    return TOKEN.sub(one, text)


def code(line, to):
    """A line of antt: what stands before a comment, strings aside."""
    m = re.search(r"(^|\s)--(\s|$)", line)
    front, behind = (line[:m.start()], line[m.start():]) if m else (line, "")
    return "".join(part if part.startswith('"') else swap(part, to) for part in re.split(r'("(?:[^"\\]|\\.)*")', front)) + behind


def clauses(text, to, words):
    """A .rt file: the lines of `ghost use`, those of clauses, and camel case in comments."""
    out, depth, inside = [], 0, False
    for line in text.split("\n"):
        s = line.lstrip()
        if s.startswith("//"):
            line = TOKEN.sub(lambda m: words.get(m.group(0), m.group(0)), line)
        elif inside or re.match(r"(ghost use|requires|ensures|ghost |#!?\[tactic)", s):
            line = swap(line, to)
            depth += line.count("{") - line.count("}")
            inside = depth > 0 and not s.startswith("ghost use") or (s.startswith("ghost use") or inside) and depth > 0
            if depth <= 0:
                depth, inside = 0, False
        out.append(line)
    return "\n".join(out)


def page(text, words, to):
    """A page or a comment: camel case anywhere, a dash between backticks."""
    text = re.sub(r"[A-Za-z][A-Za-z0-9_'\-]*", lambda m: words.get(m.group(0), m.group(0)), text)
    return re.sub(r"`[^`\n]*`", lambda m: swap(m.group(0), to), text)


def paths():
    """Of crate target port.py left paths in the older form."""
    for path in glob.glob("crates/*/specs/**/*.antt", recursive=True) + glob.glob("crates/*/proofs/**/*.antt", recursive=True) + glob.glob("crates/*/src/*.rt"):
        text = read(path)
        new = re.sub(r"Rattle\u00b7(\w+)\u00b7(specs|proofs)\.", r"Rattle.\1.\2.", text)
        new = re.sub(r"Rattle\u00b7(\w+)\.", r"Rattle.\1.", new)
        new = re.sub(r"(\.declared\.\w+)\.the-variants\b", r"\1.TheVariants", new)
        if new != text:
            open(path, "w", encoding="utf-8").write(new)


def main():
    if "--list" not in sys.argv:
        paths()
    to, now = table()
    if "--list" in sys.argv:
        for a, b in sorted(to.items()):
            print(a, b)
        return
    for path in sorted(glob.glob("crates/*/specs/**/*.antt", recursive=True) + glob.glob("crates/*/proofs/**/*.antt", recursive=True)):
        text = read(path)
        new = "\n".join(code(line, to) for line in text.split("\n"))
        if new != text:
            open(path, "w", encoding="utf-8").write(new)
    # any word in camel case whose spelling in snake case is a name now, for comments and pages
    words = {}
    places = sorted(glob.glob("crates/*/src/*.rt") + glob.glob("crates/*/must-fail/*.edit") + glob.glob("crates/*/proofs/**/*.antt", recursive=True)
                    + glob.glob("crates/*/specs/*.antt") + ["README.md"] + glob.glob("docs/*.md"))
    for path in places:
        for w in re.findall(r"(?<![A-Za-z0-9_'\-])[a-z][a-z0-9]*(?:[A-Z][a-z0-9]*)+(?![A-Za-z0-9_'\-])", read(path)):
            if w in to:
                words[w] = to[w]
            elif snake(w) in now:
                words[w] = snake(w)
    for path in places:
        text = read(path)
        if path.endswith(".rt"):
            new = clauses(text, to, words)
        elif path.endswith(".antt"):
            new = "\n".join(page(line, words, to) if line.lstrip().startswith("--") else line for line in text.split("\n"))
        elif path.endswith(".edit"):
            lines = text.split("\n")
            antt = any(line.startswith("file: ") and line.endswith(".antt") for line in lines)
            new, where = [], ""
            for line in lines:
                if line.startswith("file: "):
                    where = line
                elif line.startswith(("old: ", "new: ")):
                    if where.endswith(".antt"):
                        line = swap(TOKEN.sub(lambda m: words.get(m.group(0), m.group(0)), line), to)
                else:
                    line = page(line, words, to)
                new.append(line)
            new = "\n".join(new)
        else:
            new = page(text, words, to)
        if new != text:
            open(path, "w", encoding="utf-8").write(new)


main()
