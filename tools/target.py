#!/usr/bin/env python3
"""tools/target.py COMMIT: crate target at COMMIT in today's spelling, written over crates/target.

The kit's port.py passes by every folder called target, so it is run here on a copy of the crate under another name, and then names are respelled
as tools/respell.py does. Run once, at the top, after port.py and tools/respell.py.
"""
import glob
import os
import re
import shutil
import subprocess
import sys
import tempfile

HERE = os.path.dirname(os.path.realpath(__file__))


def main():
    top = os.getcwd()
    names = {}
    with open(os.path.join(HERE, "respell.py"), encoding="utf-8") as f:
        exec(f.read().rsplit("\nmain()\n", 1)[0], names)
    with tempfile.TemporaryDirectory() as work:
        archive = subprocess.run(["git", "archive", sys.argv[1], "crates/refusal", "crates/target"], check=True, capture_output=True).stdout
        subprocess.run(["tar", "x"], input=archive, cwd=work, check=True)
        os.rename(f"{work}/crates/target", f"{work}/crates/targetx")
        files = [p for p in glob.glob(f"{work}/crates/**/*", recursive=True) if os.path.isfile(p)]
        change(files, r"Rattle\u00b7target\b", "Rattle\u00b7targetx")
        with open(f"{work}/crates.txt", "w", encoding="utf-8") as f:
            f.write("refusal:\ntargetx: refusal\n")
        for words in (["init", "-q", "."], ["add", "-A"], ["-c", "user.email=a@b", "-c", "user.name=a", "commit", "-qm", "a"]):
            subprocess.run(["git", *words], cwd=work, check=True)
        kit = os.path.dirname(subprocess.run(["rt", "doc"], check=True, capture_output=True, text=True).stdout.strip())
        subprocess.run([sys.executable, os.path.join(kit, "port", "port.py")], cwd=work, check=True, stdout=subprocess.DEVNULL)
        files = [p for p in glob.glob(f"{work}/crates/**/*", recursive=True) if os.path.isfile(p)]
        change(files, r"\btargetx\b", "target")
        specs = glob.glob(f"{work}/crates/targetx/specs/*.antt")
        own = {n for p in specs for n in names["declared"](names["read"](p))}
        to = {n: names["snake"](n) for n in own if names["NAME"].match(n) and names["snake"](n) != n}
        defs = {v for n, v in to.items() if "-" not in n}
        to.update({n: v + "_lem" for n, v in to.items() if "-" in n and v in defs})
        to["demand-elim"] = "demand_elim"
        for p in glob.glob(f"{work}/crates/targetx/**/*.antt", recursive=True):
            text = names["read"](p)
            with open(p, "w", encoding="utf-8") as f:
                f.write("\n".join(names["code"](line, to) for line in text.split("\n")))
        for p in glob.glob(f"{work}/crates/targetx/src/*.rt"):
            text = names["clauses"](names["read"](p), to, to)
            with open(p, "w", encoding="utf-8") as f:
                f.write(text)
        for part in ("src", "specs", "proofs"):
            shutil.rmtree(f"{top}/crates/target/{part}", ignore_errors=True)
            shutil.copytree(f"{work}/crates/targetx/{part}", f"{top}/crates/target/{part}")
    # tools/respell.py had not seen this crate's names: two definitions lineOf of other crates got the ending of a lemma
    files = [p for p in glob.glob("crates/**/*", recursive=True) + glob.glob("docs/*.md") if p.endswith((".antt", ".rt", ".edit", ".md"))]
    change(files, r"\bline_of_lem\b", "line_of")


def change(files, old, new):
    for p in files:
        with open(p, encoding="utf-8") as f:
            text = f.read()
        with open(p, "w", encoding="utf-8") as f:
            f.write(re.sub(old, new, text))


main()
