#!/usr/bin/env python3
"""Moves the theorems of `theory` from specs/ to proofs/, and says so wherever they are named.

usage: theory_proofs.py [ROOT]

The words of the demands (Terms) and the demands (Demands) stay in specs/: an edit of one of them that must fail is then refused by a
theorem, and is no text that cannot be read. Run again, it turns what still names the old place.
"""
import glob
import os
import re
import sys

root = sys.argv[1] if len(sys.argv) > 1 else "."
theory = os.path.join(root, "crates", "theory")
STAY = {"Terms", "Demands", "Lib"}
os.makedirs(os.path.join(theory, "proofs"), exist_ok=True)
for f in sorted(glob.glob(os.path.join(theory, "specs", "*.antt"))):
    name = os.path.basename(f)[: -len(".antt")]
    if name not in STAY:
        os.rename(f, os.path.join(theory, "proofs", name + ".antt"))
moved = sorted(os.path.basename(f)[: -len(".antt")] for f in glob.glob(os.path.join(theory, "proofs", "*.antt")))
moved = [m for m in moved if m != "Lib"]
for folder, names in (("specs", ["Demands", "Terms"]), ("proofs", moved)):
    with open(os.path.join(theory, folder, "Lib.antt"), "w", encoding="utf-8") as it:
        it.write("".join(f"pub mod {n}\n" for n in names))
old = re.compile(r"Rattle\.theory\.specs\.(" + "|".join(moved) + r")(?![\w'])")
for f in glob.glob(os.path.join(root, "crates", "*", "**", "*"), recursive=True):
    if f.endswith((".antt", ".rt", ".edit")) and "/out/" not in f:
        with open(f, encoding="utf-8") as it:
            was = it.read()
        now = old.sub(r"Rattle.theory.proofs.\1", was)
        if "/theory/must-fail/" in f:
            now = re.sub(r"^file: specs/(" + "|".join(moved) + r")\.antt$", r"file: proofs/\1.antt", now, flags=re.M)
        if now != was:
            with open(f, "w", encoding="utf-8") as it:
                it.write(now)
