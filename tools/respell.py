#!/usr/bin/env python3
"""Respells this repository's own definitions and lemmas: a_word for a-word, and AType for A-type.

usage: respell.py [ROOT]

Run once, behind port.py. It takes the names that specs/ and proofs/ declare with a dash, except those that Rattle makes (whose
type names the module `tie`) and those that a library has too, and writes them anew in clauses, definitions, lemmas, proofs,
must-fail edits, and in README and docs/ between backticks. Names of src/, exported names and strings stay. It stops where two names would fall together.
"""
import glob
import os
import re
import sys

WORD = r"[^\s(){}\[\],;.`«»\"|]+"
DECLARED = re.compile(
    r"^\s*(?:(?:pub|unfoldable|abbrev|pattern|axiom) )*(" + WORD + r")\s*:\s+(?!tie\.Need-|tie\.invariant|tie\.decreases)\S"
)
TYPE = re.compile(r"^\s*(?:pub )?(?:data|record|ruleset) (" + WORD + r")")
# definitions that would have the name of a struct of src/
OTHERWISE = {
    "Laid_out": "LaidOut",
    "Counts-before": "IsCountsBefore",
    "Field-counts": "CountedFields",
    "First-branch": "IsFirstBranch",
    "Last-branch": "IsLastBranch",
    "Next-branch": "IsNextBranch",
    "Next-leaf": "IsNextLeaf",
    "Ranked-frame": "IsRankedFrame",
}
# words of the documents that are prose in comments as well as names
PROSE = {"begins-with", "Begins-with", "read-back", "on-level"}


def spelled(name):
    if name in OTHERWISE:
        return OTHERWISE[name]
    parts = name.split("-")
    # a record's mark begins a lemma's name, not a type's
    if re.fullmatch("[A-Z][A-Z]?", parts[0]):
        return "_".join(parts)
    if name[0].isupper() and not all(p.isupper() or p.isdigit() for p in parts[1:] if p):
        return "".join(p[:1].upper() + p[1:] for p in parts)
    if re.fullmatch(r"[A-Z][a-z]+-[0-9]+|Passed-to-[0-9]+", name):
        return "".join(p[:1].upper() + p[1:] for p in parts)
    return "_".join(parts)


def files(root, *ends):
    for end in ends:
        for f in sorted(glob.glob(os.path.join(root, "crates", "*", "**", "*" + end), recursive=True)):
            if "/out/" not in f:
                yield f


def read(f):
    with open(f, encoding="utf-8") as it:
        return it.read()


def write(f, text):
    with open(f, "w", encoding="utf-8") as it:
        it.write(text)


def of_libraries(root):
    """the names that are brought in from a library, which keep their spelling"""
    own = "|".join(os.path.basename(os.path.dirname(c)) for c in glob.glob(os.path.join(root, "crates", "*", "")))
    names = set()
    for f in files(root, ".antt", ".rt"):
        for m in re.finditer(r"^(?:ghost )?use (?!Rattle\.(?:" + own + r")\.)[\w.]+\.\{([^}]*)\}", read(f), re.M):
            names |= {n.strip().split(" as ")[0] for n in m.group(1).split(",")}
    return names


def declared(root):
    names, plain = set(), set()
    for f in files(root, ".antt"):
        for line in read(f).split("\n"):
            if line.lstrip().startswith("--"):
                continue
            for m in (DECLARED.match(line), TYPE.match(line)):
                if m:
                    (names if "-" in m.group(1).strip("-+") else plain).add(m.group(1))
            # several names of one type, as in a section or a record
            m = re.match(r"^\s*(?:pub )?((?:[\w'-]+ )+[\w'-]+)\s*:\s", line)
            if m and not m.group(1).split()[0] in ("abbrev", "unfoldable", "pub", "let", "data", "record"):
                names |= {n for n in m.group(1).split() if "-" in n}
    made = {n for n in names if n.startswith(("+", "μ-"))}
    # port.py took a dash from some names of types
    names = (names - made - of_libraries(root)) | (plain & set(OTHERWISE))
    return {n: spelled(n) for n in names}, plain - set(OTHERWISE)


def main(root):
    to, plain = declared(root)
    back = {}
    for name, new in sorted(to.items()):
        if new in back or new in plain:
            print(f"respell: {name} and {back.get(new, new)} fall together as {new}")
            return 1
        back[new] = name
    # an edit has the spelling from before port.py, which may have taken a dash from a name already
    older = {n.replace("_", "-"): n for n in plain if "_" in n}
    word = re.compile(WORD)
    turned = lambda m: to.get(m.group(0), m.group(0))
    turned_edit = lambda m: to.get(m.group(0), older.get(m.group(0), m.group(0)))

    def line_of_proof(line):
        at = line.find("--") if re.match(r"^\s*--", line) else -1
        if at < 0:
            return word.sub(turned, line)
        return word.sub(lambda m: m.group(0) if m.group(0) in PROSE else turned(m), line)

    for f in files(root, ".antt"):
        write(f, "\n".join(line_of_proof(l) for l in read(f).split("\n")))
    for f in files(root, ".rt"):
        # a comment or a string of the code keeps its words
        out, clause = [], False
        for l in read(f).split("\n"):
            s = l.lstrip()
            clause = clause or s.startswith(("requires", "ensures", "ghost"))
            out.append(word.sub(turned, l) if clause and not s.startswith("//") else l)
            if s.endswith(("}", ";", "{")) or s == "":
                clause = False
        write(f, "\n".join(out))
    for f in files(root, ".edit"):
        out = []
        for l in read(f).split("\n"):
            m = re.match(r"(old:|new:)(.*)", l)
            out.append(m.group(1) + word.sub(turned_edit, m.group(2)) if m else l)
        write(f, "\n".join(out))
    code = re.compile(r"`[^`\n]+`")
    for f in [os.path.join(root, "README.md")] + sorted(glob.glob(os.path.join(root, "docs", "**", "*.md"), recursive=True)):
        fenced, out = False, []
        for l in read(f).split("\n"):
            if l.startswith("```"):
                fenced = not fenced
            if not fenced:
                l = code.sub(lambda m: word.sub(turned_edit, m.group(0)), l)
            out.append(l)
        write(f, "\n".join(out))
    print(f"respell: {len(to)} names")
    return 0


if __name__ == "__main__":
    sys.exit(main(sys.argv[1] if len(sys.argv) > 1 else "."))
