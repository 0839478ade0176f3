#!/usr/bin/env python3
"""Turns a proof that goes through the module `Tie` into Invariants.antt and Answers.antt.

usage: to_answers.py NAMES CRATE..

NAMES is the folder that `rt names NAMES` wrote. Where an answer was only `search rules`, or the goal is no more, it goes: the check
tries its tactics there. A part of the record of facts is named directly, without the steps before it. What the script leaves is
printed, a line for each place.
"""
import glob
import json
import os
import re
import sys

TOK = r"[\w'+₀-₉-]"


def norm(n):
    n = re.sub(r"^overflow[-_]", "", n.replace("_", "-"))
    for a, b in (("loop-holds", "loop-init"), ("loop-less", "loop-smaller"), ("loop-again", "loop-preserved")):
        n = n.replace(a, b)
    return n


def word(name):
    return re.compile(r"(?<![\w.'-])" + re.escape(name) + r"(?!" + TOK + r")")


class Block:
    def __init__(self, text):
        lines = text.split("\n")
        self.comments = []
        while lines and lines[0].lstrip().startswith("--") and not (lines[0].startswith(" ")):
            self.comments.append(lines.pop(0))
        self.text = "\n".join(lines)
        m = None if self.text.startswith((" ", "module")) else re.match(r"(?:(pub|abbrev|unfoldable) )*(\S+) :\s", self.text)
        self.name = m.group(2) if m else None
        self.abbrev = self.text.startswith("abbrev")
        self.type = self.unfolding = None
        self.clauses = []
        if not m:
            return
        sig, rest, i = [self.text.split("\n")[0][m.end() - 1:]], self.text.split("\n")[1:], 0
        while i < len(rest) and rest[i].startswith(" ") and not rest[i].startswith("unfolding"):
            sig.append(rest[i])
            i += 1
        self.type = "\n".join(sig).strip()
        if i < len(rest) and rest[i].startswith("unfolding"):
            self.unfolding = rest[i][len("unfolding"):].split()
            i += 1
        cur = None
        for l in rest[i:]:
            if not l.startswith(" "):
                cur = [l]
                self.clauses.append(cur)
            elif cur is not None:
                cur.append(l)
        self.clauses = ["\n".join(c) for c in self.clauses]

    def split(self, k=0):
        """a clause's patterns, and its body"""
        c = self.clauses[k]
        m = re.match(re.escape(self.name) + r"((?: [^=\n]*?)?) =(?=\s)", c)
        if not m:
            return None
        return m.group(1).split(), c[m.end():].lstrip(" ")


class Turn:
    def __init__(self, path, crate, function, names, said):
        self.path, self.crate, self.function, self.names = path, crate, function, names
        self.say = lambda what: said.append(f"{path}: {what}")
        self.steps = {}
        for place in names["places"]:
            old, new = place[2]
            if old:
                self.steps.setdefault(norm(old), set()).add(new)
        self.needs = {}
        for old, new in names["needs"]:
            self.needs[norm(old)] = new
        for old, new in names["needs"]:
            self.needs.setdefault(norm(new), new)
        self.same = set()
        self.macros = {}
        self.lemmas = []

    def flat(self, text, param="c"):
        """the record of facts as `c`, its parts named directly"""
        if param != "c":
            text = word(param).sub("c", text)
        while True:
            before = text
            text = re.sub(r"(?<![\w.'-])c\.before(?!" + TOK + r")", "c", text)
            text = re.sub(r"\((c)\)", r"\1", text)
            for n in self.same:
                text = re.sub(r"\(" + re.escape(n) + r" (?:\w+ )?c\)", "c", text)
                text = re.sub(r"(?<![\w.'-])" + re.escape(n) + r" c(?!" + TOK + r")", "c", text)
            for n, body in self.macros.items():
                text = re.sub(r"\(" + re.escape(n) + r" c\)", lambda _: "(" + body + ")", text)
                text = re.sub(r"(?<![\w.'-])" + re.escape(n) + r" c(?!" + TOK + r")", lambda _: "(" + body + ")", text)
            m = re.search(r"let (\w+) = c in(\s*)", text)
            if m and m.group(1) != "c":
                rest = word(m.group(1)).sub("c", text[m.end():])
                text = text[: m.start()] + rest
            if text == before:
                break
        text = re.sub(r"\((c(?:\.[\w+'-]+)+)\)", r"\1", text)

        def step(m):
            new = self.steps.get(norm(m.group(1)))
            if new is None:
                return "c." + {"pre": "requires"}.get(m.group(1), m.group(1))
            if len(new) > 1:
                self.say(f"step {m.group(1)} may be {sorted(new)}")
            return "c." + sorted(new)[0]

        text = re.sub(r"(?<![\w.'-])c\.([\w+'-]+)", step, text)
        return re.sub(r"\.inv(?!" + TOK + r")", ".invariant", text)

    def helper(self, b):
        places = re.findall(r"tie\.[\w+'-]+(?: invariant-[\w-]+ decreases-[\w-]+)*", b.type)
        one = len(b.clauses) == 1 and b.split()
        if re.fullmatch(r"tie\.\S+(?: invariant-\S+ decreases-\S+)* →\s+tie\.\S+(?: invariant-\S+ decreases-\S+)*", b.type) and one:
            params, body = b.split()
            if self.flat(body, params[0]).strip() == "c":
                self.same.add(b.name)
                return
        if not one or len(places) != 1:
            self.say(f"helper {b.name}")
            return
        params, body = b.split()
        body = self.flat(body, params[0])
        m = re.match(r"tie\.\S+(?: invariant-\S+ decreases-\S+)* →\s+(.*)", b.type, re.S)
        if m and b.abbrev and len(params) == 1:
            self.macros[b.name] = body.strip()
            return
        d = re.match(r"\((\w+) : tie\.\S+(?: invariant-\S+ decreases-\S+)*\)\s*(→\s+)?(.*)", b.type, re.S)
        if m:
            kind = m.group(1)
        elif d:
            kind = self.flat(d.group(3), d.group(1))
        else:
            self.say(f"helper {b.name}")
            return
        if params[1:]:
            body = "λ " + " ".join(params[1:]) + ". " + body.strip()
        self.lemmas.append((b, kind.strip(), body.strip()))

    def answer(self, b):
        m = re.match(r"tie\.Need-(\S+)", b.type)
        new = self.needs.get(norm(m.group(1)))
        n = norm(m.group(1))
        if new is None:
            for a in (n.replace("slice-bounds-", "part-"), n.replace("slice-bounds", "slice-part")):
                new = new or self.needs.get(a)
        got = b.split()
        if new is None:
            self.say(f"no goal for {m.group(1)}")
            return ""
        if not got or len(b.clauses) != 1:
            self.say(f"answer {b.name} has several clauses")
            return ""
        params, body = got
        body = self.flat(body, params[0])
        if body.strip() == "search rules":
            return ""
        args = [params[0]] + [p for p in params[1:] if not p.startswith("κ")]
        args[0] = "c"
        used, opened = [], set(b.unfolding or [])
        for h, kind, text in reversed(self.lemmas):
            calls = re.compile(r"\(" + re.escape(h.name) + r" c\)|(?<![\w.'-])" + re.escape(h.name) + r" c(?!" + TOK + r")")
            if calls.search(body):
                body = calls.sub(h.name, body)
                body = f"let {h.name} : {calls.sub(h.name, kind)} = {text} in\n    {body.strip()}"
                opened |= set(h.unfolding or [])
        # another answer, by the name that it has now
        body = re.sub(r"(?<![\w.'-])([\w'-]+) c(?!" + TOK + r")", lambda m: self.local.get(m.group(1), m.group(1)) + " c", body)
        lines = [f"pub {new} : goal.{new}"]
        if opened:
            lines.append("unfolding " + " ".join(sorted(opened)))
        lines.append(f"{new} {' '.join(args)} =\n    {body.strip()}")
        return "\n".join(b.comments + lines) + "\n"

    def invariant(self, b):
        m = re.match(r"tie\.(invariant|decreases)-(\S+)$", b.type.strip())
        if not m or not b.split():
            self.say(f"invariant {b.name}")
            return ""
        kind, loop = m.groups()
        for i, (pair, names) in enumerate(self.names["loops"]):
            if norm(pair[0]) == norm(loop):
                break
        else:
            self.say(f"no loop {loop}")
            return ""
        changed = self.names["changed"][i]
        params, body = b.split()
        to = [f"l.initial.{n}" if c else f"l.{n}" for n, c in zip(names, changed)] + [f"l.{n}" for n, c in zip(names, changed) if c]
        if len(to) != len(params):
            self.say(f"{b.name}: {params} for {to}")
            to += ["?"] * len(params)
        for p, t in sorted(zip(params, to), key=lambda x: -len(x[0])):
            if p != "_":
                body = word(p).sub("\x00" + t, body)
        body = body.replace("\x00", "")
        new = f"{kind}-{pair[1]}"
        return "\n".join(b.comments + [f"abbrev pub {new} : goal.{new}", f"{new} l = {body.strip()}"]) + "\n"

    def run(self):
        with open(self.path, encoding="utf-8") as it:
            parts = re.split(r"\n\n+", it.read().strip("\n"))
        head, blocks = parts[0].split("\n"), [Block(p) for p in parts[1:]]
        comments = [l for l in head if l.startswith("--")]
        uses = [l for l in head if l.startswith("use ") and not re.search(r"\.(Statement|Tie)\b", l)]
        answers, invariants, kept = [], [], []
        self.local = {}
        for b in blocks:
            if b.type and b.type.startswith("tie.Need-"):
                new = self.needs.get(norm(re.match(r"tie\.Need-(\S+)", b.type).group(1)))
                if new:
                    self.local[b.name] = new
        for b in blocks:
            if b.name is None:
                # a section, and what is indented below it
                part = "\n".join(b.comments + [b.text]) + "\n"
                if b.text.startswith("module"):
                    kept.append(part)
                else:
                    kept[-1] += "\n" + part
            elif "→ statement M" in b.type:
                continue
            elif b.type.startswith("tie.Need-"):
                a = self.answer(b)
                if a:
                    answers.append(a)
            elif re.match(r"tie\.(invariant|decreases)-\S+$", b.type.strip()):
                invariants.append(self.invariant(b))
            elif "tie." in b.type:
                self.helper(b)
            else:
                kept.append("\n".join(b.comments + [b.text]) + "\n")
        module = f"Rattle.{self.crate}.proofs.{self.function}"
        used = "\n".join(answers)
        kept = [k for k in kept if self.needed(k, used + "".join(x for x in kept if x is not k) + "".join(invariants))]

        def imports(text, at):
            out = []
            for u in uses:
                m = re.match(r"use ([^{\s]+)\.\{(.*)\}$", u)
                if not m:
                    name = u.split(" as ")[-1].split(".")[-1].strip()
                    if re.search(r"(?<![\w.'-])" + re.escape(name) + r"\.", text):
                        out.append(u)
                    continue
                names = [n.strip() for n in m.group(2).split(",")]
                keep = [n for n in names if self.cited(n.split(" as ")[-1], text)]
                if keep:
                    out.append(f"use {m.group(1)}.{{{', '.join(keep)}}}")
            return out + ([f"use {module}.{at} as goal"] if at else [])

        where = os.path.dirname(self.path)
        if invariants:
            text = "\n".join(invariants)
            mine = [k for k in kept if self.needed(k, text)]
            with open(os.path.join(where, "Invariants.antt"), "w", encoding="utf-8") as it:
                it.write("\n".join(comments + imports(text + "".join(mine), "Given")) + "\n\n" + "\n".join(mine + [text]))
        if answers:
            text = "\n".join(kept + answers)
            with open(os.path.join(where, "Answers.antt"), "w", encoding="utf-8") as it:
                it.write("\n".join(comments + imports(text, "Goals")) + "\n\n" + text)
        os.remove(self.path)

    @staticmethod
    def needed(part, text):
        name = Block(part).name
        return name is None or word(name).search(text)

    @staticmethod
    def cited(name, text):
        if "◌" in name:
            parts = [p for p in name.split("◌") if p]
            return all(p in text for p in parts)
        return bool(re.search(r"(?<![\w'-])" + re.escape(name) + r"(?!" + TOK + r")", text))


def main(argv):
    names, said = {}, []
    for f in glob.glob(os.path.join(argv[0], "**", "names.json"), recursive=True):
        with open(f, encoding="utf-8") as it:
            names.update(json.load(it))
    for crate in argv[1:]:
        for path in sorted(glob.glob(f"crates/{crate}/proofs/**/Proof.antt", recursive=True)):
            function = os.path.dirname(path).split("/proofs/")[1].replace("/", ".")
            key = f"Rattle-{crate}-proofs.{function}.Lts"
            with open(path, encoding="utf-8") as it:
                through = ".Tie as tie" in it.read()
            if key not in names or not through:
                said.append(f"{path}: left as it is")
                continue
            Turn(path, crate, function, names[key], said).run()
    print("\n".join(said))


if __name__ == "__main__":
    main(sys.argv[1:])
