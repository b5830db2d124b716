#!/usr/bin/env python3
"""Turns the proofs of functions that walk the code by hand (proofs/F/Proof.antt) to invariants and answers.

usage: python3 tools/turn_proofs.py FOLDER NAMES CRATE..    FOLDER is the checkout; NAMES is the folder that `rt names NAMES` wrote at its top

The list of names says for each function how its steps, goals and loops were called and are called. An answer that is only a search is
left out, since the check finds it. What is not understood stays as it was, for a person to mend: the check says where.
"""

import json
import os
import re
import sys

TOP, NAMES = sys.argv[1], sys.argv[2]
WORD = r"[^\s(){}\[\],;.:]+"


def plain(need):
    """A goal's old name without what the scripts may have changed in it."""
    need = need.replace("_", "-")
    need = re.sub(r"^overflow-", "", need)
    return {"loop-holds": "loop-init", "loop-again": "loop-preserved", "loop-less": "loop-smaller"}.get(need, need)


class Names:
    def __init__(self, table):
        self.needs = {}
        for (old, new), (_, place) in zip(table["needs"], table["asked_at"]):
            for form in {plain(old), plain(re.sub(r"holds(-?\d*)$", r"init\1", old))}:
                self.needs.setdefault(form, (new, place))
        self.clauses = table["clauses"]
        self.loops = table["loops"]
        self.changed = table["changed"]
        self.chain = {}
        self.newnames = {}
        for (old, parent, (was, now), _, _), new, clause in zip(table["places"], table["places_by_name"], table["clauses"]):
            steps = dict(self.chain.get(parent, {}))
            if was:
                steps.setdefault(was, (now, clause))
                steps[was] = (now, clause)
            self.chain[old] = steps
            self.newnames.setdefault(plain(old), (old, new))
        self.by_new = {new: old for (old, new) in self.newnames.values()}

    def steps(self, new_place):
        old = self.by_new.get(new_place)
        return self.chain.get(old, {})

    def all_steps(self):
        found = {}
        for steps in self.chain.values():
            for was, it in steps.items():
                found.setdefault(was, it)
        return found


def flat(text, steps):
    """Paths without `.before`, with today's names of steps and clauses."""
    text = re.sub(r"(?:\.before)+(?=\.)", "", text)
    text = re.sub(r"(?:\.before)+\b", "", text)

    def path(m):
        step, rest = m.group(1), m.group(2)
        for form in (step, step.replace("-", "_")):
            if form in steps:
                now, clause = steps[form]
                if clause and clause.get("fields"):
                    k = re.match(r"\.ensures\.(\d+)", rest)
                    if k and int(k.group(1)) < len(clause["fields"]):
                        rest = ".ensures." + clause["fields"][int(k.group(1))] + rest[k.end():]
                rest = re.sub(r"^\.inv(?=\.|$)", ".invariant", rest)
                if re.match(r"(if\d+|.*-test\d*)$", step):
                    rest = re.sub(r"^\.taken", ".true", rest)
                    rest = re.sub(r"^\.left", ".false", rest)
                return "." + now + rest
        return m.group(0)

    return re.sub(r"\.(" + WORD + r")((?:\." + WORD + r")*)", path, text)


def unaliased(text):
    """Without the short names for places, which are all the record `c` now."""
    while True:
        m = re.search(r"let (" + WORD + r") = c in\s+", text)
        if not m:
            return text
        text = text[:m.start()] + re.sub(r"(?<![.\w'-])" + re.escape(m.group(1)) + r"(?![\w'-])", "c", text[m.end():])


def parts(text):
    """The head of a file, with its imports, and its declarations, each with the lines above it."""
    blocks, now = [], []
    for line in text.split("\n"):
        if not line.strip():
            if now:
                blocks.append(now)
            now = []
        else:
            now.append(line)
    if now:
        blocks.append(now)
    return blocks


def convert(crate, folder, names):
    path = os.path.join(TOP, "crates", crate, "proofs", folder, "Proof.antt")
    text = open(path, encoding="utf-8").read()
    blocks = parts(text)
    head = [l for l in blocks[0] if not re.search(r"\.(Statement|Tie)\b|\{rules\}|\.Lts\b", l)]
    uses = [l for l in head if l.startswith("use ")]
    remark = [l for l in head if l.startswith("--")]
    given, answers = [], []
    loop_words = {}
    for k, (pair, _) in enumerate(names.loops):
        loop_words[plain(pair[0])] = k
    for block in blocks[1:]:
        body = "\n".join(block)
        top = [l for l in block if not l.startswith("--")]
        if not top:
            answers.append(body)
            continue
        m = re.match(r"abbrev (invariant|decreases|Inv|μ)-(" + WORD + r") : tie\.", top[0])
        if m and plain(m.group(2)) in loop_words and len(top) > 1:
            k = loop_words[plain(m.group(2))]
            (_, new), variables = names.loops[k][0], names.loops[k][1]
            word = "invariant" if m.group(1) in ("invariant", "Inv") else "decreases"
            whole = "\n".join(l for l in top[1:] if not l.startswith("unfolding"))
            left, right = whole.split("=", 1)
            heads = left.split()[1:]
            marks = [f"l.initial.{v}" if c else f"l.{v}" for v, c in zip(variables, names.changed[k])]
            marks += [f"l.{v}" for v, c in zip(variables, names.changed[k]) if c]
            if len(heads) == len(marks):
                table = dict(zip(heads, marks))
                right = re.sub(r"(?<![.\w₀'-])(" + WORD + r")", lambda w: table.get(w.group(1), w.group(1)), right)
                given.append(f"abbrev pub {word}-{new} : goal.{word}-{new}\n{word}-{new} l ={right}")
            else:
                given.append(f"-- LEFT: {heads} against {marks}\n{body}")
            continue
        if re.match(r"pub \S+[-_]spec : ", top[0]):
            answers.extend(inline(body, names))
            continue
        m = re.match(r"(" + WORD + r") : tie\.Need-(" + WORD + r")", top[0])
        if m:
            need = names.needs.get(plain(m.group(2)))
            if not need:
                answers.append("-- LEFT: no goal " + m.group(2) + "\n" + body)
                continue
            new, place = need
            rest = "\n".join(top[1:])
            rest = re.sub(r"(?m)^" + re.escape(m.group(1)) + r"(?=\s)", new, rest)
            rest = re.sub(r"(?m)^(" + re.escape(new) + r" c) κs(?=\s)", r"\1", rest)
            rest = unaliased(flat(rest, names.steps(place)))
            above = "".join(l + "\n" for l in block if l.startswith("--"))
            if re.fullmatch(re.escape(new) + r" c =\s*search rules", rest):
                continue
            answers.append(f"{above}pub {new} : goal.{new}\n{rest}")
            continue
        body = re.sub(r"tie\.(" + WORD + r")((?: (?:invariant|decreases|Inv|μ)-" + WORD + r")*)", lambda w: "goal." + names.newnames.get(plain(w.group(1)), (0, w.group(1)))[1], body)
        answers.append(flat(body, names.all_steps()))
    base = os.path.dirname(path)
    module = f"Rattle.{crate}.proofs.{folder.replace('/', '.')}"
    if given:
        open(os.path.join(base, "Invariants.antt"), "w", encoding="utf-8").write("\n".join(remark + uses + [f"use {module}.Given as goal"]) + "\n\n" + "\n\n".join(given) + "\n")
    if answers:
        open(os.path.join(base, "Answers.antt"), "w", encoding="utf-8").write("\n".join(remark + ["use Rattle.std.proofs.Common.{rules}"] + uses + [f"use {module}.Goals as goal"]) + "\n\n" + "\n\n".join(answers) + "\n")
    os.remove(path)
    print(f"{crate}/{folder}: {len(given)} given, {len(answers)} answers, {sum(a.startswith('-- LEFT') for a in answers + given)} left")


def inline(body, names):
    """What the last line of a proof gave in place, where it was more than a search."""
    found = []
    for m in re.finditer(r"\(λ c(?: κs)?\. ", body):
        depth, end = 1, m.end()
        while depth and end < len(body):
            depth += {"(": 1, ")": -1}.get(body[end], 0)
            end += 1
        said = body[m.end():end - 1].strip()
        if said not in ("search rules", "search needs"):
            found.append("-- LEFT: in place: " + said.replace("\n", " "))
    return found


def main():
    for crate in sys.argv[3:]:
        table = json.load(open(os.path.join(NAMES, "crates", crate, "names.json"), encoding="utf-8"))
        proofs = os.path.join(TOP, "crates", crate, "proofs")
        for folder, dirs, names in os.walk(proofs):
            if "Proof.antt" not in names:
                continue
            short = os.path.relpath(folder, proofs)
            key = f"Rattle-{crate}-proofs.{short.replace(os.sep, '.')}.Lts"
            if key not in table:
                print(f"{crate}/{short}: no names; keys such as {[k for k in table if short.split('/')[-1].strip('+') in k][:4]}")
                continue
            convert(crate, short, Names(table[key]))


main()
