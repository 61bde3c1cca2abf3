#!/usr/bin/env python3
"""Respells the repository's own definitions and lemmas: words in snake case, types and facts in camel case.

Run once at the top of the repository, right behind the port's own script. A name counts as the repository's own if a
file of specs/ or proofs/ defines it or binds it; names that are imported from elsewhere, and those that the checker
makes for goals and steps, keep their spelling. Strings, comments, inputs, outputs and functions of src/ are untouched.
"""
import collections
import pathlib
import re
import sys

TOKEN = re.compile(r"[A-Za-z_][A-Za-z0-9_']*(?:-[A-Za-z0-9_']+)+")
files = sorted(p for p in pathlib.Path("crates").rglob("*") if p.suffix in (".antt", ".rt") and "out" not in p.parts)
antt = [p for p in files if p.suffix == ".antt"]


def code(text):
    return "\n".join(re.sub(r"--( .*)?$", "", line) for line in text.split("\n"))


# What is imported from outside the repository keeps its name.
own_crates = {p.name for p in pathlib.Path("crates").iterdir() if p.is_dir()}
foreign = set()
for p in files:
    for path, names in re.findall(r"use ([\w.◌'+-]+)\.\{([^}]*)\}", p.read_text()):
        parts = path.split(".")
        mine = parts[0] == "Rattle" and parts[1] in own_crates
        made = mine and parts[2] == "proofs" and parts[-1] in ("Goals", "Given", "TheImpl")
        if not mine or made or "contracts" in parts:
            for name in names.split(","):
                foreign.update(TOKEN.findall(name.split(" as ")[0]))

# What the repository defines: signatures, fields, constructors, and what is bound by let and λ.
own = collections.Counter()
for p in antt:
    answers = p.name in ("Answers.antt", "Invariants.antt", "Proof.antt")
    text = code(p.read_text())
    for line in text.split("\n"):
        m = re.match(r"\s*(?:abbrev |unfoldable |pub |instance |data |record )*([^\s:(){}]+(?: [^\s:(){}]+)*) :", line)
        if m and not (answers and re.search(r":\s*goal\.", line)):
            for name in m.group(1).split():
                if TOKEN.fullmatch(name):
                    own[name] += 1
        m = re.match(r"\s*(?:pub )?(?:record|data) ([^\s:(){}]+)", line)
        if m and TOKEN.fullmatch(m.group(1)):
            own[m.group(1)] += 1
    for name in re.findall(r" as ([\w'-]+)", text):
        if TOKEN.fullmatch(name):
            own[name] += 1
    for line in [] if answers else text.split("\n"):
        head, sep, body = line.partition(" = ")
        if sep and not head.lstrip().startswith("let "):
            for name in TOKEN.findall(head):
                own[name] += 1
    for bound in re.findall(r"\blet ([^\s:=]+)", text) + re.findall(r"λ ([^.]*)\.", text):
        for name in TOKEN.findall(bound):
            own[name] += 1
    for bound in re.findall(r"[({]([^():{}]+) :", text):
        for name in TOKEN.findall(bound):
            own[name] += 1


def respelled(name):
    if name[0].isupper():
        return "".join(part[0].upper() + part[1:] for part in name.split("-"))
    return name.replace("-", "_")


names = {name: respelled(name) for name in own if name not in foreign}
if __name__ == "__main__":
    texts = {p: p.read_text() for p in files}
    taken = set()
    for text in texts.values():
        taken.update(re.findall(r"[A-Za-z_][A-Za-z0-9_']*", TOKEN.sub(" ", text)))
    for old, new in sorted(names.items()):
        clash = " falls together" if new in taken else ""
        if "--list" in sys.argv or clash:
            print(old, "->", new + clash)
    if "--list" not in sys.argv:
        for p, text in texts.items():
            out = []
            for line in text.split("\n"):
                head, comment = line, ""
                mark = "--" if p.suffix == ".antt" else "//"
                m = re.search(r"(^|\s)" + mark + r"( |$)", line)
                if m:
                    head, comment = line[: m.start()], line[m.start():]
                pieces = re.split(r'("(?:[^"\\]|\\.)*")', head)
                for i in range(0, len(pieces), 2):
                    pieces[i] = TOKEN.sub(lambda t: names.get(t.group(0), t.group(0)), pieces[i])
                comment = TOKEN.sub(lambda t: names.get(t.group(0), t.group(0)), comment) if p.suffix == ".antt" else comment
                out.append("".join(pieces) + comment)
            p.write_text("\n".join(out))
