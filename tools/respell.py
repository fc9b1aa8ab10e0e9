#!/usr/bin/env python3
"""Respells the repository's own definitions and lemmas as today's Rattle does: words in snake case, types and facts in camel case.

usage: python3 tools/respell.py        at the top of a checkout that port.py has just turned; files are rewritten in place

A name in camel case gets underscores. A dash stays only between two names of definitions, as in begins-append; at any other word it
becomes an underscore. A lemma that would get a name that its file has already gets _lem. Names of src/, of the kit and of what the
checker makes stay as they are. It prints each old name and its new one.
"""
import os
import re
import sys

OTHERS = set("append take drop cons nil suc zero length set map reverse add mul sub div get_or refl trans sym".split())
DEFINED = re.compile(r"^\s*((?:(?:abbrev|unfoldable|pub|data|record)\s+)*)([^\s:(){}.,;\[\]\"]+)((?:\s+[({].*?)?)\s*:\s(.*)$")
# Lemmas whose name a definition gets now, and where they stand or are cited (None: everywhere).
YIELDS = {"nearest_in": None, "has_words": ("index/proofs/Answers.antt",), "node_row": None, "place_at": None, "led_on": None, "passed_over": ("best/proofs/Streams.antt", "ranked/proofs/Offers.antt")}
# Names of a law of the kit's getD, which is get_or today.
SPELT = {"getD-in": "get_or_in", "get_d_rows": "get_or_rows"}
TOKEN = re.compile(r"[^\s(){}\[\].,;:\"`«»∥|λ←∙⌜⌝]+")
USE = re.compile(r"^\s*(?:ghost |pub )*use ([^\s{;]+?)(?:\.\{([^}]*)\})?(?: as (\S+?))?;?$")


def files(ends):
    for folder, dirs, names in os.walk("crates"):
        dirs[:] = sorted(d for d in dirs if d != "out")
        for name in sorted(names):
            if name.endswith(ends):
                yield os.path.join(folder, name)


def read(path):
    with open(path, encoding="utf-8") as f:
        return f.read()


def snake(word):
    if word == "getD":  # the kit's name for it today
        return "get_or"
    word = re.sub(r"(?<=[a-z0-9²′'])(?=[A-Z])", "_", word)
    return word.lower()


def respelt(name, known):
    """The name as today's Rattle spells it."""
    if name in SPELT:
        return SPELT[name]
    if name[0].isupper() and "-" not in name:
        return name
    parts = name.split("-")
    new = [p if p[0:1].isupper() else snake(p) for p in parts]
    out = new[0]
    for i in range(1, len(parts)):
        both = bool(known) and all(snake(p) in known for p in (parts[i - 1], parts[i]))
        out += ("-" if both else "_") + new[i]
    return out


def main():
    crates = {l.split(":")[0].split()[0] for l in read("crates.txt").splitlines() if l.strip() and not l.startswith("#")} | {"rows", "survey_form", "survey_table"}
    defined, known, kits, fields = {}, set(OTHERS), set(), set()
    for path in files(".antt"):
        walk = os.path.basename(path) in ("Proof.antt", "Answers.antt", "Invariants.antt") and path.split("/proofs/")[0] != path
        record = False
        for line in read(path).splitlines():
            if re.match(r"\s*(pub )?(record|data|module) ", line) or line[:1].strip():
                record = bool(re.match(r"\s*(pub )?(record|data) ", line))
            m = USE.match(line)
            if m and not (m.group(1).startswith("Rattle.") and m.group(1).split(".")[1] in crates):
                kits |= {n.strip().split(" as ")[0] for n in (m.group(2) or "").split(",")}
            if line.lstrip().startswith("--") or walk:
                continue
            m = DEFINED.match(line)
            if m and m.group(2) not in ("let", "where", "elim", "use"):
                defined.setdefault(m.group(2), set()).add(path)
                if record and line[:1] == " ":
                    fields.add(m.group(2))
                elif "-" not in m.group(2) and "/specs/" in path:
                    known |= {m.group(2), snake(m.group(2))}
    turn = {}
    for name in sorted(defined):
        new = respelt(name, set() if name in fields else known)
        if new != name and name not in kits and re.search(r"[A-Za-z]", name):
            turn[name] = new
    texts = {p: read(p) for p in list(files(".antt")) + list(files(".rt"))}
    tokens = {p: set(TOKEN.findall(t)) for p, t in texts.items()}
    for name in list(turn):
        new = turn[name]
        others = [n for n in turn if n != name and turn[n] == new]
        here = {p for p in tokens if name in tokens[p]}
        clash = name not in fields and any(new in tokens[p] for p in here) or any(o in tokens[p] for o in others for p in here) or new in kits
        if clash and "-" in name:
            print(f"falls together: {name} -> {new}: {name} becomes {new}_lem")
            turn[name] = new + "_lem"
        elif clash:
            print(f"falls together: {name} -> {new}, in {sorted(p for p in here if new in tokens[p] or any(o in tokens[p] for o in others))[:4]} ({others})")
    for name in sorted(turn):
        print(f"{name}\t{turn[name]}")

    def word(m, path, text):
        name = m.group(0)
        if name in YIELDS and path.endswith(".antt") and (YIELDS[name] is None or path.endswith(YIELDS[name])):
            return name + "_lem"
        if name in fields and name in turn and turn[name].endswith("_lem"):
            before, after = text[max(0, m.start() - 2):m.start()], text[m.end():m.end() + 2]
            if "/specs/" in path or (before in ("{ ", "; ") and after == " =") or before.endswith("."):
                return turn[name][:-4]
        return turn.get(name, name)

    for path, text in texts.items():
        new = TOKEN.sub(lambda m: word(m, path, text), text)
        if new != text and "--dry" not in sys.argv:
            with open(path, "w", encoding="utf-8") as f:
                f.write(new)


if __name__ == "__main__":
    main()
