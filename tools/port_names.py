#!/usr/bin/env python3
"""Brings the repository's own definitions and lemmas to Rattle's spelling of names; run once, at the top, after port.py.

usage: python3 tools/port_names.py [--dry]

Definitions, lemmas, constructors and the fields of records that specs/ and proofs/ declare are written in snake case. A dash stays only where
it joins two names, as in `length-tasks_of`; a plain word is added with `_`. Types, and names that a name has a type's capital in, keep it. The
names of functions and types of src/ stay, and so do those that Rattle makes: a `Proof.antt` takes the new names of what it cites, and keeps its own.
"""

import glob
import re
import sys

TOKEN = r"[^\s(){}\[\].,;:«»]+"
# The operations of one word whose laws are named after two of them.
OPERATIONS = set("length take drop replicate set sets map add mul need gcd lcm encode decode packed unpacked padded number digits".split())
WORD = re.compile(r"(?<![\w'\-])[^\W\d][\w']*(?:-[\w'*]+)*(?![\w'\-])")

def proof_files():
    return sorted(glob.glob("crates/*/proofs/**/*.antt", recursive=True))


def spec_files():
    return sorted(glob.glob("crates/*/specs/**/*.antt", recursive=True))


def declared(files):
    """The names that these files declare, and of what kind."""
    names = {}
    for path in files:
        if path.endswith("/Lib.antt"):
            continue
        kind, indent = None, 0
        for line in open(path, encoding="utf-8"):
            if line.strip().startswith("--") or not line.strip():
                continue
            here = len(line) - len(line.lstrip())
            head = re.match(r"\s*(?:pub )?(data|record)\s+(" + TOKEN + ")", line)
            if head:
                kind, indent = head.group(1), here
                names.setdefault(head.group(2), set()).add("type")
                continue
            if kind and here <= indent:
                kind = None
            found = re.match(r"\s*(?:abbrev |unfoldable |pub )*(" + TOKEN + r")(?:\s+\{[^}]*\})?\s+:\s", line)
            if found:
                names.setdefault(found.group(1), set()).add({"data": "constructor", "record": "field", None: "def"}[kind])
    return names


def imported():
    """The names that the repository takes from elsewhere."""
    names = set()
    for path in spec_files() + proof_files() + glob.glob("crates/*/src/**/*.rt", recursive=True):
        for module, items in re.findall(r"use ([^\s{;]+)\.\{([^}]*)\}", open(path, encoding="utf-8").read()):
            for item in re.split(r"[,\s]+", items):
                names.add(item)
    return names


def snake(part):
    """A name without dashes: a type's capital at its front stays."""
    if part[0].isupper():
        return part
    return re.sub(r"(?<=[a-z0-9'])([A-Z])", lambda m: "_" + m.group(1).lower(), part)


def spelled(name, known):
    parts = [snake(p) for p in name.split("-")]
    out = parts[0]
    joined = True
    for i in range(1, len(parts)):
        joined = joined and parts[i - 1] in known and parts[i] in known
        out += ("-" if joined else "_") + parts[i]
    return out


def table():
    own = declared([p for p in spec_files() + proof_files() if not p.endswith("/Proof.antt")])
    taken = imported()
    defined = declared(spec_files())
    plain = {snake(n) for n in defined if "-" not in n and "def" in defined[n]}
    known = {n for n in plain if "_" in n} | OPERATIONS
    turned, kinds = {}, {}
    for name in own:
        if not re.fullmatch(r"[^\W\d][\w'\-*]*", name):
            continue
        new = spelled(name, known)
        if new != name:
            turned[name] = new
            kinds[name] = own[name]
    # a lemma that would get the name of what it is about
    every = {}
    for name in own:
        if "field" not in own[name]:
            every.setdefault(turned.get(name, name), []).append(name)
    clash = {}
    for new, old in every.items():
        if len(old) > 1:
            first = [n for n in old if n in defined] or [n for n in old if "-" not in n and "_" not in n]
            if len(first) != 1 or new + "_lem" in every:
                clash[new] = old
                continue
            for name in old:
                if name != first[0]:
                    turned[name] = new + "_lem"
                    kinds[name] = own[name]
    for name in taken:
        if name not in own and name in every:
            clash.setdefault(name, every[name] + ["(imported)"])
    turned["defined"] = {turned.get(n, n) for n in defined}
    return turned, kinds, clash


def turned_text(text, turned, kinds, path):
    code, walked = path.endswith(".rt"), path.endswith("/Proof.antt")

    brought = {w for items in re.findall(r"use [^\s{;]+\.\{([^}]*)\}", text) for w in re.split(r"[,\s]+", items)}
    brought |= set(re.findall(r"(?m)^(?:abbrev |unfoldable |pub )*(" + TOKEN + r")\s+:\s", text))

    given = set(re.findall(r"\((" + TOKEN + r")\s+:\s", text))

    def one(m):
        word = m.group(0)
        new = turned.get(word)
        if new is None:
            return word
        # a field here, and there a lemma, which would get a definition's name
        if kinds[word] >= {"field", "def"} and new in turned["defined"] and word in brought:
            return new + "_lem"
        # a field that this file also has as a parameter
        if "field" in kinds[word] and new in turned["defined"] and word in given:
            line = text[text.rfind("\n", 0, m.start()) + 1 : m.start()]
            after = text[m.end() : m.end() + 2]
            if not (text[m.start() - 1] == "." or line.strip() in ("", "pub") or after == " ="):
                return new + "_lem"
        # a name that has today's spelling already may be a function's of src/, too
        plain = snake(word) == word and "-" not in word
        before = text[m.start() - 1] if m.start() else ""
        if plain and (code or before == "."):
            return word
        if before == "." and walked and "field" not in kinds[word]:
            return word
        return new

    return WORD.sub(one, text)


def main():
    turned, kinds, clash = table()
    for new, old in sorted(clash.items()):
        print("one name for several:", new, old)
    if "--dry" in sys.argv:
        for old, new in sorted(turned.items()):
            if old != "defined":
                print(old, new)
        return
    if clash:
        sys.exit(1)
    files = spec_files() + proof_files()
    files += sorted(glob.glob("crates/*/src/**/*.rt", recursive=True))
    for path in files:
        text = open(path, encoding="utf-8").read()
        new = turned_text(text, turned, kinds, path)
        if new != text:
            open(path, "w", encoding="utf-8").write(new)


if __name__ == "__main__":
    main()
