#!/usr/bin/env python3
"""Brings the must-fail edits to today's spelling; run at the top, after port.py and tools/port_names.py.

usage: python3 tools/port_edits.py BEFORE LANDED [--write] [CRATE..]

LANDED is the commit whose edits are brought over. BEFORE is a checkout of it as port.py left it, in which tools/port_names.py has not run: the table
of names is made there. Each pair of an edit is read in its file as it stood at LANDED: the lines that it changes are turned, before and after, and
the turned lines before must stand in today's file; then the pair's own text is turned alike, and must stand there once. A pair that adds a name to
an import adds it to today's import of that module, or is left out where the name is there. What does not come out so is listed as 'left', and its
edit stays as it is, to be mended by hand. Without --write nothing is written.
"""

import glob
import os
import re
import subprocess
import sys
import tempfile

import port_names

LIBRARY = {"getD": "get_or"}
PRELUDE = re.compile(r"(?:Prim|mathlib|lib)(?:\.\w+)+")
WORD = re.compile(r"[^\W\d][\w'*-]*(?:\.[^\W\d][\w'*-]*)*|\d+|\[\]|⊥")
# What an edit writes of clauses of src/, whose parameters and results have other names today: each text of LANDED and today's.
CLAUSES = {
    "PlayedByBooks (now (levels .entry)) (now (block .entry)) r (playedPasses (now (passes .entry)) (length (now (replies .entry)))) (now (replies .exit)) (now (state .exit))": "PlayedByBooks levels.now block.now result (played_passes passes.now (length replies.old)) replies.new state.new",
    "PlayedByBooks (now (levels .entry)) (now (block .entry)) r (playedPasses (now (passes .entry)) (length (now (replies .entry)))) (now (replies .exit)) (now (state .entry))": "PlayedByBooks levels.now block.now result (played_passes passes.now (length replies.old)) replies.new state.old",
    "requires { ⌜ (p .count ≤ 16) × (every inRange (tasksOf p) ≡ true) ⌝ } ensures { λ r. ⌜ r ≤ number ⌝ }": "requires { (p.count ≤ 16) × (every in_range (tasks_of p) ≡ true) } ensures { result ≤ number }",
    "requires { ⌜ (length (now block) ≡ stateLength) × (1 ≤ speed) × (speed ≤ 1000) ⌝ } ensures { λ _. ⌜ length (now (block .exit)) ≡ stateLength ⌝ }": "requires { (length block.old ≡ state_length) × (1 ≤ speed) × (speed ≤ 1000) } ensures { length block.new ≡ state_length }",
    "requires { ⌜ length (now state) ≡ stateLength ⌝ }": "requires { length state.now ≡ state_length }",
    "requires { ⌜ (j < places) × (length (now block) ≡ stateLength) ⌝ } ensures { λ r. ⌜ key ≤ r ⌝ }": "requires { (j < places) × (length block.now ≡ state_length) } ensures { key ≤ result }",
}
FIELD = r" \.\w[\w'*-]*"


def git_show(commit, path):
    r = subprocess.run(["git", "show", commit + ":" + path], capture_output=True, text=True)
    return r.stdout if r.returncode == 0 else None


def pairs_of(text):
    """The file of an edit, its pairs, and whether each line was understood."""
    path, pairs = None, []
    for line in text.splitlines():
        if line.startswith("file: "):
            path = line[6:]
        elif line.startswith("old: "):
            pairs.append([line[5:], None])
        elif line.startswith("new: ") or line == "new:":
            pairs[-1][1] = line[5:]
        elif line.strip() and not line.startswith("#"):
            raise ValueError("a line of no kind: " + line)
    return path, pairs


def tokens(text):
    """The text's tokens: spaces, words, fields written apart, brackets and the rest."""
    return re.findall(FIELD + r"|\s+|«[^»]*»|" + WORD.pattern + r"|[(){}]|.", text)


def tight(text):
    """Fields written tight, as in `x.f` and `(g x).f`; brackets that hold one such word go."""
    ts, at, out = tokens(text), 0, ""
    while at < len(ts):
        more, at, _ = up_to(ts, at)
        # a bracket that was opened before this text
        out += more + (ts[at] if at < len(ts) else "")
        at += 1
    return out


def up_to(ts, at):
    """The text from the token at, up to a bracket that closes none of it; where that stands; whether it is one word whose field was written apart."""
    done, spine, gap, turned = "", [], "", False
    while at < len(ts) and ts[at] not in ")}":
        t = ts[at]
        if t in "({":
            inner, after, is_word = up_to(ts, at + 1)
            close = ts[after] if after < len(ts) else ""
            spine.append(gap + (inner if t == "(" and is_word and close else t + inner + close))
            gap, turned = "", False
            at = after + 1
        elif re.fullmatch(FIELD, t) and spine:
            lead = re.match(r"\s*", spine[0]).group(0)
            whole = "".join(spine).lstrip()
            spine = [lead + (whole if len(spine) == 1 else "(" + whole + ")") + t.strip()]
            turned = True
            at += 1
        elif t.isspace():
            gap += t
            at += 1
        elif re.fullmatch(WORD, t) or t.startswith("«"):
            spine.append(gap + t)
            gap, turned = "", False
            at += 1
        else:
            done += "".join(spine) + gap + t
            spine, gap, turned = [], "", False
            at += 1
    return done + "".join(spine) + gap, at, not done and len(spine) == 1 and turned


def by_port(landed, before):
    """The repository's own names that port.py turned itself: declared at the one, not at the other, where their plain spelling is."""
    here = os.getcwd()
    with tempfile.TemporaryDirectory() as folder:
        archive = subprocess.run(["git", "archive", landed, "crates"], capture_output=True).stdout
        subprocess.run(["tar", "-x", "-C", folder], input=archive, check=True)
        os.chdir(folder)
        first = set(port_names.declared(port_names.spec_files()))
        os.chdir(before)
        then = set(port_names.declared(port_names.spec_files()))
        os.chdir(here)
    out = {}
    for name in first - then:
        if re.fullmatch(r"[^\W\d][\w'\-]*", name):
            new = re.sub(r"(?<=[a-z0-9'])([A-Z])", lambda m: "_" + m.group(1).lower(), name).replace("-", "_")
            if new in then:
                out[name] = new
            else:
                print("a name that port.py turned otherwise:", name)
    return out


def import_pair(old, new, now):
    """A pair that adds names to an import line: today's line before and after; None where today's line has them already."""
    found = re.match(r"use ([^{]+)\.\{(.*?)\}?$", old)
    module, had = found.group(1), re.split(r",\s*", found.group(2).strip(" ,"))
    added = [n for n in re.split(r",\s*", re.match(r"use [^{]+\.\{(.*?),?\}?$", new).group(1)) if n not in had]
    line = re.search(r"(?m)^use " + re.escape(module) + r"\.\{([^}]*)\}$", now)
    there = re.split(r",\s*", line.group(1))
    added = [n for n in added if n not in there]
    if not added:
        return None
    head = "use " + module + ".{"
    if now.count(head + there[0] + ",") == 1:
        return head + there[0] + ",", head + ", ".join(added + there[:1]) + ","
    return line.group(0), line.group(0)[:-1] + ", " + ", ".join(added) + "}"


def turner(turned, kinds, path, own):
    def turn(text):
        for clause, today in CLAUSES.items():
            if clause in text and path.endswith(".rt"):
                return text.replace(clause, today)
        text = port_names.turned_text(text, turned, kinds, path)
        text = port_names.WORD.sub(lambda m: own.get(m.group(0), m.group(0)), text)
        if re.match(r"(?:ghost )?use ", text):
            text = PRELUDE.sub("Rattle.std.specs.Prelude", text, count=1)
            text = re.sub(r"Rattle·(\w+)(?:·specs)?\.specs(?:\.specs)?\.", r"Rattle.\1.specs.", text)
            text = re.sub(r"(?<=[{ ])_(\S)_(?=[,}])", r"◌\1◌", text)
        text = re.sub(r"(?<![\w'-])(" + "|".join(LIBRARY) + r")(?![\w'-])", lambda m: LIBRARY[m.group(1)], text)
        if path.endswith(".antt"):
            text = tight(text)
        return text

    return turn


def main():
    words = [w for w in sys.argv[1:] if w != "--write"]
    before, landed, crates = words[0], words[1], words[2:]
    here = os.getcwd()
    os.chdir(before)
    turned, kinds, clash = port_names.table()
    os.chdir(here)
    own = by_port(landed, before)
    counts = {"stood": 0, "turned": 0, "by line": 0, "left": 0}
    files = subprocess.run(["git", "ls-tree", "-r", "--name-only", landed, "crates"], capture_output=True, text=True).stdout.split("\n")
    for edit in sorted(f for f in files if f.endswith(".edit")):
        crate = edit.split("/")[1]
        if crates and crate not in crates:
            continue
        was = git_show(landed, edit)
        path, pairs = pairs_of(was)
        full = "crates/" + crate + "/" + path
        old_file = git_show(landed, full)
        if not os.path.exists(full):
            print(f"left: {edit}: {path} is gone")
            counts["left"] += 1
            continue
        today = open(full, encoding="utf-8").read()
        turn = turner(turned, kinds, full, own)
        out, why, kind = [], [], "stood"
        now = today
        for old, new in pairs:
            if old_file.count(old) != 1:
                why.append(f"stood {old_file.count(old)} times at LANDED: {old}")
                break
            edited = old_file.replace(old, new)
            start = old_file.rfind("\n", 0, old_file.index(old)) + 1
            end = old_file.find("\n", old_file.index(old) + len(old))
            line_old = old_file[start:end]
            line_new = edited[start : len(edited) - (len(old_file) - end)]
            t_old, t_new = turn(old), turn(new)
            l_old, l_new = turn(line_old), turn(line_new)
            if old.startswith("use "):
                pair = import_pair(t_old, t_new, now)
                if pair is None:
                    print(f"needless: {edit}: {new}")
                    out.append(None)
                    old_file = edited
                    kind = "turned"
                    continue
                out.append(pair)
                kind = "by line"
            elif now.count(t_old) == 1 and t_old == old and t_new == new and l_old in now:
                out.append((old, new))
            elif now.count(t_old) == 1 and (t_old in CLAUSES.values() or l_old in now and l_old.replace(t_old, t_new) == l_new):
                out.append((t_old, t_new))
                kind = "turned" if kind != "by line" else kind
            elif now.count("\n" + l_old + "\n") == 1 and old_file.count("\n" + line_old + "\n") == 1:
                out.append((l_old, l_new))
                kind = "by line"
            elif l_old.strip() and now.count(l_old.strip()) == 1:
                out.append((l_old.strip(), l_new.strip()))
                kind = "by line"
            else:
                why.append(f"\n    old: {old}\n    new: {new}\n    turned: {t_old} ({now.count(t_old)} times)\n    line: {line_old}\n    turned line: {l_old}\n    turned new:  {l_new}")
                break
            now = now.replace(out[-1][0], out[-1][1])
            old_file = edited
        if why:
            counts["left"] += 1
            print(f"left: {edit}: " + "; ".join(why))
            continue
        counts[kind] += 1
        # the lines that are neither old nor new stay as they were
        text, i = [], 0
        for line in was.splitlines():
            if line.startswith("old: "):
                if out[i]:
                    text.append("old: " + out[i][0])
            elif line.startswith("new:"):
                if out[i]:
                    text.append("new: " + out[i][1])
                i += 1
            else:
                text.append(line)
        new_text = "\n".join(text) + "\n"
        if kind == "by line":
            print(f"by line: {edit}\n" + "\n".join(f"    {o}\n    {n}\n      -> {a}\n      -> {b}" for (o, n), (a, b) in zip(pairs, [p or ("-", "-") for p in out])))
        if "--write" in sys.argv and new_text != was:
            open(edit, "w", encoding="utf-8").write(new_text)
    print(counts)


if __name__ == "__main__":
    main()
