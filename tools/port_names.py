#!/usr/bin/env python3
"""Spells the definitions and lemmas of the repository in snake case, where the kit's own script leaves them.

usage: tools/port_names.py [--list]     at the top of the repository, once, after port.py of the kit

A name of specs/ or proofs/ that has a dash or a capital inside gets underscores: `isZero` and `is-zero` become `is_zero`. Types, facts and modules keep
their capitals. Functions of src/, exported C names, strings, inputs and outputs keep their names. Where two names would fall together in a file, or one would
meet a name of the library there, the name is in CHOSEN below, or else a lemma gets `_lem` behind it. --list prints the names and writes nothing.
"""
import collections
import os
import re
import subprocess
import sys

WORD = r"[^\s(){}.;,@\"«»\[\]\\]+"
TOKEN = re.compile(r"--[^\n]*|\"(?:[^\"\\\n]|\\.)*\"|" + WORD)
# Comments and strings of Rust, and then words as antt has them.
RUST = re.compile(r"//[^\n]*|\"(?:[^\"\\]|\\.)*\"|" + WORD)
DECLARED = re.compile(r"^ *((?:pub|abbrev|unfoldable|private) )*(?:(?:record|data) )?(" + WORD + r")(?: (?:\{[^{}\n]*\}|\([^()\n]*\)))* : ", re.M)
FIELDS = re.compile(r"^ +(?:pub )?(" + WORD + r")(?: " + WORD + r")* : ", re.M)
USE = re.compile(r"\buse (" + WORD + r"(?:\." + WORD + r")*)\.\{([^}]*)\}")
OURS = re.compile(r"^Rattle\.(\w+)\.")
# Names that would fall together, each with the spelling that it gets.
CHOSEN = {
    "leftEnd": "left_end",
    "left_end": "left_end_lem",
    "halfUp": "half_up",
    "half-up": "half_up_lem",
    "half_up": "half_up_lem",
    "itemsAt": "items_at",
    "items_at": "items_at_lem",
    "noRoom": "no_room",
    "no-room": "no_room_lem",
    "rootCase": "root_case",
}


def snake(name):
    if not name[0].islower():
        return re.sub(r"-", "_", name) if "-" in name else name
    name = re.sub(r"(?<=[a-z0-9])([A-Z])(?=[a-z0-9]|$)", lambda m: "_" + m[1].lower(), name)
    return name.replace("-", "_")


def turns(name):
    return re.fullmatch(r"[A-Za-z][\w'→-]*", name) and re.match(r"[A-Za-z]", name) and snake(name) != name


def files(root, ending):
    out = subprocess.run(["git", "ls-files", "crates"], cwd=root, capture_output=True, text=True, check=True).stdout.split("\n")
    return [os.path.join(root, it) for it in out if it.endswith(ending) and os.path.isfile(os.path.join(root, it))]


def read(path):
    with open(path, encoding="utf-8", newline="") as it:
        return it.read()


def without_comments(text):
    return re.sub(r"--[^\n]*", "", text)


# A path of modules, and what stands behind a dot.
PATH = re.compile(WORD + r"\.(?=\S)|(?<=\.)" + WORD)
# A parameter or a field of Rust, what a file brings in for its clauses, and the clauses.
OF_RUST = re.compile(r"\b(\w+)\s*:(?!:)|ghost use ([^;]*);|\b(?:requires|ensures)\*? ?\w* ?\{([^\n]*)\}")


def said(path, text):
    """The words of a file that a name can meet."""
    if path.endswith(".rt"):
        text = "\n".join(x for m in OF_RUST.finditer(re.sub(r"//[^\n]*", "", text)) for x in m.groups() if x)
    fields = set(FIELDS.findall(without_comments(text)))
    text = PATH.sub(" ", without_comments(text)) if path.endswith(".antt") else text
    return set(TOKEN.findall(text)) | fields


def main():
    root = os.getcwd()
    crates = set(os.listdir(os.path.join(root, "crates")))
    texts = {p: read(p) for p in files(root, ".antt") + files(root, ".rt")}
    declared, lemma = collections.defaultdict(set), collections.defaultdict(bool)
    for p, t in texts.items():
        if not p.endswith(".antt"):
            continue
        goals = p.endswith("Proof.antt")
        for m in DECLARED.finditer(without_comments(t)):
            after = without_comments(t)[m.end():m.end() + 40]
            if goals and (after.startswith("tie.") or "→ statement M" in after):
                continue
            declared[m[2]].add(p)
            lemma[m[2]] |= not re.search(r"\b(abbrev|unfoldable|record|data)\b", m[0])
    of_library = collections.defaultdict(set)
    for p, t in texts.items():
        for m in USE.finditer(t):
            own = OURS.match(m[1] + ".")
            if own and own[1] in crates:
                continue
            for it in m[2].split(","):
                words = it.split()
                if words:
                    of_library[p].add(words[-1])
    names = {n: CHOSEN.get(n, snake(n)) for n in declared if (turns(n) or n in CHOSEN)}
    words = {p: said(p, t) for p, t in texts.items()}
    # where two meet
    for n in sorted(names):
        new = names[n]
        meets = [p for p in texts if n in words[p] and n not in of_library[p] and (new in words[p] or any(names.get(o) == new for o in words[p] if o != n))]
        if meets and n not in CHOSEN:
            names[n] = new + "_lem"
            if "--list" in sys.argv:
                print("meets", n, "->", names[n], "lemma" if lemma[n] else "DEFINITION", os.path.relpath(meets[0], root), len(meets))
    if "--list" in sys.argv:
        print(len(names), "names")
        for n in sorted(names):
            print(n, names[n])
        return

    def turn(text, path, pattern):
        kept = of_library.get(path, set())

        def one(m):
            w = m[0]
            if w.startswith("--") or w.startswith("//"):
                # in a comment a name with a dash is one only in backquotes
                w = re.sub(r"`[^`]*`", lambda q: TOKEN.sub(lambda x: names.get(x[0], x[0]) if x[0] not in kept else x[0], q[0][1:-1]).join("``"), w)
                return re.sub(r"(?<![\w-])[a-z][a-z0-9]*[A-Z]\w*(?![\w-])", lambda x: names.get(x[0], x[0]) if x[0] not in kept else x[0], w)
            if w.startswith('"') or w in kept or pattern is RUST and re.fullmatch(r"[a-z0-9_]+", w):
                return w
            return names.get(w, w)

        return pattern.sub(one, text)

    changed = 0
    for p, t in texts.items():
        new = turn(t, p, RUST if p.endswith(".rt") else TOKEN)
        if new != t:
            changed += 1
            with open(p, "w", encoding="utf-8", newline="") as f:
                f.write(new)
    for p in files(root, ".edit"):
        t = read(p)
        of = re.search(r"^file: (\S+)", t, re.M)
        target = os.path.join(os.path.dirname(os.path.dirname(p)), of[1]) if of else None
        new = "".join(
            line if not re.match(r"(old|new):", line) else turn(line, target, TOKEN if target and target.endswith(".antt") else RUST)
            for line in t.splitlines(keepends=True)
        )
        if new != t:
            changed += 1
            with open(p, "w", encoding="utf-8", newline="") as f:
                f.write(new)
    print(f"{len(names)} names, {changed} files")


main()
