#!/usr/bin/env python3
"""Brings the repository's own definitions and lemmas to snake case, once, behind the port to today's Rattle.

usage: python3 tools/respell.py        at the top of the repository, with everything committed

A name that specs/ or proofs/ declares and that has a dash or is in camel case gets underscores, wherever it stands:
`open-bit` and `openBit` become `open_bit`. Types and modules keep their camel case, operators their signs, Rust's names
their spelling. A name that a file imports from the kit stays in that file. The table of what was respelled is
printed; a line 'clash:' names two that would fall together, and then nothing is written.
"""

import os
import re
import sys

WORD = r'[^\s(){}\[\];,.@"«»`]+'
DECLARED = re.compile(
    r"^ *(?:(?:pub|abbrev|unfoldable|abstract) )*(?:(?P<kind>data|record|ruleset) )?(?P<name>"
    + WORD
    + r")(?: (?:\([^()]*(?:\([^()]*\)[^()]*)*\)|\{[^{}]*\}))* :(?: (?P<type>.*)|$)"
)
# Rulesets, and words that a file brings in under a name with a middle dot.
DOTTED = {
    "Sign·simp": "sign_simp",
    "Same·cong": "same_cong",
    "Lines·part": "line_part",
    "Input·number": "input_number",
    "text·Refused": "text_refused",
    "text·Length": "text_length",
}
USE = re.compile(r"\buse ([^\s;{]+?)(?:\.\{([^}]*)\})?(?=;|\s|$)")


def texts(endings, tops=("src", "specs", "proofs")):
    for crate in sorted(os.listdir("crates")):
        for top in tops:
            for folder, dirs, files in os.walk(os.path.join("crates", crate, top)):
                dirs.sort()
                for name in sorted(files):
                    if name.endswith(endings):
                        yield os.path.join(folder, name)


def read(path):
    with open(path, encoding="utf-8") as f:
        return f.read()


def of_a_function(path):
    return os.path.basename(path) in ("Proof.antt", "Answers.antt", "Invariants.antt")


def respelled(name):
    if "◌" in name:
        return name
    if name[:1].isupper():
        # a type or a letter of Pauli's: only its tail is a word
        return re.sub(r"(?<=\w)-(?=\w)", "_", name) if "-" in name else name
    name = re.sub(r"(?<=[^-_\s])-(?=\w)", "_", name)
    return re.sub(r"(?<=[a-z0-9₀-₉])([A-Z])(?=[a-z]|$|_)", lambda m: "_" + m[1].lower(), name)


def declared():
    """Each name that specs/ and proofs/ declare."""
    names = set()
    for path in texts(".antt"):
        for line in read(path).splitlines():
            m = DECLARED.match(line)
            if not m:
                continue
            name, said = m["name"], m["type"] or ""
            if of_a_function(path) and (said.startswith("tie.") or "statement" in said or name.endswith("-spec")):
                continue
            names.add(name)
    return names


def from_the_kit(text, own):
    """The names that a file imports from elsewhere than the repository's crates."""
    names = set()
    for path, items in USE.findall(text):
        steps = path.split(".")
        if steps[0] == "Rattle" and len(steps) > 1 and steps[1] in own:
            continue
        for it in items.split(","):
            names.update(it.split(" as ")[0].split())
    return names


def brought(text, own):
    """The names that a file declares, or imports from the repository's crates."""
    names = {m["name"] for line in text.splitlines() if (m := DECLARED.match(line))}
    for path, items in USE.findall(text):
        if len(path.split(".")) > 2 and path.split(".")[1] in own and not path.endswith(("Goals", "Given", "Tie", "Statement")):
            names.update(it.split()[0] for it in items.split(",") if it.split())
    return names


CUT = re.compile(r'"(?:\\.|[^"\\])*"|`[^`\n]*`|(?<![^\s])--.*|//.*|' + WORD, re.M)


def turned(text, table):
    def one(m):
        it = m[0]
        if it.startswith(("--", "//")):
            return re.sub(r"`([^`\n]*)`", lambda q: "`" + turned(q[1], table) + "`", it)
        if it.startswith("`"):
            return "`" + turned(it[1:-1], table) + "`" if len(it) > 1 else it
        return table.get(it, it)

    return CUT.sub(one, text)


def main():
    own = set(os.listdir("crates"))
    names = declared()
    rust = {it for path in texts(".rt", ("src",)) for it in re.findall(r"\b(?:fn|let|let mut) (\w+)", read(path))}
    rust |= {it for path in texts(".rt", ("src",)) for it in re.findall(r"\b(\w+): ", read(path))}
    kits = set().union(*(from_the_kit(read(path), own) for path in texts((".antt", ".rt"))))
    table, moved = dict(DOTTED), {}
    # A lemma that would have its function's name gets `_lem`.
    for old in sorted(names, key=lambda it: ("-" in it, it)):
        new = respelled(old)
        if old == new:
            continue
        if "-" not in old and new in names and respelled(new) == new:
            moved[new] = new + "_lem"
        else:
            while new in names and new not in table or new in kits or new in table.values():
                new += "_lem"
        table[old] = new
    clashes, written = [], {}
    for path in texts((".antt", ".rt")):
        text = read(path)
        here = {old: new for old, new in table.items() if old not in from_the_kit(text, own)}
        here |= {old: new for old, new in moved.items() if old in brought(text, own)}
        words = set(re.findall(WORD, re.sub(r"(?m)(?<!\S)(--|//).*", "", text)))
        for old in words & set(here):
            rivals = [it for it in words if it != old and here.get(it, it) == here[old] and it not in rust]
            clashes += [f"clash: {path}: {old} and {it}" for it in rivals]
        new = turned(text, here)
        if new != text:
            written[path] = new
    if clashes:
        print("\n".join(clashes))
        return 1
    for path, text in written.items():
        with open(path, "w", encoding="utf-8") as f:
            f.write(text)
    for old, new in sorted((table | moved).items()):
        print(f"{old}\t{new}")
    return 0


if __name__ == "__main__":
    sys.exit(main())
