#!/usr/bin/env python3
"""What docs/REVIEW.md says was looked for by script: `python3 review/check.py`, from the repository's root.

Reads the files as text and exits with 1 where it finds one of:
- an open call (a `pub fn` of a library) with a `requires` (but for octets' two), without an `ensures`, or with a `&mut` whose `.new`, what it
  holds at the exit, no `ensures` has;
- a symbol that two `ghost use` lines bring from two modules, or a name that an `as` gives to it;
- a must-fail edit of which an old text does not stand exactly once in its file (a further one: in what the earlier ones made), or that changes nothing;
- a name that a `use` or `ghost use` line brings and its file does not use;
- a public name of specs/ that no other file uses and that is not an end result listed below.
It judges names, not proofs: the prover does that.
"""
import collections
import pathlib
import re
import sys

ROOT = pathlib.Path(__file__).resolve().parent.parent
CRATES = ROOT / "crates"
PROGRAMS = {p.parent.parent.name for p in CRATES.glob("*/src/main.rt")}
# Bytes copied into a lent slice, and the first place of one: no call of the paper's, and the crates above see to what they ask for.
ASKING = {"octets"}
TESTS = {"pauli_calls", "kernel_calls", "run_text", "run_calls", "report_calls"}  # text in, text out: libraries of the test programs
# What nothing else cites since it is what is shown.
RESULTS = set("""
product_acts anticommute commute identity_product product_identity product_assoc hermitian_square sign_phase raised_acts dropped_acts
support_some support_none letter_set letter_kept coefficient_kept exact round_trip read_text conserved running_kept carrying_kept frame
run_exact book starred printed constants survey_most survey_most_scratch source_only open_drop seen_tells seen_once read_tells past_tells qubit_tells
default_top listed_run listed_refusal listed_count fresh_first fresh_others run_pieces pieces_run pauli_same pauli_small correction_piece
seen_by_a_tag seen_by_its_tag step_tag end_tag quarter_turn_is flag_own
frame_at_the_emulator shared_logs service_and_emulator only_the_emulator only_the_service own_line none_numbered first_part number_back
""".split())
# .. or what older proofs cited and today's do not; the theorems stay.
RESULTS |= set("word_leading word_top opening_index opening_past no_nan no_paulis unequal no_pauli_qubit".split())
found = []


def text(path):
    return path.read_text(encoding="utf-8")


def short(path):
    return str(path.relative_to(CRATES))


# ---- open calls

# Its clauses stand between the signature and a line that is a brace; a call without any has its brace on the signature's last line.
FUNCTION = re.compile(r"^ *pub (?:extern \"C\" )?fn (\w+)\s*(?:<[^>]*>)?\((.*?)\)\s*(?:->\s*[^\n{]+?)?\s*(?:\{\n|\n(.*?)^ *\{\n)", re.S | re.M)


def promised(clauses):
    """The lent buffers that a clause has at their exit: `x.new`."""
    return set(re.findall(r"(?<![\w.])«?(\w+)»?\.new\b", clauses))


def open_calls():
    calls = 0
    for path in sorted(CRATES.glob("*/src/*.rt")):
        if path.parts[-3] in PROGRAMS | TESTS:
            continue
        for name, parameters, clauses in FUNCTION.findall(text(path)):
            calls += 1
            here = f"{short(path)}: {name}"
            if re.search(r"^\s*requires", clauses, re.M) and path.parts[-3] not in ASKING:
                found.append(f"requires: {here}")
            if "ensures" not in clauses:
                found.append(f"no ensures: {here}")
            kept = promised(clauses)
            for lent in re.findall(r"(\w+): &mut", parameters):
                if lent not in kept:
                    found.append(f"lent buffer not promised: {here}: {lent}")
    return calls


# ---- ghost use

def ghost_uses():
    sources = collections.defaultdict(set)
    renames = 0
    for path in sorted(CRATES.glob("*/src/*.rt")):
        for module, names in re.findall(r"^ghost use ([^;{]+?)\.\{([^}]*)\};", text(path), re.M):
            for name in names.split(", "):
                kept, _, given = name.partition(" as ")
                renames += bool(given)
                symbol = given or kept
                if not re.search(r"[A-Za-z]", symbol):
                    sources[symbol].add(module)
                    if given:
                        found.append(f"symbol renamed: {short(path)}: {name}")
        renames += len(re.findall(r"^ghost use [^;{]+ as \w+;", text(path), re.M))
    for symbol, modules in sources.items():
        if len(modules) > 1:
            found.append(f"symbol from {len(modules)} modules: {symbol}: {', '.join(sorted(modules))}")
    return len(sources), renames


# ---- must-fail edits

def edits():
    count = 0
    for path in sorted(CRATES.glob("*/must-fail/*.edit")):
        count += 1
        lines = re.findall(r"^(file|old|new): ?(.*)$", text(path), re.M)
        whole = text(path.parent.parent / dict(lines)["file"])
        olds, news = ([said for word, said in lines if word == which] for which in ("old", "new"))
        if not olds or len(olds) != len(news):
            found.append(f"edit: {short(path)}: {len(olds)} old texts, {len(news)} new ones")
        for old, new in zip(olds, news):
            times = whole.count(old)
            if times != 1 or old == new:
                found.append(f"edit: {short(path)}: its old text stands {times} times: {old}")
            whole = whole.replace(old, new)
    return count


# ---- names that nothing uses

WORD = re.compile(r"[^\s(){}\[\],;.λ⌜⌝«»:]+")


def words(source):
    code = "\n".join(re.sub(r"(--|//).*", "", line) for line in source.split("\n") if not re.match(r"\s*(pub )?(ghost )?use ", line))
    return set(WORD.findall(code)), code


def used(name, source_words, code):
    parts = [p for p in name.split("◌") if p]
    return all(p in source_words or (not re.fullmatch(r"[\w'-]+", p) and p in code) for p in parts)


def imports():
    count = 0
    for path in sorted(list(CRATES.glob("*/specs/**/*.antt")) + list(CRATES.glob("*/proofs/**/*.antt")) + list(CRATES.glob("*/src/*.rt"))):
        source = text(path)
        source_words, code = words(source)
        for names in re.findall(r"^(?:ghost )?use [^;{]+?\.\{([^}]*)\};?$", source, re.M):
            for name in re.split(r",\s*", names.strip().rstrip(",")):
                count += 1
                given = name.split(" as ")[-1]
                if path.suffix == ".rt" and not source.count("ghost use"):
                    continue
                if not used(given, source_words, code):
                    found.append(f"unused import: {short(path)}: {name}")
    return count


def declared(source):
    """The public names of a file, the fields of its records left out."""
    record = None
    for line in source.split("\n"):
        depth = len(line) - len(line.lstrip())
        if record is not None and line.strip() and depth <= record:
            record = None
        name = re.match(r" *(?:unfoldable |abbrev )?pub (?:record |data )?([^\s:({]+) ", line)
        if name and record is None and name.group(1) not in ("mod", "use", "ruleset"):
            yield name.group(1)
        if re.match(r" *pub record ", line):
            record = depth


def public_names():
    mentions = collections.Counter()
    for path in list(CRATES.glob("*/**/*.antt")) + list(CRATES.glob("*/src/*.rt")):
        if not {"out", "target"} & set(path.parts):
            mentions.update(set(WORD.findall(text(path))))
    count = 0
    for path in sorted(CRATES.glob("*/specs/**/*.antt")):
        source = text(path)
        for name in declared(source):
            count += 1
            declares = re.compile(rf" *(?:unfoldable |abbrev )?(?:pub )?(?:record |data )?{re.escape(name)}(?![\w-]).* [:=](?: |$)")
            own = [line for line in source.split("\n") if not declares.match(line)]
            if mentions[name] < 2 and name not in RESULTS and name not in WORD.findall("\n".join(own)):
                found.append(f"public name that no other file uses: {short(path)}: {name}")
    return count


def main():
    calls = open_calls()
    symbols, renames = ghost_uses()
    print(f"{calls} open calls, {symbols} symbols and {renames} renames in ghost use lines, {edits()} edits, {imports()} imported names, {public_names()} public names in specs/")
    for line in found:
        print(line)
    print(f"{len(found)} found")
    return 1 if found else 0


sys.exit(main())
