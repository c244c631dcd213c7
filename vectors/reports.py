#!/usr/bin/env python3
"""A second opinion on the reports of steps, and the lines of the programs that test them.

    reports.py answers < stdin > stdout      answers to calls, a line each
    reports.py fuzz PROGRAM SEED COUNT       COUNT random calls asked of PROGRAM (crates/frame_vectors/out/frame_vectors) as well: the first
                                             line that differs, or how many answers of each kind agree
    reports.py report < input > text         what the program `report` prints of its input
    reports.py inputs PROGRAM SEED COUNT     COUNT random inputs given to PROGRAM (crates/report/out/report) as well, and compared so

Its recorded lines stand before those of logs.py in crates/frame_vectors; frames.py writes them.

Written from the scope's text (document 01), from requests E7, E8 and E13 (document 02), which the comments quote, and from
the description of the calls and of their texts that their writer was given as well; its writer opened no Rattle code of the
reports. The reader of runs, its rows and the carrier are those of runs.py, which was written the same way. What a report says
of a step is taken letter by letter, and held for every step that is told against three other ways to it (see `tied`).

A call is its name, a run and numbers as in runs.py; a Pauli is its width, k, x and z.

    report RUN width k x z number        `none` where the step has no flag; `kept` or `changed` and the mask; or the refusal
    reports RUN width k x z              the same of the steps from 0 on, commas between, up to the first that is refused
    emulated-report RUN width k x z number
    emulated-reports RUN width k x z     both for the emulator; all other calls are the service's
    find RUN width k x z number          `found`, the frame before the step (width k x z), the step's kind; or the refusal
    line RUN width k x z number size     the text of the step's line
    lines RUN width k x z size           the text of all lines
    input BYTES size                     the text of what `report` prints for this input

A text goes to a buffer of so many dots, `size`. Its answer is `length` and the text's, or the refusal, a bar, and the whole
buffer as runs.py tells a listing: its size, then the buffer itself with `/` for each newline or, where it has more than 400
bytes, a digest of it. A run or an input over 66,000 bytes, a size over 262,144, another count of numbers, another name:
`unread`.

`refused` and the number, `at` and the offset where it has one, is a refusal.
"""

import random
import subprocess
import sys
from collections import Counter
from functools import lru_cache
from itertools import product as each_of

import runs
from model import Pauli, Refused, parity, refuse
from runs import (
    EMULATED,
    EMULATOR,
    END,
    EVERY_KIND,
    FROM_NONE,
    HELD,
    I,
    LONGEST,
    NAN,
    REFUSED_RUNS,
    SERVICE,
    X,
    Y,
    Z,
    RefusedAt,
    any_pauli,
    bytes_of,
    correcting,
    length,
    on_emulator,
    passed,
    projecting,
    promoting,
    random_phased,
    random_run,
    random_text,
    refused,
    rotating,
    spelled,
    starting,
    told_listing,
    turning,
    walk,
)

WIDEST_TEXT = 262144
MOST = 2**64 - 1

# ------------------------------------------------------------------ one report


def letter(pauli, q):
    """The letter of one qubit: both masks set is Y."""
    return "IXZY"[(pauli.x >> q & 1) + 2 * (pauli.z >> q & 1)]


def mask_of(frame, other):
    """The mask of qubits on which the Pauli carried so far and the step's Pauli anticommute. Two letters anticommute when
    neither is I and they differ."""
    mask = 0
    for q in range(frame.n):
        a, b = letter(frame, q), letter(other, q)
        if a != "I" and b != "I" and a != b:
            mask |= 1 << q
    return mask


def flag_of(step):
    """A rotation's sign, a projection's branch."""
    return step[2] if step[0] == "rotation" else step[3]


def flagged(step):
    """Promotions and corrections report "no flag"; of quarter turns step reports say "no flag"."""
    return step[0] in ("rotation", "projection")


def report_of(frame, step):
    """None, or whether the sign or branch was changed and the mask."""
    if not flagged(step):
        return None
    left, _ = passed(frame, step)
    return flag_of(left) != flag_of(step), mask_of(frame, step[1])


@lru_cache(maxsize=8)
def followed(run, caller, n, k, x, z):
    """Each step with its tag's offset and the Pauli carried so far, and the end Pauli. The run's own refusals come first, then
    those of the Pauli."""
    width, steps = walk(run, caller)
    pauli = Pauli(n, k, x, z)
    refuse(3, not pauli.fits())
    refuse(4, pauli.n != width)
    found = []
    for at, step in steps:
        found.append((at, pauli, step))
        _, pauli = passed(pauli, step)
    tied(run, caller, Pauli(n, k, x, z), found)
    return found, pauli


def steps_of(run, caller, pauli):
    return followed(run, caller, pauli.n, pauli.k, pauli.x, pauli.z)


def step_at(run, caller, pauli, number):
    """For a step number, from 0 at the first field after start. 20, a step number not in the run, comes after the run's own
    refusals."""
    found, _ = steps_of(run, caller, pauli)
    refuse(20, number >= len(found))
    _, frame, step = found[number]
    return frame, step


# ------------------------------------------------------------- three other ways

ONE, X_MATRIX, Z_MATRIX = ((1, 0), (0, 1)), ((0, 1), (1, 0)), ((1, 0), (0, -1))


def times(a, b):
    return tuple(tuple(sum(a[i][m] * b[m][j] for m in (0, 1)) for j in (0, 1)) for i in (0, 1))


def matrix(x, z):
    """X^x Z^z on one qubit, Z acting first, by multiplication."""
    return times(X_MATRIX if x else ONE, Z_MATRIX if z else ONE)


def opposed(a, b):
    """AB = -BA."""
    return times(a, b) == tuple(tuple(-entry for entry in row) for row in times(b, a))


# By the masks' bits at one qubit: x and z of one Pauli, of the other.
OPPOSED = {bits: opposed(matrix(*bits[:2]), matrix(*bits[2:])) for bits in each_of((0, 1), repeat=4)}


def tied(run, caller, pauli, found):
    """What is told of each step, against the bytes of the carried run, the number of ones, and 2 by 2 matrices."""
    carried, _ = runs.carry(run, caller, pauli, len(run))
    bits = lambda p, q: (p.x >> q & 1, p.z >> q & 1)
    for at, frame, step in found:
        told = report_of(frame, step)
        assert frame.fits() and (step[0] == "promotion" or frame.n == step[1].n)
        if told is None:
            assert run[at] in (3, 5, 7)
            behind = at + 3 + runs.LENGTHS[run[at]]
            assert carried[at:behind] == run[at:behind]
            continue
        changed, mask = told
        # Behind the tag and the length: 17 bytes of a Pauli, and a projection's pivot.
        place = at + 3 + {2: 17, 4: 18}[run[at]]
        assert changed == (carried[place] != run[place])
        # Its count of ones is odd exactly when the flag changed.
        assert changed == (bin(mask).count("1") % 2 == 1)
        assert mask < 2**frame.n
        for q in range(frame.n):
            assert (mask >> q & 1) == OPPOSED[bits(frame, q) + bits(step[1], q)]


# ------------------------------------------------------------------------ text


def display(pauli):
    """The prefix for k minus the Y count modulo 4: none, `i*`, `-`, `-i*`; a letter for each qubit. No qubits show as `I`."""
    letters = "".join(letter(pauli, q) for q in range(pauli.n))
    return ("", "i*", "-", "-i*")[(pauli.k - letters.count("Y")) % 4] + (letters or "I")


def told_flag(frame, step):
    told = report_of(frame, step)
    if told is None:
        return "no flag"
    changed, mask = told
    qubits = [str(q) for q in range(frame.n) if mask >> q & 1]
    return " ".join(["changed" if changed else "kept", *(["qubits", *qubits] if qubits else [])])


def step_line(number, frame, step):
    pauli = [] if step[0] == "promotion" else [display(step[1])]
    return " ".join(["step", str(number), step[0], *pauli, "frame", display(frame), told_flag(frame, step)]) + "\n"


def list_step(run, pauli, number):
    return step_line(number, *step_at(run, SERVICE, pauli, number))


def list_steps(run, pauli):
    found, end = steps_of(run, SERVICE, pauli)
    lines = [step_line(number, frame, step) for number, (_, frame, step) in enumerate(found)]
    return "".join(lines) + f"end frame {display(end)}\n"


def pauli_read(text):
    """I, _, X, Y, Z in either case, place is qubit, each Y adds 1 to k. 1: over 256 letters. 2: the first byte that is none."""
    refuse(1, len(text) > 256)
    k = x = z = 0
    for q, byte in enumerate(text):
        name = bytes([byte]).upper()
        if name not in (b"I", b"_", b"X", b"Y", b"Z"):
            raise RefusedAt(2, q)
        x |= (name in (b"X", b"Y")) << q
        z |= (name in (b"Z", b"Y")) << q
        k += name == b"Y"
    return Pauli(len(text), k % 4, x, z)


def number_read(digits):
    """Decimal digits, one or more, any length. None for what is no number, which is in no run."""
    if not digits or not all(48 <= byte <= 57 for byte in digits):
        return None
    # Python reads at most 4,300 digits at once; leading zeros do not count.
    return int(digits.lstrip(b"0")[:4300] or b"0")


def list_report(given):
    """A first line up to the first byte 10, then the run's bytes. In it a Pauli's text up to the first space; behind it a
    step number, or without a space all steps."""
    head, _, run = given.partition(b"\n")
    text, space, digits = head.partition(b" ")
    pauli = pauli_read(text)
    if not space:
        return list_steps(run, pauli)
    number = number_read(digits)
    steps_of(run, SERVICE, pauli)
    refuse(20, number is None)
    return list_step(run, pauli, number)


def texted(made, *given):
    """The text, or the line of the refusal."""
    try:
        return made(*given)
    except (Refused, RefusedAt) as refusal:
        return refused(refusal) + "\n"


# --------------------------------------------------------------------- answers


def told_report(run, caller, pauli, number):
    told = report_of(*step_at(run, caller, pauli, number))
    return "none" if told is None else f"{'changed' if told[0] else 'kept'} {told[1]:#x}"


def told_reports(run, caller, pauli):
    told = []
    while True:
        try:
            told.append(told_report(run, caller, pauli, len(told)))
        except (Refused, RefusedAt) as refusal:
            return ",".join([*told, refused(refusal)])


def told_found(run, caller, pauli, number):
    frame, step = step_at(run, caller, pauli, number)
    return f"found {frame.shown()} {step[0]}"


def told_text(text, size):
    """16, output too short for the text: the buffer is then as it was."""
    short = size < len(text)
    buffer = "." * size if short else text + "." * (size - len(text))
    return f"{'refused 16' if short else f'length {len(text)}'} | {told_listing(buffer)}"


def on_run(name, run, caller, words):
    pauli, rest = Pauli(*words[:4]), words[4:]
    if name == "report":
        return told_report(run, caller, pauli, *rest)
    if name == "reports":
        return told_reports(run, caller, pauli)
    if name == "find":
        return told_found(run, caller, pauli, *rest)
    if name == "line":
        return told_text(texted(list_step, run, pauli, rest[0]), rest[1])
    return told_text(texted(list_steps, run, pauli), rest[0])


# How many numbers follow the run.
COUNTS = {"report": 5, "reports": 4, "emulated-report": 5, "emulated-reports": 4, "find": 5, "line": 6, "lines": 5, "input": 1}
SIZED = ("line", "lines", "input")


def answer(line):
    if line.startswith("#"):
        return line
    call, *words = line.split(" ")
    if COUNTS.get(call) != len(words) - 1:
        return "unread"
    run, words = bytes_of(words[0]), [int(word, 0) for word in words[1:]]
    if len(run) > HELD or (call in SIZED and words[-1] > WIDEST_TEXT):
        return "unread"
    if call == "input":
        return told_text(texted(list_report, run), words[0])
    caller = EMULATOR if call.startswith(EMULATED) else SERVICE
    try:
        return on_run(call.removeprefix(EMULATED), run, caller, words)
    except (Refused, RefusedAt) as refusal:
        return refused(refusal)


# ----------------------------------------------------------------------- lines


def numbers(pauli):
    n, k, x, z = pauli
    return f"{n} {k} {x:#x} {z:#x}"


def report_line(text, pauli, number):
    return f"report {text} {numbers(pauli)} {number}"


def reports_line(text, pauli):
    return f"reports {text} {numbers(pauli)}"


def find_line(text, pauli, number):
    return f"find {text} {numbers(pauli)} {number}"


def line_line(text, pauli, number, size):
    return f"line {text} {numbers(pauli)} {number} {size}"


def lines_line(text, pauli, size):
    return f"lines {text} {numbers(pauli)} {size}"


def input_line(given, size):
    """Bytes, or pieces of them as `spelled` takes them."""
    return f"input {spelled(*([given] if isinstance(given, bytes) else given))} {size}"


def named(text):
    """The Pauli that a text shows: width, k, x, z. Each Y adds 1 to the phase of the prefix."""
    prefix, letters = text.rstrip("IXYZ"), text.lstrip("-i*")
    k = {"": 0, "i*": 1, "-": 2, "-i*": 3}[prefix] + letters.count("Y")
    mask = lambda names: sum((one in names) << q for q, one in enumerate(letters))
    return len(letters), k % 4, mask("XY"), mask("ZY")


def of(text):
    """The same without the width."""
    return named(text)[1:]


def whole(*pieces):
    return spelled(*pieces, END)


def filled(text, size):
    """What is told of a text in a buffer of so many dots that has room for it."""
    shown = (text + "." * (size - len(text))).replace("\n", "/")
    assert len(text) <= size <= 400
    return f"length {len(text)} | {size} {shown}"


# --------------------------------------------------------------- by hand: flags

LETTERS = "IXYZ"


def single_letters(lines):
    lines.say("One qubit: each letter of the frame at a rotation by each letter, then at a projection of each.")
    for a, b in each_of(LETTERS, LETTERS):
        told = "changed 0x1" if a != b and "I" not in (a, b) else "kept 0x0"
        lines.ask(report_line(whole(starting(1), rotating(of(b))), named(a), 0), told)
        if b != "I":
            lines.ask(report_line(whole(starting(1), projecting(of(b))), named(a), 0), told)
    lines.say("Whatever the sign or the branch was, and whatever the phases are.")
    for sign, k, minus in each_of((0, 1), range(4), ("", "-")):
        lines.ask(report_line(whole(starting(1), rotating(of(minus + "Z"), sign)), (1, k, 1, 0), 0), "changed 0x1")
        lines.ask(report_line(whole(starting(1), projecting(of(minus + "X"), 0, sign)), (1, k, 1, 0), 0), "kept 0x0")
    lines.say("Steps without a flag, the frame against them or not: a promotion, a correction, a quarter turn.")
    for step in (promoting(), correcting(of("Z")), correcting(of("i*X")), turning(of("Z")), turning(of("-X"))):
        for frame in ("I", "X"):
            lines.ask(report_line(whole(starting(1), step), named(frame), 0), "none")
            lines.ask(reports_line(whole(starting(1), step), named(frame)), "none,refused 20")


# The frame, the Pauli of a rotation, the mask.
MASKS = [
    ("III", "ZZZ", 0),
    ("XYZ", "III", 0),
    ("XYZ", "XYZ", 0),
    ("XII", "ZII", 1),
    ("IXI", "ZZZ", 2),
    ("IIX", "ZIZ", 4),
    ("XXI", "ZZI", 3),
    ("XIY", "YIX", 5),
    ("IZY", "XXX", 6),
    ("XXX", "ZZZ", 7),
    ("XYZ", "YZX", 7),
    ("XYZ", "ZXY", 7),
    ("XYZ", "YYX", 5),
    ("YYY", "XZY", 3),
    ("ZIX", "XYZ", 5),
    ("-i*ZZZ", "-XIY", 5),
    ("XXXX", "YZYZ", 15),
]


def masks(lines):
    lines.say("Masks of no, one, two, three and four ones: by hand. The flag is changed where they are odd.")
    for frame, other, mask in MASKS:
        told = f"{'changed' if parity(mask) else 'kept'} {mask:#x}"
        n, k, x, z = named(other)
        run = whole(starting(n), rotating((k, x, z)))
        lines.ask(report_line(run, named(frame), 0), told)
        lines.ask(reports_line(run, named(frame)), f"{told},refused 20")
        if x | z:
            pivot = max(q for q in range(n) if (x or z) >> q & 1)
            lines.ask(report_line(whole(starting(n), projecting((k, x, z), pivot, 1)), named(frame), 0), told)
        lines.ask(report_line(whole(starting(n), turning((k, x, z))), named(frame), 0), "none")
    lines.say("Twelve qubits: the top one alone, all, all but the top one, every other.")
    top = 1 << 11
    for frame, other, told in (
        ((0, top, 0), (0, 0, top), "changed 0x800"),
        ((0, 0, top), (1, top, top), "changed 0x800"),
        ((0, 0xFFF, 0), (0, 0, 0xFFF), "kept 0xfff"),
        ((0, 0xFFF, 0), (0, 0, 0x7FF), "changed 0x7ff"),
        ((2, 0xFFF, 0), (0, 0, 0xAAA), "kept 0xaaa"),
        ((1, 0xFFF, 0xFFF), (0, 0x555, 0), "kept 0x555"),
        ((3, 0, 0), (0, 0, 0xFFF), "kept 0x0"),
    ):
        lines.ask(report_line(whole(starting(12), rotating(other)), (12, *frame), 0), told)
        pivot = (other[1] or other[2]).bit_length() - 1
        lines.ask(report_line(whole(starting(12), projecting(other, pivot)), (12, *frame), 0), told)
    lines.say("No qubits: a rotation by 1 and by -1, and the phases as frames.")
    for k, frame in each_of((0, 2), range(4)):
        lines.ask(reports_line(whole(starting(0), rotating((k, 0, 0)), correcting((frame, 0, 0))), (0, frame, 0, 0)), "kept 0x0,none,refused 20")


def at_numbers(lines):
    lines.say("No step: start and end alone.")
    for n, number in each_of((0, 1, 12), (0, 1, 2**63, MOST)):
        lines.ask(report_line(whole(starting(n)), (n, *I), number), "refused 20")
    lines.ask(reports_line(whole(starting(0)), (0, *I)), "refused 20")
    lines.ask(find_line(whole(starting(2)), (2, *X), 0), "refused 20")
    lines.say("A run of all kinds of steps, on two, three, two, then one qubit: each step, one over, and far over.")
    run, frame = spelled(*EVERY_KIND), named("IX")
    told = "changed 0x2", "none", "none", "changed 0x4", "none", "changed 0x2"
    lines.ask(reports_line(run, frame), ",".join([*told, "refused 20"]))
    lines.ask(on_emulator(reports_line(run, frame)), ",".join([*told, "refused 20"]))
    for number, one in enumerate(told):
        lines.ask(report_line(run, frame, number), one)
        lines.ask(on_emulator(report_line(run, frame, number)), one)
    for number in (6, 7, 255, 256, 65535, 65536, 2**32, 2**32 + 1, 2**63 - 1, 2**63, 2**63 + 3, MOST - 1, MOST):
        lines.ask(report_line(run, frame, number), "refused 20")
        lines.ask(on_emulator(report_line(run, frame, number)), "refused 20")
        lines.ask(find_line(run, frame, number), "refused 20")
        lines.ask(line_line(run, frame, number, 12), "length 11 | 12 refused 20/.")
    lines.say("From no qubits and back.")
    lines.ask(reports_line(spelled(*FROM_NONE), (0, 3, 0, 0)), "none,kept 0x0,none,none,refused 20")


# -------------------------------------------------------------- by hand: frames

# The steps, and the frame before each and at the end, as it shows; on no qubits its prefix alone.
FRAMES = [
    # A promotion: one identity more, above.
    ([promoting()], ["X", "XI"]),
    ([promoting()], ["-", "-I"]),
    ([promoting(), promoting()], ["-i*ZY", "-i*ZYI", "-i*ZYII"]),
    # Rotations leave the frame.
    ([rotating(Z), rotating(Y, 1), rotating(X)], ["X"] * 4),
    # Corrections: the sign, where they anticommute.
    ([correcting(Z)], ["X", "-X"]),
    ([correcting(Z), correcting(Y), correcting(X)], ["X", "-X", "X", "X"]),
    ([correcting(of("i*X")), correcting(I)], ["i*Y", "-i*Y", "-i*Y"]),
    ([correcting(of("ZZ")), correcting(of("ZI"))], ["-i*XX", "-i*XX", "i*XX"]),
    # A quarter turn of Z: X to Y, Y to -X. Of X: Y to Z, Z to -Y. Of Y: Z to X, X to -Z.
    ([turning(Z)] * 4, ["X", "Y", "-X", "-Y", "X"]),
    ([turning(X)] * 4, ["Y", "Z", "-Y", "-Z", "Y"]),
    ([turning(Y)] * 4, ["Z", "X", "-Z", "-X", "Z"]),
    ([turning(of("-Z"))], ["X", "-Y"]),
    ([turning(Z), turning(X), turning(X)], ["i*Z", "i*Z", "-i*Y", "-i*Z"]),
    # Of XX: ZI to -YX, and that to -ZI. ZZ stays.
    ([turning(of("XX"))] * 2, ["ZI", "-YX", "-ZI"]),
    ([turning(of("XX"))], ["ZZ", "ZZ"]),
    # Onto a new qubit: Z·X is iY, times -i.
    ([promoting(), turning(of("ZX"))], ["X", "XI", "YX"]),
    # A projection whose pivot is not met: its letter goes, those above move down.
    ([projecting(of("XII"), 0)], ["ZXY", "XY"]),
    ([projecting(of("IXI"), 1, 1)], ["YIX", "YX"]),
    ([projecting(of("ZII"), 0)], ["XZY", "ZY"]),
    ([projecting(of("IIZ"), 2, 1)], ["-i*ZYX", "-i*ZY"]),
    ([projecting(X)], ["Z", ""]),
    ([projecting(X, 0, 1)], ["Z", ""]),
    ([projecting(Z)], ["i*X", "i*"]),
    # Met: Q·M, its phase raised by 2 where the new branch is 1. X·X, Y·Y and Z·Z are 1.
    ([projecting(X)], ["X", ""]),
    ([projecting(X, 0, 1)], ["X", "-"]),
    ([projecting(Y)], ["Y", ""]),
    ([projecting(Y, 0, 1)], ["Y", "-"]),
    ([projecting(Z)], ["Z", ""]),
    ([projecting(Z, 0, 1)], ["-Z", ""]),
    # Met, and the branch flips. Y·X is -iZ, Y·Z is iX, X·Y is iZ.
    ([projecting(X)], ["Y", "i*"]),
    ([projecting(X, 0, 1)], ["Y", "-i*"]),
    ([projecting(Z)], ["Y", "-i*"]),
    ([projecting(Z, 0, 1)], ["Y", "i*"]),
    ([projecting(Y)], ["X", "-i*"]),
    ([projecting(of("IIZI"), 2)], ["IXYZ", "-i*IXZ"]),
    ([projecting(of("IIX"), 2)], ["ZXY", "i*ZX"]),
    # Letters beside the pivot. XZ·XX is iY there; YIZ·ZZZ is i times X and Z; ZX·(-ZI) is -X.
    ([projecting(of("XX"), 0)], ["XZ", "-i*Y"]),
    ([projecting(of("XX"), 0, 1)], ["XZ", "i*Y"]),
    ([projecting(of("ZZZ"), 2, 1)], ["YIZ", "i*XZ"]),
    ([projecting(of("-ZI"), 0)], ["ZX", "-X"]),
    # M has an X part elsewhere, so the pivot's is asked for, and the Z there is not: Z stays unmet.
    ([projecting(of("YX"), 0)], ["ZI", "I"]),
    ([projecting(of("YX"), 1)], ["ZI", "Z"]),
    # One after the other: out of three qubits, and back to two.
    (
        [promoting(), turning(of("IZX")), correcting(of("ZII")), projecting(of("XIX"), 2), projecting(of("ZI"), 0, 1), promoting()],
        ["YX", "YXI", "YYX", "-YYX", "-i*ZY", "i*Y", "i*YI"],
    ),
]

KINDS = {2: "rotation", 3: "promotion", 4: "projection", 5: "correction", 7: "quarter-turn"}


def frames(lines):
    lines.say("The frame before each step, by hand; the end's stands in the text of all lines.")
    for steps, shown in FRAMES:
        start = named(shown[0])
        run = whole(starting(start[0]), *steps)
        for number, (step, frame) in enumerate(zip(steps, shown)):
            lines.ask(find_line(run, start, number), f"found {numbers(named(frame))} {KINDS[step[0]]}")
        lines.ask(find_line(run, start, len(steps)), "refused 20")
        line = lines_line(run, start, 400)
        end = shown[-1] + "I" * (not named(shown[-1])[0])
        assert f"/end frame {end}/." in answer(line), (line, answer(line))
        lines.ask(line)
    lines.say("Every phase, past every kind of step.")
    for k in range(4):
        n, start_k, x, z = named("IX")
        start = n, (start_k + k) % 4, x, z
        for number, (frame, step) in enumerate(zip(("IX", "IX", "IXI", "XYY", "-i*IY", "i*IY"), EVERY_KIND[1:])):
            width, frame_k, x, z = named(frame)
            told = f"found {width} {(frame_k + k) % 4} {x:#x} {z:#x} {KINDS[step[0]]}"
            lines.ask(find_line(spelled(*EVERY_KIND), start, number), told)
    lines.say("Twelve qubits: promoted to, and the top one turned to and lost.")
    top = 1 << 11
    run = whole(starting(11), promoting(), turning((0, top, 1)), rotating((0, 0, top)), projecting((0, 0, top), 11, 1), rotating())
    # X on qubit 0 becomes Y there and X on the top one; against a Z there it flips the sign, then the branch.
    told = ["11 0 0x1 0x0", "12 0 0x1 0x0", "12 1 0x801 0x1", "12 1 0x801 0x1", "11 1 0x1 0x1"]
    for number, (frame, kind) in enumerate(zip(told, (3, 7, 2, 4, 2))):
        lines.ask(find_line(run, (11, *X), number), f"found {frame} {KINDS[kind]}")
    lines.ask(reports_line(run, (11, *X)), "none,none,changed 0x800,changed 0x800,changed 0x1,refused 20")


# ---------------------------------------------------------------- by hand: rows

NONE = [(2, 4, 0, 0), (2, 255, 0, 0), (2, 0, 4, 0), (2, 0, 0, 4), (2, 0, 1 << 63, 0), (257, *I), (MOST, *I), (3, 4, 0, 0), (1, 0, 2, 0), (0, 0, 1, 0)]
OTHERS = [(0, *I), (1, *X), (3, *X), (3, 0, 7, 7), (12, *I), (63, *X), (64, 0, MOST, MOST), (65, 0, MOST, 1), (256, *X)]


def rows(lines):
    lines.say("A refused run: its row and its place, before 3 and 4 of the Pauli and before 20.")
    for place, (run, told) in enumerate(REFUSED_RUNS):
        text = spelled(*run)
        for pauli, number in (((2, *X), 0), ((2, 4, 0, 0), 0), ((257, *I), MOST), ((1, *I), 9)):
            lines.ask(report_line(text, pauli, number), f"refused {told}")
        pauli = ((2, *X), (2, 4, 0, 0), (12, *I))[place % 3]
        lines.ask(find_line(text, pauli, place % 2), f"refused {told}")
        lines.ask(reports_line(text, pauli), f"refused {told}")
        size = len(told) + 9
        lines.ask(line_line(text, pauli, place % 2, size), filled(f"refused {told}\n", size))
        lines.ask(lines_line(text, pauli, size + 1), filled(f"refused {told}\n", size + 1))
    lines.say("A step that is refused is not reached by its number: the whole run is looked at first.")
    late = whole(starting(1), rotating(Z), rotating(Z), correcting((4, 0, 0)))
    for number in (0, 1, 2, 3):
        lines.ask(report_line(late, (1, *X), number), "refused 3 at 78")
        lines.ask(find_line(late, (1, *X), number), "refused 3 at 78")
    lines.say("No Pauli, 3; not on the start qubits, 4; each before 20.")
    good = whole(starting(2), rotating((0, 0, 1)))
    for row, paulis in ((3, NONE), (4, OTHERS)):
        for pauli in paulis:
            for number in (0, 1, MOST):
                lines.ask(report_line(good, pauli, number), f"refused {row}")
            lines.ask(on_emulator(report_line(good, pauli, 1)), f"refused {row}")
            lines.ask(find_line(good, pauli, 0), f"refused {row}")
            lines.ask(line_line(good, pauli, 1, 10), f"length 10 | 10 refused {row}/")
            lines.ask(lines_line(good, pauli, 10), f"length 10 | 10 refused {row}/")
            lines.ask(reports_line(good, pauli), f"refused {row}")
    lines.say("The start's qubits count, not those of the step: a run that ends on one more, and on one less.")
    for run, wrong in ((whole(starting(2), promoting(), rotating()), 3), (whole(starting(2), projecting(), rotating()), 1)):
        lines.ask(report_line(run, (wrong, *X), 1), "refused 4")
        lines.ask(find_line(run, (wrong, *X), 1), "refused 4")


def emulated(lines):
    lines.say("The emulator: 21 in the place of a start over 6 and of a promotion at 6, before 3, 4 and 20.")
    step, told = rotating(Z), "changed 0x1"
    for n in (5, 6, 7, 12, 13, 255):
        run = whole(starting(n), step)
        for pauli, number in (((n, *X), 0), ((n, 4, 0, 0), 0), ((2, *X), 0), ((n, *X), 1)):
            if n > 6:
                lines.ask(on_emulator(report_line(run, pauli, number)), "refused 21 at 0")
        lines.ask(on_emulator(reports_line(run, (n, *X))), f"{told},refused 20" if n <= 6 else "refused 21 at 0")
        lines.ask(reports_line(run, (n, *X)), f"{told},refused 20" if n <= 12 else "refused 14 at 0")
    six = whole(starting(6), step, promoting(), rotating((0, 64, 0)))
    lines.ask(reports_line(six, (6, *X)), f"{told},none,kept 0x0,refused 20")
    for pauli, number in (((6, *X), 0), ((6, *X), 1), ((6, *X), 9), ((7, *X), 0), ((6, 4, 0, 0), 0)):
        lines.ask(on_emulator(report_line(six, pauli, number)), "refused 21 at 41")
    five = whole(starting(5), promoting(), rotating((0, 0, 33)))
    for line in (reports_line(five, (5, *X)), on_emulator(reports_line(five, (5, *X)))):
        lines.ask(line, f"none,{told},refused 20")
    lines.say("8 of a promotion at 6 is before 21; 15 is the service's, 21 the emulator's.")
    lines.ask(on_emulator(report_line(whole(starting(6), promoting(NAN)), (6, *X), 0)), "refused 8 at 4")
    over = whole(starting(0), (13, promoting()))
    lines.ask(report_line(over, (0, *I), 0), "refused 15 at 232")
    lines.ask(on_emulator(report_line(over, (0, *I), 0)), "refused 21 at 118")
    lines.say("Other rows alike, on both.")
    for run, told in REFUSED_RUNS:
        if not run or run[0][0] != 1 or run[0][3] <= 2:
            lines.ask(on_emulator(report_line(spelled(*run), (2, *X), 0)), f"refused {told}")


# --------------------------------------------------------------- by hand: texts

EVERY_LINE = [
    "step 0 rotation YZ frame IX changed qubits 1\n",
    "step 1 promotion frame IX no flag\n",
    "step 2 quarter-turn XZY frame IXI no flag\n",
    "step 3 projection XIX frame XYY changed qubits 2\n",
    "step 4 correction -i*ZX frame -i*IY no flag\n",
    "step 5 projection -ZZ frame i*IY changed qubits 1\n",
    "end frame i*Y\n",
]


def texts(lines):
    lines.say("Texts of a run of all kinds of steps: too short by one, just long enough, longer, and nothing.")
    run, frame = spelled(*EVERY_KIND), named("IX")
    for number, text in enumerate(EVERY_LINE[:-1]):
        size = len(text)
        lines.ask(line_line(run, frame, number, size - 1), f"refused 16 | {size - 1} " + "." * (size - 1))
        for room in (size, size + 1, size + 30):
            lines.ask(line_line(run, frame, number, room), filled(text, room))
        lines.ask(line_line(run, frame, number, 0), "refused 16 | 0 ")
    text = "".join(EVERY_LINE)
    size = len(text)
    lines.ask(lines_line(run, frame, size - 1), f"refused 16 | {size - 1} " + "." * (size - 1))
    for room in (size, size + 1, 400):
        lines.ask(lines_line(run, frame, room), filled(text, room))
    for room in (0, 1, len(EVERY_LINE[0]), size - len(EVERY_LINE[-1])):
        lines.ask(lines_line(run, frame, room), f"refused 16 | {room} " + "." * room)
    lines.say("Longer buffers, of which a digest is told.")
    for room in (401, 1000, WIDEST_TEXT):
        lines.ask(lines_line(run, frame, room))
        lines.ask(line_line(run, frame, 3, room))
    lines.say("A refusal: too short by one, just long enough, longer, and nothing.")
    for line in (lambda room: line_line(run, frame, 6, room), lambda room: line_line(run, frame, MOST, room)):
        lines.ask(line(10), "refused 16 | 10 " + "." * 10)
        lines.ask(line(11), "length 11 | 11 refused 20/")
        lines.ask(line(14), "length 11 | 14 refused 20/...")
        lines.ask(line(0), "refused 16 | 0 ")
    lines.ask(lines_line(run, (2, 4, 0, 0), 9), "refused 16 | 9 " + "." * 9)
    lines.ask(lines_line(run, (2, 4, 0, 0), 10), "length 10 | 10 refused 3/")
    cut = spelled(*EVERY_KIND[:-1])
    for line in (lambda room: line_line(cut, frame, 0, room), lambda room: lines_line(cut, frame, room)):
        lines.ask(line(17), "refused 16 | 17 " + "." * 17)
        lines.ask(line(18), "length 18 | 18 refused 14 at 160/")
        lines.ask(line(20), "length 18 | 20 refused 14 at 160/..")
    lines.say("Kept with no qubit and with two, changed with one and with three; every prefix; no qubits.")
    for steps, start, text in (
        ([rotating(of("ZZ"))], "ZZ", "step 0 rotation ZZ frame ZZ kept\nend frame ZZ\n"),
        ([rotating(of("ZZ"))], "XX", "step 0 rotation ZZ frame XX kept qubits 0 1\nend frame XX\n"),
        ([rotating(of("-XYZ"))], "i*ZIX", "step 0 rotation -XYZ frame i*ZIX kept qubits 0 2\nend frame i*ZIX\n"),
        ([rotating(of("-XYZ"))], "i*ZIZ", "step 0 rotation -XYZ frame i*ZIZ changed qubits 0\nend frame i*ZIZ\n"),
        ([rotating(of("YZX"))], "-XYZ", "step 0 rotation YZX frame -XYZ changed qubits 0 1 2\nend frame -XYZ\n"),
        ([projecting(of("ZZI"))], "IIX", "step 0 projection ZZI frame IIX kept\nend frame IX\n"),
        ([promoting()], "IIX", "step 0 promotion frame IIX no flag\nend frame IIXI\n"),
        ([correcting(of("-i*Z"))], "-i*X", "step 0 correction -i*Z frame -i*X no flag\nend frame i*X\n"),
        ([correcting(of("i*Y"))], "-Y", "step 0 correction i*Y frame -Y no flag\nend frame -Y\n"),
        ([rotating((2, 0, 0)), correcting((3, 0, 0))], "i*", "step 0 rotation -I frame i*I kept\nstep 1 correction -i*I frame i*I no flag\nend frame i*I\n"),
        ([], "", "end frame I\n"),
        ([], "-", "end frame -I\n"),
        ([], "I", "end frame I\n"),
        ([], "-i*XY", "end frame -i*XY\n"),
    ):
        n = named(start)[0]
        lines.ask(lines_line(whole(starting(n), *steps), named(start), len(text) + 2), filled(text, len(text) + 2))
    lines.say("Twelve qubits, all of them changed but one; numbers of two digits.")
    x = "X" * 12
    qubits = " ".join(map(str, range(11)))
    text = f"step 10 rotation -{'Z' * 11}I frame -i*{x} changed qubits {qubits}\n"
    run = whole(starting(12), (10, correcting(I)), rotating(of("-" + "Z" * 11 + "I")))
    lines.ask(line_line(run, named("-i*" + x), 10, len(text)), filled(text, len(text)))
    lines.ask(line_line(run, named("-i*" + x), 10, len(text) - 1))
    lines.ask(lines_line(run, named("-i*" + x), 2000))


# -------------------------------------------------------------- by hand: inputs


def inputs(lines):
    run = b"".join([starting(1), rotating(Z), END])
    every, first = "step 0 rotation Z frame X changed qubits 0\nend frame X\n", "step 0 rotation Z frame X changed qubits 0\n"

    def ask(given, text, size=72):
        lines.ask(input_line(given, size), filled(text, size))

    lines.say("What `report` prints: a Pauli alone, all steps; a Pauli and a number, that step.")
    ask(b"X\n" + run, every)
    ask(b"X 0\n" + run, first)
    ask(b"X 1\n" + run, "refused 20\n")
    for size in (0, len(every) - 1):
        lines.ask(input_line(b"X\n" + run, size), f"refused 16 | {size} " + "." * size)
    ask(b"X\n" + run, every, len(every))
    lines.ask(input_line(b"X 0\n" + run, len(first) - 1), f"refused 16 | {len(first) - 1} " + "." * (len(first) - 1))
    ask(b"X 0\n" + run, first, len(first))
    lines.say("Letters in either case, and _.")
    five = b"".join([starting(5), rotating(of("ZZZZZ")), END])
    for text in (b"xyzi_", b"XYZ_I", b"XyZ__", b"xYz_i"):
        ask(text + b"\n" + five, "step 0 rotation ZZZZZ frame XYZII kept qubits 0 1\nend frame XYZII\n")
    lines.say("No input, no newline, an empty first line: the Pauli on no qubits, and a run of no bytes or the one behind.")
    for given in (b"", b"\n", b"X", b"X 0", b"X\n", b"X 0\n", b" ", b" 0", b" 0\n", b"X 7"):
        ask(given, "refused 14 at 0\n")
    none = b"".join([starting(0), rotating(I), END])
    ask(b"\n" + none, "step 0 rotation I frame I kept\nend frame I\n")
    ask(b" 0\n" + none, "step 0 rotation I frame I kept\n")
    ask(b" 1\n" + none, "refused 20\n")
    ask(b" \n" + none, "refused 20\n")
    ask(b"\n" + starting(0) + END, "end frame I\n")
    ask(b"\n" + run, "refused 4\n")
    ask(b"\n\n" + none, "refused 14 at 0\n")
    ask(b"X\n\n" + run, "refused 14 at 0\n")
    ask(none, "refused 2 at 0\n")
    lines.say("A run whose bytes have newlines and spaces: only the first newline counts.")
    odd = b"".join([starting(6), rotating((0, 10, 32)), correcting((2, 32, 10)), END])
    assert odd.count(b"\n") > 1 and b" " in odd
    ask(b"ZZIIIX 0\n" + odd, "step 0 rotation IXIXIZ frame ZZIIIX kept qubits 1 5\n")
    ask(b"ZZIIIX 1\n" + odd, "step 1 correction -IZIZIX frame ZZIIIX no flag\n")
    lines.say("A byte that is no letter: 2 with its index, before the run's own, 4 and 20; the first of them.")
    for head, at in (
        (b"Q", 0), (b"XQ", 1), (b"X-", 1), (b"-X", 0), (b"+X", 0), (b"i*X", 1), (b"X\r", 1), (b"X\t0", 1), (b"XQ 0", 1), (b"X\0", 1),
        (b"\xff", 0), (b"W", 0), (b"[", 0), (b"@", 0), (b"H", 0), (b"J", 0), (b"\x7f", 0), (b"`", 0), (b"0", 0), (b"XX,XX", 2), (b"XQQ", 1), (b"IIQ 9", 2),
    ):
        ask(head + b"\n" + run, f"refused 2 at {at}\n")
    for given in (b"XQ", b"XQ\n", b"XQ 0\n" + run[:-1], b"XQ zz\n" + starting(13) + END):
        ask(given, "refused 2 at 1\n")
    lines.say("256 letters are 4 on any run, 257 are 1, whatever they are, and before the run's own.")
    for size in (2, 12, 13, 62, 63, 64, 65, 128, 255, 256):
        for letters in ((size, b"Y"), (size, b"_")):
            ask([letters, b"\n" + run], "refused 4\n")
        ask([(size, b"x"), b" 0\n" + run], "refused 4\n")
        ask([(size - 1, b"z"), b"q 0\n" + run], f"refused 2 at {size - 1}\n")
    for size in (257, 258, 1000, 65000):
        for letters in (b"X", b"?"):
            ask([(size, letters), b"\n" + run], "refused 1\n")
        ask([(size, b"i"), b" 0\n"], "refused 1\n")
    ask([(256, b"X"), b"\n" + run[:-1]], "refused 14 at 41\n")
    ask([(256, b"X")], "refused 14 at 0\n")
    ask([(256, b"X"), b" " + b"9" * 300 + b"\n" + run], "refused 4\n")
    ask([(256, b"X"), b"Q\n" + run], "refused 1\n")
    lines.say("No number: 20, where the run and the Pauli are taken.")
    words = [b"", b" ", b"a", b"0a", b"a0", b" 0", b"0 ", b"0 0", b"-1", b"-0", b"+0", b"0x0", b"0.", b"0,", b"0\r", b"\t0"]
    words += [b"\0", b"0\0", b"/", b":", b"\xb0", b"I"]
    for word in words:
        ask(b"X " + word + b"\n" + run, "refused 20\n")
    for word in words[:4]:
        ask(b"XX " + word + b"\n" + run, "refused 4\n")
        ask(b"X " + word + b"\n" + run[:-1], "refused 14 at 41\n")
    lines.say("Leading zeros, and numbers of any length; those whose lower bits are a step's.")
    twelve = [starting(1), (12, rotating(Z)), END]
    for word, number in ((b"0", 0), (b"00", 0), (b"000000", 0), (b"0" * 300, 0), (b"007", 7), (b"11", 11), (b"0" * 30 + b"10", 10)):
        ask([b"X " + word + b"\n", *twelve], f"step {number} rotation Z frame X changed qubits 0\n")
    far = [12, 13, 99, 100, 256, 257, 65535, 65536, 65537, 2**31, 2**32, 2**32 + 1, 2**63 - 1, 2**63, 2**63 + 1, 2**64 - 1, 2**64]
    far += [2**64 + 1, 2**65, 2**65 + 3, 2**128, 2**128 + 1, 10**19, 10**20, 10**22 - 1, 99999999999999999999999, 10**299]
    for number in far:
        ask([b"X " + str(number).encode() + b"\n", *twelve], "refused 20\n")
        if number > 2**60:
            ask([b"X 000" + str(number).encode() + b"\n", *twelve], "refused 20\n")
    lines.say("Rows of the run behind the first line, at the run's own places.")
    for fields, told in REFUSED_RUNS:
        for head in (b"XX\n", b"XX 0\n", b"Y 9\n"):
            ask([head, *fields], f"refused {told}\n", 20)


# --------------------------------------------------------------- the longest run


def longest(lines):
    lines.say("65,536 bytes with the most steps, 3,277: 11 promotions and 3,266 corrections. The last, one over, far over.")
    run = whole(starting(1), (11, promoting()), (3266, correcting(of("Z" + "I" * 11))))
    assert length(run) == LONGEST
    for number, told in ((0, "none"), (11, "none"), (3276, "none"), (3277, "refused 20"), (65536, "refused 20"), (MOST, "refused 20")):
        lines.ask(report_line(run, (1, *X), number), told)
    # The sign changed 3,265 times before the last.
    lines.ask(find_line(run, (1, *X), 3276), "found 12 2 0x1 0x0 correction")
    lines.ask(find_line(run, (1, *X), 3275), "found 12 0 0x1 0x0 correction")
    text = "step 3276 correction ZIIIIIIIIIII frame -XIIIIIIIIIII no flag\n"
    lines.ask(line_line(run, (1, *X), 3276, 70), filled(text, 70))
    lines.ask(lines_line(run, (1, *X), WIDEST_TEXT))
    lines.ask(lines_line(run, (1, *X), 200000))
    lines.say("Promotions and projections in turn, 2,674 steps: of Z on the new qubit; of what a quarter turn brings there.")
    turns = [promoting(), projecting((0, 0, 2), 1, 1)]
    run = whole(starting(1), (1337, b"".join(turns)))
    assert length(run) == LONGEST - 16
    for number, told in ((0, "none"), (1, "kept 0x0"), (2672, "none"), (2673, "kept 0x0"), (2674, "refused 20"), (2675, "refused 20")):
        lines.ask(report_line(run, (1, *Y), number), told)
    lines.ask(find_line(run, (1, *Y), 2673), "found 2 1 0x1 0x1 projection")
    turns = [promoting(), turning((0, 2, 1)), projecting((0, 0, 2), 1, 1)]
    run = whole(starting(1), (949, b"".join(turns)))
    assert length(run) == 949 * 69 + 7
    # X becomes YX, which flips the branch to 0, and Y is left; Y becomes -XX, and -X is left; and so on, round in four.
    for number, told in ((2, "changed 0x2"), (2843, "changed 0x2"), (2844, "none"), (2845, "none"), (2846, "changed 0x2"), (2847, "refused 20")):
        lines.ask(report_line(run, (1, *X), number), told)
    for number, frame, kind in ((3, "Y", 3), (5, "-XX", 4), (6, "-X", 3), (9, "-Y", 3), (12, "X", 3), (2844, "X", 3), (2846, "YX", 4)):
        lines.ask(find_line(run, (1, *X), number), f"found {numbers(named(frame))} {KINDS[kind]}")
    lines.say("Rotations, 1,771 steps, each flipped, on the service and on the emulator; 65,537 and 66,000 bytes: 14 at 0.")
    run = whole(starting(1), (1771, rotating(Z)))
    assert length(run) == 1771 * 37 + 7
    for number, told in ((1770, "changed 0x1"), (1771, "refused 20")):
        lines.ask(report_line(run, (1, *X), number), told)
        lines.ask(on_emulator(report_line(run, (1, *X), number)), told)
    lines.ask(lines_line(run, (1, *X), WIDEST_TEXT))
    over = whole(starting(1), (10, rotating(Z)), (3258, correcting()))
    assert length(over) == LONGEST + 1
    for text in (over, spelled(starting(1), END, (HELD - 7, bytes(1)))):
        for number in (0, MOST):
            lines.ask(report_line(text, (1, *X), number), "refused 14 at 0")
        lines.ask(find_line(text, (257, *X), 0), "refused 14 at 0")
        lines.ask(lines_line(text, (1, *X), 16), "length 16 | 16 refused 14 at 0/")
    lines.say("Behind a first line: 65,536 bytes, and one more.")
    fits = [starting(1), (17, rotating(Z)), (3245, correcting()), END]
    assert length(spelled(*fits)) == LONGEST
    lines.ask(input_line([b"X 16\n", *fits], 60), filled("step 16 rotation Z frame X changed qubits 0\n", 60))
    lines.ask(input_line([b"X 3261\n", *fits], 60), filled("step 3261 correction X frame X no flag\n", 60))
    lines.ask(input_line([b"X 3262\n", *fits], 60), filled("refused 20\n", 60))
    lines.ask(input_line([b"X\n", *fits], WIDEST_TEXT))
    lines.ask(input_line([b"X 0\n", *fits[:-1], correcting()[:1], END], 60), filled("refused 14 at 0\n", 60))


def not_read(lines):
    lines.say("Not read: another count of numbers, a longer run, a longer buffer, no call.")
    run = whole(starting(1))
    for line in (
        f"report {run}", f"report {run} 1 0 0x1 0x0", f"report {run} 1 0 0x1 0x0 0 0", f"reports {run} 1 0 0x1", f"reports {run} 1 0 0x1 0x0 0",
        f"find {run} 1 0 0x1 0x0", f"line {run} 1 0 0x1 0x0 0", f"lines {run} 1 0 0x1 0x0", f"input {run}", f"input {run} 1 1",
        f"emulated-find {run} 1 0 0x1 0x0 0", f"emulated-line {run} 1 0 0x1 0x0 0 9", f"emulated-lines {run} 1 0 0x1 0x0 9", f"emulated-input {run} 9",
        f"repor {run} 1 0 0x1 0x0 0", f"check {run}", "report", "lines",
        lines_line(run, (1, *X), WIDEST_TEXT + 1), line_line(run, (1, *X), 0, MOST), input_line(b"", 2**63),
        report_line(spelled(starting(1), END, (HELD - 6, bytes(1))), (1, *X), 0),
    ):
        lines.ask(line, "unread")


# ---------------------------------------------------------------------- at random


def counted(counts, run, pauli):
    """The flags of a run that are kept and changed, by the ones of their masks, and the steps that move the frame."""
    found, end = steps_of(run, SERVICE, pauli)
    frames_of = [frame for _, frame, _ in found] + [end]
    for (_, frame, step), behind in zip(found, frames_of[1:]):
        told = report_of(frame, step)
        counts[step[0], "none" if told is None else told[0]] += 1
        counts["moves" if frame.shown() != behind.shown() else "stays"] += 1
        if told:
            counts["changed" if told[0] else "kept"] += 1
            counts["ones", min(bin(told[1]).count("1"), 4)] += 1


def at_random(lines):
    rng, counts = random.Random(7), Counter()
    lines.say("Random runs from 0 to 6 qubits.")
    for place in range(780):
        n = rng.choice([0, 1, 1, 2, 2, 3, 3, 4, 5, 6])
        run = random_run(rng, n, rng.choice([1, 2, 3, 3, 4, 5]), 6)
        pauli = n, *random_phased(rng, n)
        counted(counts, b"".join(run), Pauli(*pauli))
        text = spelled(*run)
        if place % 5 == 0:
            lines.ask(reports_line(text, pauli))
        elif place % 5 == 1:
            lines.ask(on_emulator(reports_line(text, pauli)))
        elif place % 5 == 2:
            lines.ask(find_line(text, pauli, rng.randrange(len(run) - 1)))
        else:
            lines.ask(lines_line(text, pauli, 400))
    shares = counts["changed"] / (counts["changed"] + counts["kept"]), counts["moves"] / (counts["moves"] + counts["stays"])
    assert all(0.35 < share < 0.65 for share in shares), shares
    assert all(counts[kind, flag] > 100 for kind in ("rotation", "projection") for flag in (False, True)), counts
    assert all(counts[kind, "none"] > 100 for kind in ("promotion", "correction", "quarter-turn")), counts
    assert all(counts["ones", ones] > 10 for ones in range(5)), counts
    lines.say("Twelve qubits and eleven.")
    for place in range(60):
        n = rng.choice([10, 11, 12])
        run = random_run(rng, n, rng.randrange(1, 4), 12)
        pauli = n, *random_phased(rng, n)
        lines.ask(lines_line(spelled(*run), pauli, 400) if place % 2 else reports_line(spelled(*run), pauli))
    lines.say("Any call, damaged runs among them.")
    for _ in range(200):
        lines.ask(random_line(rng))


def random_number(rng, run):
    """Of a step, or one over, or far over."""
    try:
        count = len(walk(run, SERVICE)[1])
    except RefusedAt:
        count = rng.randrange(4)
    inside = rng.randrange(max(count, 1))
    return rng.choice([inside] * 6 + [max(count, 1) - 1, count, rng.choice([count + 1, 2**63, MOST])])


def random_head(rng, run, n):
    """A first line without its newline."""
    letters = bytes(rng.choice(b"IXYZixyz_") for _ in range(n))
    if rng.randrange(6) == 0:
        letters = rng.choice([letters + b"X", letters[:-1], letters * 30, letters[:1] * rng.choice([255, 256, 257])])
    if rng.randrange(8) == 0:
        at = rng.randrange(len(letters) + 1)
        letters = letters[:at] + bytes([rng.choice([*b"Q-+*0\r\t", rng.randrange(256)])]) + letters[at + rng.randrange(2) :]
    if rng.randrange(3) == 0:
        return letters
    number = str(random_number(rng, run)).encode()
    kind = rng.randrange(8)
    if kind == 0:
        number = rng.choice([b"", b" " + number, number + b" ", number + b"\r", number + b"x", b"-" + number, b"0x" + number])
    elif kind == 1:
        number = rng.choice([b"0", b"00000", b"0" * 25]) + number
    elif kind == 2:
        number = str(int(number) + rng.choice([2**64, 2**65, 2**32, 10**30])).encode()
    return letters + b" " + number


def random_input(rng):
    n = rng.choice([0, 1, 1, 2, 2, 3, 4, 6, 12])
    _, run = rng.choice([random_accepted, random_text])(rng, n, max(n, rng.choice([2, 4, 6, 12])))
    return random_head(rng, run, n) + b"\n" * (rng.randrange(12) > 0) + run


def random_size(rng, text):
    """Around the text's length, or any."""
    size = len(text)
    return max(0, rng.choice([size, size, size + 1, size + 7, size - 1, size - 1, 400, 0, rng.randrange(450)]))


def random_accepted(rng, n, widest):
    run = random_run(rng, n, rng.randrange(1, 8), widest)
    return spelled(*run), b"".join(run)


def random_line(rng):
    shares = {"report": 6, "reports": 8, "emulated-report": 4, "emulated-reports": 4, "find": 5, "line": 7, "lines": 8, "input": 14}
    call = rng.choices(list(shares), list(shares.values()))[0]
    if call == "input":
        given = random_input(rng)
        return input_line(given, random_size(rng, texted(list_report, given)))
    few, many = [(2, 6), (4, 7), (5, 7), (6, 6), (6, 7), (7, 8)], [(0, 3), (1, 2), (2, 4), (3, 3), (3, 6), (5, 7), (11, 12), (12, 12)]
    n, widest = rng.choice(few if call.startswith(EMULATED) else many)
    text, run = random_accepted(rng, n, widest) if rng.randrange(2) else random_text(rng, n, widest)
    pauli = any_pauli(rng, n)
    words = [numbers(pauli)]
    number = random_number(rng, run)
    if call not in ("reports", "emulated-reports", "lines"):
        words.append(str(number))
    if call == "line":
        words.append(str(random_size(rng, texted(list_step, run, Pauli(*pauli), number))))
    elif call == "lines":
        words.append(str(random_size(rng, texted(list_steps, run, Pauli(*pauli)))))
    line = " ".join([call, text, *words])
    return line if rng.randrange(60) else rng.choice([line + " 0", line.rpartition(" ")[0]])


def kind_of(asked, told):
    """The call and what sort of answer it has: of texts, how the text begins."""
    call = asked.split(" ")[0]
    if told == "unread":
        return f"{call} unread"
    if "reports" in call:
        return f"{call} {told.rpartition(',')[2].partition(' at')[0]}"
    if call in SIZED:
        head, _, rest = told.partition(" | ")
        text = rest.partition(" ")[2].split("/")[0].split(" ")
        sort = "refused " + text[1] if text[0] == "refused" else text[0] if text[0] in ("step", "end") else "digest"
        return f"{call} {'16' if head.startswith('refused') else sort}"
    words = told.split(" ")
    return f"{call} {' '.join(words[:2]) if words[0] == 'refused' else words[0]}"


def fuzz(program, seed, count, drawn=random_line, answered=answer, sort=kind_of):
    """Asks the program as many lines at a time as its buffer holds; those that are drawn, answered and sorted by these."""
    rng, kinds, left = random.Random(seed), Counter(), count
    while left:
        batch, size = [], 0
        while left and size < 1000000:
            batch.append(drawn(rng))
            size, left = size + len(batch[-1]) + 1, left - 1
        given = "".join(line + "\n" for line in batch)
        assert len(given) <= 1048576
        got = subprocess.run([program], input=given.encode(), capture_output=True, check=True).stdout.decode().split("\n")
        assert len(got) == len(batch) + 1, (len(got), len(batch))
        for asked, told in zip(batch, got):
            wanted = answered(asked)
            if told != wanted:
                print(f"differs\n{asked}\nmodel:   {wanted}\nprogram: {told}")
                return False
            kinds[sort(asked, wanted)] += 1
    print(f"{count} lines agree")
    for kind, times_seen in sorted(kinds.items()):
        print(f"  {kind}: {times_seen}")
    return True


def given_inputs(program, seed, count):
    """As many inputs as agree, by how the text begins, or the first whose text differs."""
    rng, kinds = random.Random(seed), Counter()
    for _ in range(count):
        given = random_input(rng)
        wanted = texted(list_report, given)
        got = subprocess.run([program], input=given, capture_output=True, check=True).stdout.decode()
        if got != wanted:
            print(f"differs\n{given.hex()}\nmodel:\n{wanted}program:\n{got}")
            return False
        words = wanted.split()
        kinds[" ".join(words[:2]) if words[0] == "refused" else words[0]] += 1
    print(f"{count} inputs agree")
    for kind, times_seen in sorted(kinds.items()):
        print(f"  {kind}: {times_seen}")
    return True


# ---------------------------------------------------------------------- an example

ROOT = 2**0.5
EXAMPLE = [
    starting(2),
    rotating(of("ZZ")),
    turning(of("ZI")),
    rotating(of("XI"), 1),
    promoting(1.0, 0.0),
    turning(of("IZX")),
    correcting(of("ZII")),
    rotating(of("ZXZ")),
    projecting(of("XIX"), 2, 0, ROOT),
    rotating(of("XX")),
    projecting(of("ZI"), 0, 1, ROOT),
    END,
]
# X on both qubits. Past the quarter turn of Z on qubit 0 its X there is Y; the promotion adds I; Z on qubit 1 turns X to Y and
# brings X to the new qubit; the correction turns the sign. -YYX times XIX is i ZY, and the new branch 1 makes that -i;
# qubit 2 goes. ZY times ZI is IY, and branch 1 is kept: -i times -1.
EXAMPLE_TEXT = """\
step 0 rotation ZZ frame XX kept qubits 0 1
step 1 quarter-turn ZI frame XX no flag
step 2 rotation XI frame YX changed qubits 0
step 3 promotion frame YX no flag
step 4 quarter-turn IZX frame YXI no flag
step 5 correction ZII frame YYX no flag
step 6 rotation ZXZ frame -YYX changed qubits 0 1 2
step 7 projection XIX frame -YYX changed qubits 0
step 8 rotation XX frame -i*ZY kept qubits 0 1
step 9 projection ZI frame -i*ZY kept
end frame i*Y
"""


def write_example(crates, examples):
    run = b"".join(EXAMPLE)
    assert len(run) < 400
    given = b"XX\n" + run
    assert list_report(given) == EXAMPLE_TEXT
    for path, content in (
        (f"{examples}/frame.run", run),
        (f"{crates}/report/stdin", given),
        (f"{crates}/report/stdout", EXAMPLE_TEXT.encode()),
    ):
        with open(path, "wb") as out:
            out.write(content)


def all_lines():
    lines = runs.Lines(answer)
    for part in (single_letters, masks, at_numbers, frames, rows, emulated, texts, inputs, longest, not_read, at_random):
        part(lines)
    example = b"XX\n" + b"".join(EXAMPLE)
    lines.say("The example of the program `report`, whole and by its steps.")
    lines.ask(input_line(example, len(EXAMPLE_TEXT)))
    for number, text in enumerate(EXAMPLE_TEXT.split("\n")[:-2]):
        given = b"XX " + str(number).encode() + b"\n" + b"".join(EXAMPLE)
        lines.ask(input_line(given, 60), filled(text + "\n", 60))
    return lines.lines


if __name__ == "__main__":
    command, *rest = sys.argv[1:]
    if command == "fuzz":
        sys.exit(not fuzz(rest[0], int(rest[1]), int(rest[2])))
    elif command == "report":
        sys.stdout.write(texted(list_report, sys.stdin.buffer.read()))
    elif command == "inputs":
        sys.exit(not given_inputs(rest[0], int(rest[1]), int(rest[2])))
    else:
        for asked in sys.stdin:
            print(answer(asked.rstrip("\n")))
