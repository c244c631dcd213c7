#!/usr/bin/env python3
"""A second opinion on the calls on runs, and the lines of the programs that test them.

    runs.py answers < stdin > stdout     answers to calls, a line each
    runs.py write CRATES                 stdin and stdout of CRATES/run_vectors
    runs.py fuzz PROGRAM SEED COUNT      COUNT random calls asked of PROGRAM (crates/run_vectors/out/run_vectors) as well:
                                         the first line that differs, or how many answers of each kind agree
    runs.py bench < run > text           what the program `bench` prints of a run
    runs.py listings PROGRAM SEED COUNT  COUNT random runs given to PROGRAM (crates/bench/out/bench) as well, and compared so
    runs.py pairs PROGRAM SEED COUNT     COUNT random runs and Paulis that carrying accepts: the two files of E6 given to
                                         PROGRAM (crates/bench/out/bench), what it prints compared with `listing` and, where
                                         both fit and the premise holds, with each other

Written from the scope's text (document 01) and, for quarter turns, the emulator,
merged corrections, the search for a start, runs without corrections and one zero in listings,
from requests E13, E8, E11, E12, E2 and E6 (document 02), which the comments quote, without the
Rattle's definitions of runs; its writer had seen the Rattle code of reader and checker before,
the writers of the emulator's part, of merged corrections and of E6's parts (the zeros of
`listing`, `both-show` and `pairs`) were told to open none, the writer of the search for a
start was told not to open the Rattle code of the seeker, the writer of runs without
corrections that of the folder, the carrier and passing. It shares no code with the Rattle or
the Rust. The kernels' steps are those of model.py; a quarter turn is its rotation.

A call is its name, a run, numbers (masks after 0x), then the lent buffers as in
model.py, a bar before each. A run is hexadecimal digits in pieces with commas
between; `3*` before a piece stands for three of it.

    field RUN at                    the field there: tag, where the next begins, body; or the refusal and no body
    start RUN                       the width that the first field gives, whatever it is, or `none`
    step RUN at width limit         the step read there and the cursor behind it, or `end`, by the service's rows under
                                    that limit
    check RUN                       last width, steps, greatest width, amplitudes that the scratch must hold
    cuts RUN                        the check of the run cut at each byte
    run RUN m n | re | im           the last width and the steps done, all buffers; the scratch has m entries 7 and n
                                    entries 7.5
    carry RUN width k x z length    the end Pauli, where and how the output differs from the run, and whether what lies
                                    past the run is kept (on a refusal, all); it is lent as so many bytes 0xee
    passing TAG Q P flag pivot | floats
                                    the Pauli Q past the step of that tag with the Pauli P, each Pauli as width k x z:
                                    the step that it leaves behind, and the Pauli then
    both RUN width k x z | re | im  demand 3: for each basis the amplitude of (Pauli, run) and of (carried run,
                                    end Pauli), then `same`, `nan` (alike but for NaNs on both sides) or `differ`
    merge RUN width k x z width k x z
                                    E11, the first Pauli being B, the second A: carry's answer for B, for A through what
                                    that leaves, and for B·A, each with an output of 66,000 bytes and its changes
                                    shown against the run; then `same` where the last two outputs are equal and B's end Pauli
                                    times A's is that of B·A, else `differ`. A refusal ends the line. A run over
                                    66,000 bytes, or numbers that are not eight, is `unread`
    seeker RUN width k x z          E12, the Pauli being the named end: the width of a start that was found, the end
                                    Pauli that carry answers for it with an output of 66,000 bytes, then `same` where
                                    that is the named one, else `differ`. Any start that serves is right, so none is
                                    shown. `unread` as for merge, of four numbers
    fold-into RUN length            E2: the end Pauli, the folded length, the folded run's bytes or, where they are more
                                    than 400, a digest of them, and whether what lies past them is kept (on a refusal,
                                    all) of an output that is lent as so many bytes 0xee; then `same` where folding these
                                    bytes into an output of exactly their length gives them back with the identity
                                    on the last qubits, else `differ`. `unread` as for merge, of one number, which is
                                    66,000 or less
    fold-equal RUN | re | im        E2: for each basis the amplitude of (run) and of (folded run, end Pauli), then as both
    both-show RUN width k x z       E6: the Pauli is carried into an output of 66,000 bytes; of the run with it as a correction
                                    right after start, and of the carried run with the end Pauli as one right before end,
                                    what `bench` prints: its length, then the text with `/` for each newline or, where it
                                    is more than 400 bytes, a digest of it as it is; then `same` where the two are equal
                                    text, else `differ`. A refusal is carrying's. `unread` as for merge, of four numbers;
                                    there is no emulated form, which is `unread`

    emulated-step RUN at width
    emulated-check RUN
    emulated-run RUN m n | re | im
    emulated-carry RUN width k x z length
    emulated-both RUN width k x z | re | im
    emulated-merge RUN width k x z width k x z
    emulated-seeker RUN width k x z
    emulated-fold-into RUN length
    emulated-fold-equal RUN | re | im
                                    step, check, run, carry, both, merge, seeker, fold-into and fold-equal for the
                                    emulator; the calls above are the service's

`refused` and the number, `at` and the offset where it has one, is a refusal.
"""

import itertools
import random
import struct
import subprocess
import sys
from collections import Counter, namedtuple

import model
from model import Pauli, Refused, number, parity, refuse, shown

LONGEST = 65536
FILLED = 0xEE
HELD = 66000  # Bytes of each output of `merge`, `seeker`, `fold-equal` and `both-show`, and of the longest run that they read.
SPELLED = 400  # Bytes of the longest folded run, and of the longest listing, that is shown whole.
ROOM = 160  # Floats that a lent buffer may have.


class RefusedAt(Exception):
    """A refusal with its place: the number, the offset of the tag."""


# Who calls: the widest state that it has, and the rows of a start over it and of a promotion at it.
Caller = namedtuple("Caller", "widest start_row promotion_row")

SERVICE = Caller(12, 14, 15)
# 21, a start over 6 or a promotion at 6 on the emulator only, takes the place of 15 and of the start
# limit in 14, with the tag's offset.
EMULATOR = Caller(6, 21, 21)
EMULATED = "emulated-"  # Before the name of a call for the emulator.


def within(limit):
    """The service under another limit: its rows stay."""
    return SERVICE._replace(widest=limit)


# ------------------------------------------------------------------- reading


def field(run, at):
    """One-byte tag, two-byte body length, body, little-endian. A run over 65,536 bytes is
    refused before its fields, at 0; a cut field at its tag."""
    if len(run) > LONGEST:
        raise RefusedAt(14, 0)
    if len(run) < at + 3:
        raise RefusedAt(14, at)
    tag, size = struct.unpack_from("<BH", run, at)
    behind = at + 3 + size
    if len(run) < behind:
        raise RefusedAt(14, at)
    return tag, run[at + 3 : behind], behind


def start(run):
    """The width of a field of tag 1 and length 1; None where the run is too long or begins with something else."""
    try:
        tag, body, _ = field(run, 0)
    except RefusedAt:
        return None
    return body[0] if tag == 1 and len(body) == 1 else None


def step_of(tag, body, width, caller):
    """The step that a field of the right length is, and the width behind it."""
    if tag == 3:
        # The kernel's own rows first, as for the other steps.
        c, q = struct.unpack("<dd", body)
        refuse(3, width > 256)
        refuse(6, width > 60)
        model.check_units(c, q)
        refuse(caller.promotion_row, width >= caller.widest)
        return ("promotion", c, q), width + 1
    # A step's Pauli is 17 bytes: k, x, z; its width is the current one.
    pauli = Pauli(width, *struct.unpack_from("<BQQ", body))
    if tag == 5:
        model.check_pauli(pauli, 61)
        return ("correction", pauli), width
    model.check_hermitian(pauli, 61)
    if tag == 7:
        # A Hermitian Pauli P, refused by 3 and 7 as in a rotation; it has no flag.
        return ("quarter-turn", pauli), width
    if tag == 2:
        sign, c, s = struct.unpack("<Bdd", body[17:])
        model.check_units(c, s)
        refuse(14, sign > 1)
        return ("rotation", pauli, sign, c, s), width
    pivot, branch, invnorm = struct.unpack("<BBd", body[17:])
    refuse(8, not abs(invnorm) < float("inf"))
    model.check_pivot(pauli, pivot)
    refuse(14, branch > 1)
    return ("projection", pauli, pivot, branch, invnorm), width - 1


LENGTHS = {2: 34, 3: 16, 4: 27, 5: 17, 7: 17}


def read(run, at, width, caller):
    """The step at `at` and the cursor behind it; None for a step at the end field. No run leads to
    a width over the caller's widest: a field there stands in a wrong place."""
    tag, body, behind = field(run, at)
    if width > caller.widest:
        raise RefusedAt(14, at)
    if tag == 6 and not body:
        return None, behind, width
    if LENGTHS.get(tag) != len(body):
        raise RefusedAt(14, at)
    try:
        step, after = step_of(tag, body, width, caller)
    except Refused as refusal:
        raise RefusedAt(refusal.args[0], at)
    return step, behind, after


def walk(run, caller):
    """The start width and the steps, each with the offset of its tag."""
    first = start(run)
    if first is None:
        raise RefusedAt(14, 0)
    if first > caller.widest:
        raise RefusedAt(caller.start_row, 0)
    at, width, steps = 4, first, []
    while True:
        step, behind, width = read(run, at, width, caller)
        if step is None:
            break
        steps.append((at, step))
        at = behind
    if behind != len(run):
        raise RefusedAt(14, behind)
    return first, steps


def width_after(width, step):
    return width + {"promotion": 1, "projection": -1}.get(step[0], 0)


def survey(run, caller):
    """Last width, number of steps, greatest width, and the largest state left by a
    projection with x not 0."""
    width, steps = walk(run, caller)
    greatest, scratch = width, 0
    for _, step in steps:
        if step[0] == "projection" and step[1].x:
            scratch = max(scratch, 2 ** (width - 1))
        width = width_after(width, step)
        greatest = max(greatest, width)
    return width, len(steps), greatest, scratch


# ------------------------------------------------------- running and carrying


def run_step(width, step, re, im, scratch_re, scratch_im):
    kind, *rest = step
    if kind == "rotation":
        model.rotate(*rest, re, im)
    elif kind == "promotion":
        model.promote(width, *rest, re, im)
    elif kind == "projection":
        model.project(*rest, re, im, scratch_re, scratch_im)
    elif kind == "quarter-turn":
        # A rotation with sign 0 and c and s both h.
        model.rotate(*rest, 0, model.H, model.H, re, im)
    else:
        model.correct(*rest, re, im)


def run_whole(run, caller, re, im, scratch_re, scratch_im, seen=lambda width: None):
    """The last width and the number of steps done; `seen` is told each width on the way."""
    last, count, greatest, scratch = survey(run, caller)
    refuse(13, min(len(re), len(im)) < 2**greatest)
    refuse(13, min(len(scratch_re), len(scratch_im)) < scratch)
    width, steps = walk(run, caller)
    seen(width)
    for _, step in steps:
        run_step(width, step, re, im, scratch_re, scratch_im)
        width = width_after(width, step)
        seen(width)
    assert width == last
    return last, count


def anticommute(a, b):
    return parity(a.x & b.z) ^ parity(a.z & b.x)


def raised(pauli, exponent):
    return Pauli(pauli.n, (pauli.k + exponent) % 4, pauli.x, pauli.z)


def product(a, b):
    """A·B (B acts first) xors the masks; its phase is kA + kB + 2 × parity(A.z and B.x)."""
    return raised(Pauli(a.n, a.k, a.x ^ b.x, a.z ^ b.z), b.k + 2 * parity(a.z & b.x))


def meets(pauli, measured, pivot):
    """Q has, at the pivot, an X part (M.x not 0) or a Z part (M.x = 0)."""
    return (pauli.x if measured.x else pauli.z) >> pivot & 1


def passed(pauli, step):
    """The step that Q leaves behind it, and Q then."""
    kind, *rest = step
    if kind == "promotion":
        # Q gains identity on the new qubit.
        return step, Pauli(pauli.n + 1, pauli.k, pauli.x, pauli.z)
    flips = anticommute(pauli, rest[0])
    if kind == "rotation":
        # Sign flips when Q and P anticommute; Q stays.
        other, sign, c, s = rest
        return (kind, other, sign ^ flips, c, s), pauli
    if kind == "correction":
        # Q's phase rises by 2 when they anticommute.
        return step, raised(pauli, 2 * flips)
    if kind == "quarter-turn":
        # Leaves the field unchanged; where Q and P anticommute, Q becomes P·Q with phase raised by 3.
        return step, raised(product(rest[0], pauli), 3) if flips else pauli
    # Branch flips when Q and M anticommute; call the new branch v. If Q has, at the
    # pivot, an X part (M.x not 0) or a Z part (M.x = 0), Q becomes Q·M with phase
    # raised by 2v. Then the pivot's bit is dropped from both masks.
    measured, pivot, branch, invnorm = rest
    new = branch ^ flips
    if meets(pauli, measured, pivot):
        pauli = raised(product(pauli, measured), 2 * new)
    x, z = model.drop_bit(pivot, pauli.x), model.drop_bit(pivot, pauli.z)
    return (kind, measured, pivot, new, invnorm), Pauli(pauli.n - 1, pauli.k, x, z)


def past(pauli, step):
    """Any Pauli past any step: 3 where one of the two has no Pauli, or none is behind a promotion
    (a width over 256); 4 where they are not on the same qubits; 10 where the pivot is none of them."""
    kind, *rest = step
    refuse(3, not pauli.fits())
    if kind == "promotion":
        refuse(3, pauli.n + 1 > 256)
    else:
        refuse(3, not rest[0].fits())
        refuse(4, pauli.n != rest[0].n)
    if kind == "projection":
        refuse(10, rest[1] >= pauli.n)
    return passed(pauli, step)


def carry(run, caller, pauli, room):
    """The carried run, of equal length, and the end Pauli; `room` is the output's length."""
    width, steps = walk(run, caller)
    refuse(3, not pauli.fits())
    refuse(4, pauli.n != width)
    refuse(16, room < len(run))
    out = bytearray(run)
    for at, step in steps:
        left, pauli = passed(pauli, step)
        set_flag(out, at, left)
    return bytes(out), pauli


def set_flag(out, at, left):
    """The field there takes the sign or the branch of the step that is left."""
    # A rotation's sign stands behind its Pauli's 17 bytes, a projection's branch behind the pivot too.
    if left[0] == "rotation":
        out[at + 3 + 17] = left[2]
    elif left[0] == "projection":
        out[at + 3 + 18] = left[3]


# ----------------------------------------------------- runs without corrections


def fold(run, caller, room):
    """The run with every tag 5 field removed, and the end Pauli: start with identity, carry it along by the rules, and at
    each correction P replace the Pauli by P·(it). Freed bytes are closed up; the output length is that of the fields
    left. `room` is the output's length."""
    width, steps = walk(run, caller)
    pauli, out = Pauli(width, 0, 0, 0), bytearray(run[:4])
    for at, step in steps:
        if step[0] == "correction":
            pauli = product(step[1], pauli)
            continue
        left, pauli = passed(pauli, step)
        place = len(out)
        out += run[at : at + 3 + LENGTHS[run[at]]]
        set_flag(out, place, left)
    out += END
    refuse(16, room < len(out))
    return bytes(out), pauli


def folded_from_behind(run, caller):
    """As `fold`, another way: the last correction is carried to the end of the run, past steps that are no corrections, then
    the one before it through what that leaves; an end Pauli comes before those that were there already."""
    end = Pauli(survey(run, caller)[0], 0, 0, 0)
    while True:
        places = [(at, step[1]) for at, step in walk(run, caller)[1] if step[0] == "correction"]
        if not places:
            return run, end
        at, pauli = places[-1]
        behind = starting(pauli.n) + run[at + 20 :]
        left, last = carry(behind, caller, pauli, len(behind))
        run, end = run[:at] + left[4:], product(end, last)


# --------------------------------------------------------- a start for an end


def end_of(pauli, steps):
    """The Pauli behind the steps."""
    for _, step in steps:
        _, pauli = passed(pauli, step)
    return pauli


def tried(width, steps, end):
    """The first of all Paulis on that many qubits that ends in the named one; None if none does."""
    for k, x, z in itertools.product(range(4), range(2**width), range(2**width)):
        pauli = Pauli(width, k, x, z)
        if end_of(pauli, steps).shown() == end.shown():
            return pauli
    return None


def joined(pauli):
    """Both masks in one number."""
    return pauli.x << pauli.n | pauli.z


def sums(units):
    """The xor of each choice of them; bit q of the index chooses unit q."""
    made = [0]
    for unit in units:
        made += [one ^ unit for one in made]
    return made


def matched(width, steps, end):
    """As `tried`, for widths whose Paulis are too many. By E11 the masks at the end of a product are the xor of those
    of its factors, signs and branches being seen in phases alone: each of the 2^width choices of X letters is looked
    up among those of Z letters, and no equation is solved. The phase rises at the end as it does at the start."""
    letters_x, letters_z = ([Pauli(width, 0, x << q, z << q) for q in range(width)] for x, z in ((1, 0), (0, 1)))
    ends_of_x, ends_of_z = (sums([joined(end_of(one, steps)) for one in letters]) for letters in (letters_x, letters_z))
    choice_of_z = {one: z for z, one in enumerate(ends_of_z)}
    for x, one in enumerate(ends_of_x):
        z = choice_of_z.get(one ^ joined(end))
        if z is not None:
            pauli = Pauli(width, 0, x, z)
            return raised(pauli, end.k - end_of(pauli, steps).k)
    return None


def seek(run, caller, end):
    """Some Pauli on the start qubits whose carrying ends in exactly the named one, phase included. 25, no such
    Pauli, stands last of all."""
    width, steps = walk(run, caller)
    refuse(3, not end.fits())
    refuse(4, end.n != survey(run, caller)[0])
    pauli = (tried if width <= 3 else matched)(width, steps, end)
    refuse(25, pauli is None)
    return pauli


# ------------------------------------------------------------------- demand 3


def compared(a, b):
    """Two floats are the same number when their bits are equal or both are zeros."""
    if a != a or b != b:
        return 1 if a != a and b != b else 2
    return 0 if a == b else 2


def lent(part, past):
    """A buffer that holds these floats, and something past them, which plays no part."""
    return (part + [past] * ROOM)[:ROOM]


def four_lent(re, im, past):
    """The four buffers that a run from that state is lent."""
    return [lent(re, past), lent(im, past), lent([], 0.0), lent([], 0.0)]


def both_sides(run, caller, pauli, re, im):
    """Each basis with both amplitudes; the verdict; whether demand 3 promises `same`."""
    carried, end = carry(run, caller, pauli, len(run))
    left = four_lent(re, im, 0.0)
    model.correct(pauli, *left[:2])
    last, _ = run_whole(run, caller, *left)
    return against(left, last, carried, end, caller, re, im)


def folded_sides(run, caller, re, im):
    """The same of the run and of the folded run; whether E2 promises `same`."""
    folded, end = fold(run, caller, HELD)
    left = four_lent(re, im, 0.0)
    last, _ = run_whole(run, caller, *left)
    return against(left, last, folded, end, caller, re, im)


def against(left, last, run, end, caller, re, im):
    """One side that has been run to the last width, and the run from that state with the end Pauli behind it, which is looked
    at for amplitudes that are not finite."""
    right = four_lent(re, im, 7.0)
    finite = True

    def seen(width):
        nonlocal finite
        parts = right[0][: 2**width] + right[1][: 2**width]
        finite = finite and all(abs(x) < float("inf") for x in parts)

    run_whole(run, caller, *right, seen)
    model.correct(end, *right[:2])
    lines, worst = [], 0
    for b in range(2**last):
        parts = [side[part][b] for side in (left, right) for part in (0, 1)]
        worst = max(worst, compared(parts[0], parts[2]), compared(parts[1], parts[3]))
        lines.append(f"{b} " + " ".join(map(shown, parts)))
    return lines, ("same", "nan", "differ")[worst], finite


# ------------------------------------------------------------- both listings


def two_files(run, pauli, carried, end):
    """One file is the run with the Pauli as a correction right after start, the other the carried run with the end
    Pauli as one right before end."""
    first, last = (correcting((one.k, one.x, one.z)) for one in (pauli, end))
    return run[:4] + first + run[4:], carried[:-3] + last + carried[-3:]


def stays_finite(carried):
    """The premise from basis 0: every amplitude of the carried run is finite at its start and after each step."""
    finite = True

    def seen(width, re, im):
        nonlocal finite
        finite = finite and all(abs(x) < float("inf") for x in re[: 2**width] + im[: 2**width])

    from_basis_0(carried, seen)
    return finite


# ------------------------------------------------------------------- the text


def bytes_of(text):
    """A count over 66,001 is taken for 66,001: no call reads so long a run."""
    run = b""
    for piece in text.split(","):
        count, star, digits = piece.rpartition("*")
        run += bytes.fromhex(digits) * (min(int(count), HELD + 1) if star else 1)
    return run


def refused(refusal):
    place = "" if isinstance(refusal, Refused) else f" at {refusal.args[1]}"
    return f"refused {refusal.args[0]}{place}"


def told_check(run, caller):
    try:
        return "run {} {} {} {}".format(*survey(run, caller))
    except RefusedAt as refusal:
        return refused(refusal)


def told_field(run, at):
    try:
        tag, body, behind = field(run, at)
    except RefusedAt as refusal:
        return f"{refused(refusal)} []"
    return f"{tag} {behind} [{body.hex()}]"


def told_start(run):
    width = start(run)
    return "none" if width is None else str(width)


def told_step(step):
    words = []
    for part in step:
        pauli = isinstance(part, Pauli)
        words.append(part.shown() if pauli else shown(part) if isinstance(part, float) else str(part))
    return " ".join(words)


def told_read(run, at, width, caller):
    step, *cursor = read(run, at, width, caller)
    return " ".join([told_step(step or ["end"]), *map(str, cursor)])


def told_past(tag, words, floats):
    """Of its numbers a step takes those that it has."""
    pauli, (flag, pivot) = Pauli(*words[4:8]), words[8:]
    made = {
        2: ("rotation", pauli, flag, *floats),
        3: ("promotion", *floats),
        4: ("projection", pauli, pivot, flag, floats[0]),
        5: ("correction", pauli),
        7: ("quarter-turn", pauli),
    }
    left, behind = past(Pauli(*words[:4]), made[tag])
    return f"{told_step(left)} {behind.shown()}"


def told_output(run, out):
    """Where and how the output differs from the run, and whether the bytes past it are kept."""
    changed = [f" {i}:{b:02x}" for i, b in enumerate(out[: len(run)]) if b != run[i]]
    tail = " kept" if out.count(FILLED, len(run)) == len(out) - len(run) else " written"
    return "".join(changed) + tail


def carry_into(out, through, caller, pauli):
    """The output as carrying leaves it, and the end Pauli."""
    carried, end = carry(through, caller, pauli, len(out))
    return carried + out[len(carried) :], end


def told_carried(run, out, end):
    return "carried " + end.shown() + told_output(run, out)


def told_carry(run, caller, pauli, room):
    out = bytes([FILLED]) * room
    try:
        return told_carried(run, *carry_into(out, run, caller, pauli))
    except (Refused, RefusedAt) as refusal:
        return refused(refusal) + told_output(b"", out)


def told_both(run, caller, pauli, re, im):
    return told_sides(both_sides(run, caller, pauli, re, im), "demand 3")


def told_sides(sides, claim):
    lines, verdict, finite = sides
    assert verdict == "same" or not finite, claim
    return " | ".join([*lines, verdict])


def told_merge(run, caller, words):
    """Carrying B and then carrying A through the result must leave the same run as carrying B·A, and B's end
    Pauli times A's must equal the merged end Pauli, phase included."""
    if len(run) > HELD or len(words) != 8:
        return "unread"
    b, a = Pauli(*words[:4]), Pauli(*words[4:])
    out, told = bytes([FILLED]) * HELD, []
    try:
        first, end_of_b = carry_into(out, run, caller, b)
        told.append(told_carried(run, first, end_of_b))
        second, end_of_a = carry_into(out, first[: len(run)], caller, a)
        told.append(told_carried(run, second, end_of_a))
        merged, end = carry_into(out, run, caller, product(b, a))
        told.append(told_carried(run, merged, end))
    except (Refused, RefusedAt) as refusal:
        return " | ".join([*told, refused(refusal) + told_output(b"", out)])
    same = second == merged and product(end_of_b, end_of_a).shown() == end.shown()
    verdict = "same" if same else "differ"
    assert verdict == "same", "E11"
    return " | ".join([*told, verdict])


def told_seek(run, caller, words):
    """The start that is found is judged by carrying it."""
    if len(run) > HELD or len(words) != 4:
        return "unread"
    named = Pauli(*words)
    pauli = seek(run, caller, named)
    _, end = carry(run, caller, pauli, HELD)
    verdict = "same" if end.shown() == named.shown() else "differ"
    assert verdict == "same", "E12"
    return f"start {pauli.n} | carried {end.shown()} | {verdict}"


def digest(folded):
    """From FNV's offset basis, byte by byte: the byte xored in, times 2^40 + 2^8 + 1, modulo 2^64."""
    value = 0xCBF29CE484222325
    for byte in folded:
        value = (value ^ byte) * (2**40 + 2**8 + 1) % 2**64
    return value


def told_folded(folded, end, past):
    """A folded run, its end Pauli, and what lies past it in the output."""
    run = f"[{folded.hex()}]" if len(folded) <= SPELLED else f"{digest(folded):016x}"
    return f"folded {end.shown()} {len(folded)} {run}{told_output(b'', past)}"


def told_fold(run, caller, words):
    """Folding a folded run gives it back with the identity: it has no correction."""
    if len(run) > HELD or len(words) != 1 or words[0] > HELD:
        return "unread"
    out = bytes([FILLED]) * words[0]
    try:
        folded, end = fold(run, caller, len(out))
    except (Refused, RefusedAt) as refusal:
        return refused(refusal) + told_output(b"", out)
    again, left = fold(folded, caller, len(folded))
    verdict = "same" if again == folded and left.shown() == Pauli(end.n, 0, 0, 0).shown() else "differ"
    assert verdict == "same", "E2"
    return f"{told_folded(folded, end, out[len(folded) :])} | {verdict}"


def told_fold_equal(run, caller, words, re, im):
    if len(run) > HELD or words:
        return "unread"
    return told_sides(folded_sides(run, caller, re, im), "E2")


def told_listing(text):
    whole = text.replace("\n", "/") if len(text) <= SPELLED else f"{digest(text.encode()):016x}"
    return f"{len(text)} {whole}"


def told_listings(run, caller, words):
    """Where both files fit in 65,536 bytes and the premise holds from basis 0, both listings must be equal text. Files that
    do not fit are refused alike."""
    if caller == EMULATOR or len(run) > HELD or len(words) != 4:
        return "unread"
    pauli = Pauli(*words)
    carried, end = carry(run, caller, pauli, HELD)
    texts = [listing(file) for file in two_files(run, pauli, carried, end)]
    verdict = "same" if texts[0] == texts[1] else "differ"
    assert verdict == "same" or not stays_finite(carried), "E6"
    return " | ".join([*map(told_listing, texts), verdict])


def answer(line):
    if line.startswith("#"):
        return line
    head, *parts = line.split("|")
    call, text, *words = head.split()
    caller, name = EMULATOR if call.startswith(EMULATED) else SERVICE, call.removeprefix(EMULATED)
    run = bytes_of(text)
    words = [int(word, 0) for word in words]
    buffers = [[number(int(word, 16)) for word in part.split()] for part in parts]
    try:
        if name == "field":
            return told_field(run, *words)
        if name == "start":
            return told_start(run)
        if name == "step":
            at, width, *limit = words
            return told_read(run, at, width, within(*limit) if limit else caller)
        if name == "check":
            return told_check(run, caller)
        if name == "cuts":
            return "".join(told_check(run[:cut], caller) + "," for cut in range(len(run)))
        if name == "carry":
            return told_carry(run, caller, Pauli(*words[:4]), words[4])
        if name == "both":
            return told_both(run, caller, Pauli(*words), *buffers)
        if name == "merge":
            return told_merge(run, caller, words)
        if name == "seeker":
            return told_seek(run, caller, words)
        if name == "fold-into":
            return told_fold(run, caller, words)
        if name == "fold-equal":
            return told_fold_equal(run, caller, words, *buffers)
        if name == "both-show":
            return told_listings(run, caller, words)
        if name == "passing":
            return told_past(run[0], words, *buffers)
        assert name == "run"
        buffers += [[past] * size for past, size in zip((7.0, 7.5), words)]
        outcome = "finished {} {}".format(*run_whole(run, caller, *buffers))
    except (Refused, RefusedAt) as refusal:
        outcome = refused(refusal)
    for buffer in buffers if name == "run" else []:
        outcome += " |" + "".join(" " + shown(x) for x in buffer)
    return outcome


# ----------------------------------------------------------- fields and runs

X, Y, Z, I = (0, 1, 0), (1, 1, 1), (0, 0, 1), (0, 0, 0)
NAN, INFINITY = float("nan"), float("inf")
ABOVE_ONE = number(0x3FF0000000000001)


def framed(tag, body):
    return struct.pack("<BH", tag, len(body)) + body


def starting(n):
    return framed(1, bytes([n]))


def rotating(p=X, sign=0, c=0.6, s=0.8):
    return framed(2, struct.pack("<BQQBdd", *p, sign, c, s))


def promoting(c=0.6, q=0.8):
    return framed(3, struct.pack("<dd", c, q))


def projecting(p=X, pivot=0, branch=0, invnorm=1.0):
    return framed(4, struct.pack("<BQQBBd", *p, pivot, branch, invnorm))


def correcting(p=X):
    return framed(5, struct.pack("<BQQ", *p))


def turning(p=X):
    return framed(7, struct.pack("<BQQ", *p))


END = framed(6, b"")


def spelled(*pieces):
    """A run in text: fields, or pairs of a count and a field."""
    texts = []
    for piece in pieces:
        count, digits = piece if isinstance(piece, tuple) else (1, piece)
        texts.append((f"{count}*" if count != 1 else "") + digits.hex())
    return ",".join(filter(None, texts)) or "0*00"


def floats(values):
    return "".join(" " + shown(x) for x in values)


def check_line(*pieces):
    return f"check {spelled(*pieces)}"


def on_emulator(line):
    """The same call for the emulator."""
    return EMULATED + line


def run_line(text, re, im, m=0, n=0):
    return f"run {text} {m} {n} |{floats(re)} |{floats(im)}"


def carry_line(text, width, p, room):
    return f"carry {text} {width} {p[0]} {p[1]:#x} {p[2]:#x} {room}"


def pass_line(q, tag, p=(0, 0, 0, 0), flag=0, pivot=0, floats_of=(0.6, 0.8)):
    """Paulis with their widths."""
    words = " ".join(f"{n} {k} {x:#x} {z:#x}" for n, k, x, z in (q, p))
    return f"passing {tag:02x} {words} {flag} {pivot} |{floats(floats_of)}"


def both_line(text, width, p, re, im):
    return f"both {text} {width} {p[0]} {p[1]:#x} {p[2]:#x} |{floats(re)} |{floats(im)}"


def merge_line(text, b, a):
    """Paulis with their widths."""
    return f"merge {text} " + " ".join(f"{n} {k} {x:#x} {z:#x}" for n, k, x, z in (b, a))


def seek_line(text, end):
    """The named end with its width."""
    n, k, x, z = end
    return f"seeker {text} {n} {k} {x:#x} {z:#x}"


def fold_line(text, room):
    return f"fold-into {text} {room}"


def equal_line(text, re, im):
    return f"fold-equal {text} |{floats(re)} |{floats(im)}"


def show_line(text, pauli):
    """The Pauli with its width."""
    n, k, x, z = pauli
    return f"both-show {text} {n} {k} {x:#x} {z:#x}"


def length(text):
    return len(bytes_of(text))


# ------------------------------------------------------------- runs at limits


class Lines:
    """Lines of a program's standard input. Where an answer is given, it was derived by
    hand, and the model, which is asked by `answer`, has to agree."""

    def __init__(self, answer):
        self.answer = answer
        self.lines = []

    def say(self, comment):
        self.lines.append("# " + comment)

    def ask(self, line, expected=None):
        told = self.answer(line)
        assert expected in (None, told), (line, expected, told)
        self.lines.append(line)


def subsets(items):
    for chosen in range(2 ** len(items)):
        yield [item for place, item in enumerate(items) if chosen >> place & 1]


def refusal_of(rows, at):
    return f"refused {min(rows)} at {at}"


# Runs that hold every kind of step: width 2 to 3 to 2 to 1, and from no qubit and back.
EVERY_KIND = [
    starting(2),
    rotating((1, 1, 3), 1),
    promoting(),
    turning((1, 5, 6)),
    projecting((0, 5, 0), 2, 1, 0.75),
    correcting((3, 2, 1)),
    projecting((2, 0, 3), 0, 0, 1.25),
    END,
]
FROM_NONE = [starting(0), promoting(), projecting(Z), promoting(-0.0, 1.0), correcting(), END]
DIAGONAL = [starting(1), rotating(Z), projecting(Z, 0, 1, -2.0), correcting(I), END]
TURNS = [starting(0), turning((2, 0, 0)), promoting(), turning(Y), turning((2, 0, 1)), projecting(X), turning(I), END]


def fields(lines):
    lines.say("The field at a place: tag, the next field's place, body. Nothing is asked of a tag.")
    run = [starting(1), correcting(), b"\xff\x02\x00\xab\xcd", END]
    text = spelled(*run)
    for at in (0, 1, 4, 5, 24, 25, 26, 27, 28, 29, 30, 31, 32, 33):
        lines.ask(f"field {text} {at}")
    for at in (2**64 - 1, 2**64 - 3):
        lines.ask(f"field {text} {at}", f"refused 14 at {at} []")
    lines.ask(f"field {spelled()} 0", "refused 14 at 0 []")
    lines.say("A field cut in its header, and by one byte of its body; a body of two bytes' length.")
    lines.ask("field 06 0", "refused 14 at 0 []")
    lines.ask("field 0600 0", "refused 14 at 0 []")
    lines.ask("field 060000 0", "6 3 []")
    lines.ask("field 060100 0", "refused 14 at 0 []")
    lines.ask("field 070000 0", "7 3 []")
    lines.ask("field 090001,255*ab 0", "refused 14 at 0 []")
    lines.ask("field 090001,256*ab 0", f"9 259 [{'ab' * 256}]")


def starts(lines):
    lines.say("The start field's width, whatever it is.")
    for n in (0, 1, 5, 6, 7, 11, 12, 13, 14, 127, 128, 254, 255):
        lines.ask(f"start {spelled(starting(n))}", str(n))
    lines.say("No start: another tag, another length, cut, nothing.")
    for run in (b"\x00\x01\x00\x01", b"\x02\x01\x00\x01", b"\x01\x00\x00", b"\x01\x02\x00\x01\x01"):
        lines.ask(f"start {spelled(run)}", "none")
    for cut in range(4):
        lines.ask(f"start {spelled(starting(1)[:cut])}", "none")


def reads(lines):
    lines.say("A read: the step with its Pauli and floats, and the cursor behind it.")
    text = spelled(*EVERY_KIND)
    for at, width in ((4, 2), (41, 2), (60, 3), (80, 3), (110, 2), (130, 2), (160, 1)):
        lines.ask(f"step {text} {at} {width} 12")
    lines.ask(f"step {text} 41 2 12", f"promotion {shown(0.6)} {shown(0.8)} 60 3")
    lines.ask(f"step {text} 60 3 12", "quarter-turn 3 1 0x5 0x6 80 3")
    lines.ask(f"step {text} 110 2 12", "correction 2 3 0x2 0x1 130 2")
    lines.ask(f"step {text} 160 1 12", "end 163 1")
    lines.say("At the start field, inside a field, at the end, past it, at the largest place.")
    for at in (0, 1, 5, 162, 163, 164, 2**64 - 2, 2**64 - 1):
        lines.ask(f"step {text} {at} 2 12", f"refused 14 at {at}")
    lines.say("Widths 0 to 12 at each field, 13 past the limit, and a limit of 2 and of 3 at the promotion.")
    for at in (4, 41, 60, 80, 110, 130, 160):
        for width in (0, 1, 2, 3, 11, 12):
            lines.ask(f"step {text} {at} {width} 12")
        lines.ask(f"step {text} {at} 13 12", f"refused 14 at {at}")
    lines.ask(f"step {text} 41 2 2", "refused 15 at 41")
    lines.ask(f"step {text} 41 2 3", f"promotion {shown(0.6)} {shown(0.8)} 60 3")
    lines.ask(f"step {text} 41 0 0", "refused 15 at 41")
    lines.say("A promotion past its kernel's widths, under a limit of 300: 60 is taken, 6 from 61 on, 3 from 257 on.")
    lines.ask(f"step {text} 41 60 300", f"promotion {shown(0.6)} {shown(0.8)} 60 61")
    for width, row in ((61, 6), (256, 6), (257, 3), (300, 3)):
        lines.ask(f"step {text} 41 {width} 300", f"refused {row} at 41")
    lines.say("A quarter turn past a rotation's widths: 61 is taken, 6 from 62 on, 3 from 257 on, 7 behind them.")
    for n, (k, x, z) in ((0, I), (12, Y), (61, (2, 1 << 60, 1))):
        lines.ask(f"step {spelled(turning((k, x, z)))} 0 {n} 300", f"quarter-turn {n} {k} {x:#x} {z:#x} 20 {n}")
    for width, row in ((62, 6), (64, 6), (256, 6), (257, 3)):
        lines.ask(f"step {spelled(turning())} 0 {width} 300", f"refused {row} at 0")
    for width, row in ((0, 3), (61, 7), (62, 6), (257, 3)):
        lines.ask(f"step {spelled(turning((1, 1, 0)))} 0 {width} 300", f"refused {row} at 0")
    lines.say("The width's rows come before 8 and 15, and 14 for a width over the limit before them.")
    unfit = spelled(promoting(NAN, 0.8))
    for width, row in ((60, 8), (61, 6), (257, 3)):
        lines.ask(f"step {unfit} 0 {width} 300", f"refused {row} at 0")
        lines.ask(f"step {unfit} 0 {width} 12", "refused 14 at 0")
    lines.say("A cursor over its limit at a good field, at the end field, at a wrong one and past the run; the limit itself is taken.")
    lines.ask(f"step {text} 110 2 1", "refused 14 at 110")
    lines.ask(f"step {text} 110 2 2", "correction 2 3 0x2 0x1 130 2")
    lines.ask(f"step {text} 60 3 2", "refused 14 at 60")
    lines.ask(f"step {text} 60 3 3", "quarter-turn 3 1 0x5 0x6 80 3")
    lines.ask(f"step {text} 160 1 0", "refused 14 at 160")
    lines.ask(f"step {text} 160 1 1", "end 163 1")
    for at in (0, 5, 163, 2**64 - 1):
        lines.ask(f"step {text} {at} 2 1", f"refused 14 at {at}")
    lines.ask(f"step {text} 160 {2**64 - 1} {2**64 - 2}", "refused 14 at 160")
    lines.ask(f"step {text} 160 {2**64 - 1} {2**64 - 1}", f"end 163 {2**64 - 1}")
    lines.ask(f"step {text} 41 60 60", "refused 15 at 41")
    lines.ask(f"step {text} 41 61 61", "refused 6 at 41")


def accepted(lines):
    lines.say("Accepted: last width, steps, greatest width, amplitudes that the scratch must hold.")
    for n in range(13):
        lines.ask(check_line(starting(n), END), f"run {n} 0 {n} 0")
    lines.ask(check_line(*EVERY_KIND), "run 1 6 3 4")
    lines.ask(check_line(*FROM_NONE), "run 1 4 1 0")
    lines.ask(check_line(*DIAGONAL), "run 0 3 1 0")
    lines.ask(check_line(*TURNS), "run 0 6 1 1")
    lines.say("The largest state left by a projection with x not 0, first or last of several; none with x = 0.")
    small, large = projecting((0, 1, 0)), projecting((0, 8, 0), 3)
    diagonal = projecting((0, 0, 1))
    ask = lambda *fields: check_line(starting(4), *fields, END)
    lines.ask(ask(large, small), "run 2 2 4 8")
    lines.ask(ask(diagonal, small), "run 2 2 4 4")
    lines.ask(ask(diagonal, small, promoting(), promoting(), promoting(), large), "run 4 6 5 16")
    lines.ask(ask(diagonal, diagonal, small, diagonal), "run 0 4 4 2")
    lines.ask(ask(diagonal, diagonal, diagonal, small), "run 0 4 4 1")
    lines.say("Width 12: from the start, by promotion, left and reached again.")
    to_twelve = [starting(0), (12, promoting()), END]
    lines.ask(check_line(*to_twelve), "run 12 12 12 0")
    high = projecting((1, 1 << 11, 1 << 11 | 1), 11)
    lines.ask(check_line(starting(12), high, promoting(), high, END), "run 11 3 12 2048")
    lines.say("c, s and q at -1, 0 and 1, zeros of both signs, denormals; invnorm of any size.")
    for c, s in ((-1.0, 1.0), (1.0, -1.0), (0.0, -0.0), (5e-324, -5e-324), (1.0, 1.0)):
        lines.ask(check_line(starting(1), rotating(X, 0, c, s), promoting(c, s), END), "run 2 2 2 0")
    for invnorm in (0.0, -0.0, -1.0, 5e-324, 1.7976931348623157e308, -1.7976931348623157e308):
        lines.ask(check_line(starting(1), projecting(X, 0, 1, invnorm), END), "run 0 1 1 1")
    lines.say("A correction's phase is any of 0 to 3, Hermitian or not.")
    for k in range(4):
        lines.ask(check_line(starting(1), correcting((k, 1, 1)), END), "run 1 1 1 0")
    lines.say("A quarter turn's Pauli is any Hermitian one, the identity too; it asks for no scratch. A Y's phase is odd, 7 else.")
    top = 1 << 11
    for n, p in ((0, I), (0, (2, 0, 0)), (2, (2, 3, 3)), (2, (0, 3, 0)), (12, (3, top, top))):
        lines.ask(check_line(starting(n), turning(p), END), f"run {n} 1 {n} 0")
    for k, told in enumerate(("refused 7 at 4", "run 1 1 1 0") * 2):
        lines.ask(check_line(starting(1), turning((k, 1, 1)), END), told)


def single_rows(lines):
    """Each row from each kind of field, by every fault that it names."""
    nans = [number(b) for b in (0x7FF8000000000000, 0xFFF8000000000000, 0x7FF0000000000001, 0xFFFFFFFFFFFFFFFF)]
    below = -ABOVE_ONE
    beyond = [*nans, ABOVE_ONE, below, 2.0, -2.0, INFINITY, -INFINITY]
    cases = [
        ("A rotation at width 2", rotating, {
            3: [dict(p=p) for p in ((4, 1, 0), (255, 1, 0), (0, 4, 0), (0, 0, 4), (0, 1 << 63, 0), (0, 0, 1 << 63))],
            7: [dict(p=p) for p in ((1, 1, 0), (3, 0, 1), (0, 1, 1), (2, 3, 1), (1, 3, 3), (1, 0, 0))],
            8: [dict(c=c) for c in beyond] + [dict(s=s) for s in beyond],
            14: [dict(sign=sign) for sign in (2, 3, 128, 255)],
        }),
        ("A projection at width 2", projecting, {
            3: [dict(p=p) for p in ((4, 1, 0), (255, 1, 0), (0, 5, 0), (0, 1, 4), (0, 1 << 63, 0), (0, 0, 1 << 63))],
            7: [dict(p=p) for p in ((1, 1, 0), (3, 0, 1), (0, 1, 1), (2, 3, 1), (1, 3, 3))],
            8: [dict(invnorm=invnorm) for invnorm in (*nans, INFINITY, -INFINITY)],
            10: [dict(pivot=pivot) for pivot in (2, 3, 64, 255)],
            11: [dict(p=I), dict(p=(2, 0, 0))],
            12: [dict(p=(0, x, z), pivot=pivot) for x, z, pivot in ((1, 2, 1), (2, 1, 0), (0, 1, 1), (0, 2, 0))],
            14: [dict(branch=branch) for branch in (2, 3, 128, 255)],
        }),
        ("A promotion at width 2", promoting, {8: [dict(c=c) for c in beyond] + [dict(q=q) for q in beyond]}),
        ("A correction at width 2", correcting, {
            3: [dict(p=p) for p in ((4, 1, 0), (255, 0, 0), (0, 4, 0), (0, 0, 4), (0, 1 << 63, 0), (0, 0, 1 << 63))],
        }),
        ("A quarter turn at width 2", turning, {
            3: [dict(p=p) for p in ((4, 1, 0), (255, 1, 0), (0, 4, 0), (0, 0, 4), (0, 1 << 63, 0), (0, 0, 1 << 63))],
            7: [dict(p=p) for p in ((1, 1, 0), (3, 0, 1), (0, 1, 1), (2, 3, 1), (1, 3, 3), (1, 0, 0))],
        }),
    ]
    for name, make, rows in cases:
        for row, faults in rows.items():
            lines.say(f"{name}: {row}.")
            for fault in faults:
                text = spelled(starting(2), correcting(I), make(**fault), END)
                lines.ask(f"check {text}", f"refused {row} at 24")


def rows_together(lines):
    """Every set of faults in one field: the lowest number."""
    lines.say("Several rows in one field, the lowest number wins: a rotation by 3, 7, 8, 14.")
    for rows in subsets([3, 7, 8, 14]):
        p = (1 if 7 in rows else 0, 5 if 3 in rows else 1, 0)
        made = rotating(p, 2 if 14 in rows else 0, NAN if 8 in rows else 0.6)
        line = check_line(starting(2), made, END)
        lines.ask(line, refusal_of(rows, 4) if rows else "run 2 1 2 0")
    lines.say("A quarter turn by 3 and 7.")
    for rows in subsets([3, 7]):
        line = check_line(starting(2), turning((1 if 7 in rows else 0, 5 if 3 in rows else 1, 0)), END)
        lines.ask(line, refusal_of(rows, 4) if rows else "run 2 1 2 0")
    lines.ask(check_line(starting(2), turning((5, 1, 0)), END), "refused 3 at 4")
    lines.say("A projection by 3, 7, 8, 10, 11, 14, and by 12 for 10.")
    for pivot in (0, 1, 2):
        for rows in subsets([3, 7, 8, 11, 14]):
            x = 0 if 11 in rows else 1
            p = (1 if 7 in rows else 0, x, 4 if 3 in rows else 0)
            made = projecting(p, pivot, 2 if 14 in rows else 0, INFINITY if 8 in rows else 1.0)
            rows = rows + [[], [12], [10]][pivot]
            line = check_line(starting(2), made, END)
            lines.ask(line, refusal_of(rows, 4) if rows else "run 1 1 2 2")
    lines.say("A projection at width 0: 3, 7, 8, then 9 before 10, 11, 12 and 14.")
    for rows in subsets([3, 7, 8, 14]):
        p = (1 if 7 in rows else 0, 1 if 3 in rows else 0, 0)
        made = projecting(p, 0, 2 if 14 in rows else 0, NAN if 8 in rows else 1.0)
        lines.ask(check_line(starting(0), made, END), refusal_of([9, *rows], 4))
    lines.say("A promotion by 8 and 15.")
    for rows in subsets([8, 15]):
        made = promoting(0.6, NAN if 8 in rows else 0.8)
        n = 12 if 15 in rows else 11
        line = check_line(starting(n), made, END)
        lines.ask(line, refusal_of(rows, 4) if rows else "run 12 1 12 0")
    lines.say("A second promotion past 12; one after a projection from 12 is taken.")
    lines.ask(check_line(starting(11), promoting(), promoting(), END), "refused 15 at 23")
    lines.ask(check_line(starting(12), projecting(), (2, promoting()), END), "refused 15 at 53")
    lines.ask(check_line(starting(12), projecting(), promoting(), END), "run 12 2 12 2048")
    lines.say("Masks are held against the width at the step, not at the start.")
    lines.ask(check_line(starting(1), correcting((0, 2, 0)), promoting(), END), "refused 3 at 4")
    lines.ask(check_line(starting(1), promoting(), correcting((0, 2, 0)), END), "run 2 2 2 0")
    lines.ask(check_line(starting(2), projecting(), correcting((0, 2, 0)), END), "refused 3 at 34")
    lines.ask(check_line(starting(1), turning((0, 0, 2)), promoting(), END), "refused 3 at 4")
    lines.ask(check_line(starting(1), promoting(), turning((0, 0, 2)), END), "run 2 2 2 0")
    lines.ask(check_line(starting(2), projecting(), turning((0, 0, 2)), END), "refused 3 at 34")
    lines.ask(check_line(starting(1), projecting(), turning((1, 0, 0)), END), "refused 7 at 34")
    lines.ask(check_line(starting(1), projecting(), projecting(), END), "refused 3 at 34")
    lines.ask(check_line(starting(1), projecting(), projecting(I), END), "refused 9 at 34")
    lines.ask(check_line(starting(2), projecting((0, 3, 0), 1), projecting((0, 1, 0), 1), END), "refused 10 at 34")


def wrong_fields(lines):
    good = {2: rotating(), 3: promoting(), 4: projecting(), 5: correcting(), 7: turning(Z)}
    lines.say("A field wrong in tag, whatever its body.")
    for tag in (0, 8, 9, 128, 255):
        for field_of in good.values():
            text = spelled(starting(2), bytes([tag]) + field_of[1:], END)
            lines.ask(f"check {text}", "refused 14 at 4")
        lines.ask(check_line(starting(2), framed(tag, b''), END), "refused 14 at 4")
    lines.say("A step of another kind's length.")
    for tag in good:
        for other, field_of in good.items():
            if other != tag and {other, tag} != {5, 7}:
                text = spelled(starting(2), bytes([tag]) + field_of[1:], END)
                lines.ask(f"check {text}", "refused 14 at 4")
    lines.say("A correction and a quarter turn have one length: with the other's tag it is the other, and 7 looks at a quarter turn alone.")
    for p, told in ((Y, "run 2 1 2 0"), ((1, 1, 0), "refused 7 at 4"), ((0, 1, 1), "refused 7 at 4")):
        lines.ask(check_line(starting(2), b"\7" + correcting(p)[1:], END), told)
        lines.ask(check_line(starting(2), b"\5" + turning(p)[1:], END), "run 2 1 2 0")
    lines.say("Wrong in length by one, empty, and with 256 bytes more (the length's high byte).")
    for tag, field_of in good.items():
        body = field_of[3:]
        for wrong in (body[:-1], body + b"\0", b"", body + bytes(256)):
            lines.ask(check_line(starting(2), framed(tag, wrong), END), "refused 14 at 4")
    lines.say("The same with a body that other rows would refuse: 14.")
    bad = [rotating((4, 5, 0), 2, NAN), promoting(NAN, 2.0), projecting((4, 0, 0), 9, 9, NAN), correcting((9, 9, 9))]
    bad += [turning((9, 9, 9)), turning((1, 1, 0))]
    for field_of in bad:
        body = field_of[3:]
        for wrong in (body[:-1], body + b"\0"):
            lines.ask(check_line(starting(2), framed(field_of[0], wrong), END), "refused 14 at 4")
        lines.ask(check_line(starting(2), field_of[:-1]), "refused 14 at 4")
    lines.ask(check_line(starting(12), framed(3, bytes(15)), END), "refused 14 at 4")


def wrong_places(lines):
    lines.say("The first field is no start: 14 at 0.")
    for first in (rotating(), promoting(), projecting(), correcting(), turning(), END):
        lines.ask(check_line(first, starting(2), END), "refused 14 at 0")
    for first in (framed(1, b""), framed(1, b"\2\0"), framed(0, b"\2"), framed(6, b"\2"), framed(7, b"\2")):
        lines.ask(check_line(first, END), "refused 14 at 0")
    lines.say("n over 12.")
    for n in (13, 14, 64, 128, 255):
        lines.ask(check_line(starting(n), END), "refused 14 at 0")
    lines.say("A second start, of another width, of a width over 12, at once or later.")
    lines.ask(check_line(starting(2), starting(2), END), "refused 14 at 4")
    lines.ask(check_line(starting(2), starting(13), END), "refused 14 at 4")
    lines.ask(check_line(starting(2), correcting(), starting(1), END), "refused 14 at 24")
    lines.ask(check_line(starting(2), turning(), starting(1), END), "refused 14 at 24")
    lines.say("No end: 14 at the run's length. Nothing at all: 14 at 0.")
    lines.ask(check_line(), "refused 14 at 0")
    lines.ask(check_line(starting(2)), "refused 14 at 4")
    lines.ask(check_line(starting(2), correcting()), "refused 14 at 24")
    lines.ask(check_line(starting(2), turning()), "refused 14 at 24")
    lines.ask(check_line(*EVERY_KIND[:-1]), "refused 14 at 160")
    lines.say("An end with a body; one or two stray bytes; a tag's length cut.")
    lines.ask(check_line(starting(2), framed(6, bytes(1))), "refused 14 at 4")
    lines.ask(check_line(starting(2), framed(6, bytes(1)), END), "refused 14 at 4")
    lines.ask(check_line(starting(2), correcting(), framed(6, bytes(3)), END), "refused 14 at 24")
    strays = (b"\6", b"\5", b"\0", b"\6\0", b"\5\x11", b"\xff\xff", b"\6\1\0", b"\5\x11\0", b"\7", b"\7\x11", b"\7\x11\0")
    for stray in strays:
        lines.ask(check_line(starting(2), correcting(), stray), "refused 14 at 24")
    lines.say("Bytes past the end: 14 at the first of them, whatever they are.")
    for past in (b"\0", b"\6", b"\6\0", END, correcting(), correcting((9, 9, 9)), starting(2) + END, turning(), b"\7"):
        lines.ask(check_line(starting(2), correcting(), END, past), "refused 14 at 27")
    lines.ask(check_line(starting(2), END, END), "refused 14 at 7")


def two_fields(lines):
    """One fault each in two fields: the first in the file, whichever number it has."""
    at_two = [
        (3, rotating((4, 1, 0))), (7, rotating((1, 1, 0))), (8, rotating(X, 0, NAN)), (14, rotating(X, 2)),
        (8, promoting(2.0)), (3, projecting((0, 1, 4))), (7, projecting((1, 1, 0))), (8, projecting(X, 0, 0, NAN)),
        (10, projecting(X, 2)), (11, projecting(I)), (12, projecting(X, 1)), (14, projecting(X, 0, 2)),
        (3, correcting((4, 0, 0))), (14, framed(7, b"")), (14, framed(5, bytes(16))), (14, starting(2)),
        (3, turning((4, 1, 0))), (7, turning((1, 1, 0))),
    ]
    lines.say("Faults in two fields: the first in the file, though the second has a lower number.")
    for row, first in at_two:
        for lower, second in ((3, correcting((4, 0, 0))), (14, framed(0, b""))):
            lines.ask(check_line(starting(2), first, second, END), f"refused {row} at 4")
            lines.ask(check_line(starting(2), second, first, END), f"refused {lower} at 4")
    for lower, second in ((3, correcting((4, 0, 0))), (7, rotating((1, 1, 0))), (14, b"")):
        line = check_line(starting(12), promoting(), second, END)
        lines.ask(line, "refused 15 at 4")
    lines.ask(check_line(starting(13), correcting((4, 0, 0)), END), "refused 14 at 0")
    lines.ask(check_line(starting(2), correcting((4, 0, 0))), "refused 3 at 4")
    lines.ask(check_line(starting(2), correcting((4, 0, 0)), END, END), "refused 3 at 4")
    lines.ask(check_line(starting(0), projecting(I), END), "refused 9 at 4")


def cuts(lines):
    lines.say("Cut at every byte: runs that hold every kind of step.")
    for run in (EVERY_KIND, FROM_NONE, DIAGONAL, TURNS, [starting(12), END]):
        lines.ask(f"cuts {spelled(*run)}")
    lines.ask(f"cuts {spelled(starting(2), END)}", "refused 14 at 0," * 4 + "refused 14 at 4," * 3)
    lines.say("Cut behind a field that is refused: its own refusal from there on.")
    lines.ask(f"cuts {spelled(starting(2), correcting((4, 0, 0)), END)}")
    cut = "refused 14 at 0," * 4 + "refused 14 at 4," * 20
    lines.ask(f"cuts {spelled(starting(2), turning((1, 1, 0)), END)}", cut + "refused 7 at 4," * 3)


def lengths(lines):
    longest = spelled(starting(1), (17, rotating()), (3245, correcting()), END)
    assert length(longest) == LONGEST
    over = spelled(starting(1), (10, rotating()), (3258, correcting()), END)
    assert length(over) == LONGEST + 1
    lines.say("65,536 bytes exactly: taken, run and carried.")
    lines.ask(f"check {longest}", "run 1 3262 1 0")
    state = [1.0, 0.0], [0.0, -0.0]
    lines.ask(run_line(longest, *state))
    for p in (X, Z, Y):
        lines.ask(carry_line(longest, 1, p, LONGEST))
    lines.ask(carry_line(longest, 1, Z, LONGEST + 100))
    lines.ask(carry_line(longest, 1, Z, LONGEST - 1), "refused 16 kept")
    lines.ask(carry_line(longest, 0, I, LONGEST), "refused 4 kept")
    lines.say("One byte more, good fields all: 14 at 0, before any field.")
    lines.ask(f"check {over}", "refused 14 at 0")
    lines.ask(run_line(over, *state), "refused 14 at 0 |" + floats(state[0]) + " |" + floats(state[1]) + " | |")
    lines.ask(carry_line(over, 1, Z, LONGEST + 1), "refused 14 at 0 kept")
    lines.ask(carry_line(over, 300, (9, 9, 9), 0), "refused 14 at 0 kept")
    lines.say("Their fields one by one: taken at 65,536 bytes, 14 at 0 wherever the cursor stands at 65,537.")
    rotation = f"rotation 1 0 0x1 0x0 0 {shown(0.6)} {shown(0.8)} 41 1"
    lines.ask(f"step {longest} 4 1 12", rotation)
    lines.ask(f"step {longest} 65533 1 12", "end 65536 1")
    lines.ask(f"step {longest} 4 13 12", "refused 14 at 4")
    lines.ask(f"field {longest} 65533", "6 65536 []")
    lines.ask(f"start {longest}", "1")
    for at, width in ((4, 1), (4, 13), (5, 1), (65534, 1), (65537, 1), (2**64 - 1, 1)):
        lines.ask(f"step {over} {at} {width} 12", "refused 14 at 0")
    for at in (0, 4, 65534, 65537):
        lines.ask(f"field {over} {at}", "refused 14 at 0 []")
    lines.ask(f"start {over}", "none")
    lines.say("65,536 with a fault at the end, with one in the middle; 65,537 with one.")
    inner = (3244, correcting())
    lines.ask(check_line(starting(1), (17, rotating()), inner, correcting((4, 0, 0)), END), "refused 3 at 65513")
    lines.ask(check_line(starting(1), (17, rotating()), (3245, correcting()), END[:2]), "refused 14 at 65533")
    lines.ask(check_line(starting(1), correcting((4, 0, 0)), (65513, bytes(1))), "refused 14 at 0")
    lines.ask(check_line(starting(1), END, (65529, bytes(1))), "refused 14 at 7")
    lines.ask(check_line(starting(1), END, (65530, bytes(1))), "refused 14 at 0")
    lines.ask(check_line((65536, bytes(1))), "refused 14 at 0")
    turns_at_length(lines)
    lines.say("A field that claims 65,535 bytes.")
    lines.ask(check_line(starting(1), bytes([5, 255, 255]), (65529, bytes(1))), "refused 14 at 4")
    lines.ask(check_line(starting(1), bytes([5, 255, 255]), (17, bytes(1)), END), "refused 14 at 4")


def turns_at_length(lines):
    """Quarter turns of Z up to the last byte: four of them take X to Y, -X, -Y and back to X."""
    state = [1.0, 0.0], [0.0, -0.0]
    turns = lambda count: spelled(starting(1), (count, turning(Z)), END)
    lines.say("Quarter turns alone: 3,276 are 65,527 bytes, the most that there is room for; 3,275 leave -Y of X.")
    lines.ask(f"check {turns(3276)}", "run 1 3276 1 0")
    lines.ask(run_line(turns(3276), *state))
    lines.ask(carry_line(turns(3276), 1, X, 65527), "carried 1 0 0x1 0x0 kept")
    lines.ask(carry_line(turns(3275), 1, X, 65527), "carried 1 3 0x1 0x1 kept")
    lines.ask(carry_line(turns(3276), 1, X, 65526), "refused 16 kept")
    lines.ask(f"check {turns(3277)}", "refused 14 at 0")
    lines.say("65,536 bytes of rotations by X and of quarter turns, 3,245 of them: whole rounds and one more.")
    longest = spelled(starting(1), (17, rotating()), (3245, turning(Z)), END)
    assert length(longest) == LONGEST
    lines.ask(f"check {longest}", "run 1 3262 1 0")
    lines.ask(run_line(longest, *state))
    signs = "".join(f" {4 + 37 * place + 20}:01" for place in range(17))
    for p, end in ((X, "1 0x1 0x1 kept"), (Z, f"0 0x0 0x1{signs} kept"), (Y, f"2 0x1 0x0{signs} kept")):
        lines.ask(carry_line(longest, 1, p, LONGEST), f"carried 1 {end}")
    lines.ask(f"step {longest} 65513 1 12", "quarter-turn 1 0 0x0 0x1 65533 1")
    lines.say("One not Hermitian at the end of 65,536 bytes; one byte more than 65,536.")
    most = (3244, turning(Z))
    lines.ask(check_line(starting(1), (17, rotating()), most, turning((1, 0, 1)), END), "refused 7 at 65513")
    lines.ask(check_line(starting(1), (10, rotating()), (3258, turning(Z)), END), "refused 14 at 0")


def room(lines):
    """Row 13 of running, by one entry; 13 after the run's own rows; tails."""
    grown = [starting(1), promoting(), projecting((0, 3, 0), 1), END]
    text = spelled(*grown)
    re, im = [1.0, 0.5, 7.0, 7.5], [0.25, -0.0, 7.25, 7.75]
    lines.say("Room for the greatest width in re and im, for a mixing projection's output in each scratch.")
    lines.ask(run_line(text, re, im, 2, 2))
    kept = f" |{floats(re)} |{floats(im)}"
    lines.ask(run_line(text, re[:3], im, 2, 2))
    lines.ask(run_line(text, re, im[:3], 2, 2))
    lines.ask(run_line(text, re, im, 1, 2), f"refused 13{kept} |{floats([7.0])} |{floats([7.5, 7.5])}")
    lines.ask(run_line(text, re, im, 2, 1), f"refused 13{kept} |{floats([7.0, 7.0])} |{floats([7.5])}")
    lines.ask(run_line(text, [], []), "refused 13 | | | |")
    lines.say("Longer buffers: what lies past is kept.")
    lines.ask(run_line(text, re + [1.5, NAN, -0.0], im + [2.5], 3, 5))
    lines.say("No scratch is asked for where no projection has an X part; a promotion's room is, though left again.")
    diagonal = spelled(starting(1), promoting(), projecting((0, 0, 3), 1), END)
    lines.ask(run_line(diagonal, re, im))
    lines.ask(run_line(diagonal, re[:3], im), f"refused 13 |{floats(re[:3])} |{floats(im)} | |")
    lines.ask(run_line(diagonal, re, im[:3]), f"refused 13 |{floats(re)} |{floats(im[:3])} | |")
    nothing = spelled(starting(0), END)
    lines.ask(run_line(nothing, [0.5], [-0.5]), f"finished 0 0 |{floats([0.5])} |{floats([-0.5])} | |")
    lines.ask(run_line(nothing, [], [-0.5]), f"refused 13 | |{floats([-0.5])} | |")
    lines.ask(run_line(nothing, [0.5], []), f"refused 13 |{floats([0.5])} | | |")
    mixing = spelled(starting(1), projecting(), END)
    for m, n in ((1, 1), (0, 1), (1, 0)):
        lines.ask(run_line(mixing, [1.0, 2.0], [3.0, 4.0], m, n))
    turned = spelled(starting(1), turning(), END)
    lines.ask(run_line(turned, [1.0], [3.0, 4.0]), f"refused 13 |{floats([1.0])} |{floats([3.0, 4.0])} | |")
    lines.ask(run_line(turned, [1.0, 2.0], [3.0]), f"refused 13 |{floats([1.0, 2.0])} |{floats([3.0])} | |")
    lines.say("The run's own refusal, with its place, before 13. All buffers are kept.")
    for last in (correcting((4, 0, 0)), promoting(NAN), projecting(X, 3), framed(9, b""), b"\6", turning((1, 1, 0))):
        refused_run = spelled(*grown[:-1], last, END)
        lines.ask(run_line(refused_run, re, im, 2, 2))
        lines.ask(run_line(refused_run, [], []))
    lines.ask(run_line(spelled(*grown[:-1]), re, im, 2, 2))
    lines.ask(run_line(spelled(), re, im, 2, 2))
    lines.say("At width 12 there is never room in 16 entries.")
    lines.ask(run_line(spelled(starting(12), END), [1.0] * 16, [0.0] * 16))
    lines.ask(run_line(spelled(starting(13), END), [1.0], []), f"refused 14 at 0 |{floats([1.0])} | | |")


def values(lines):
    """Every kind of step run, on states with zeros of both signs, denormals, infinities, NaN."""
    states = [
        ([1.0, 0.0, 0.0, 0.0], [0.0, 0.0, 0.0, 0.0]),
        ([0.5, -0.0, -0.5, 5e-324], [-0.25, 1.0, -0.0, -5e-324]),
        ([0.1, 0.2, 0.3, 0.7], [-0.3, 0.6, 1e-310, -0.9]),
        ([INFINITY, 1.0, NAN, -0.0], [0.0, -INFINITY, 2.0, 1e308]),
    ]
    steps = [rotating((k, x, z), sign) for k, x, z in ((0, 0, 3), (2, 3, 0), (1, 3, 1), (0, 0, 0)) for sign in (0, 1)]
    measured = [((2, 0, 3), 1), ((0, 2, 1), 1), ((3, 1, 3), 0)]
    steps += [projecting(p, pivot, branch, 1.5) for p, pivot in measured for branch in (0, 1)]
    steps += [correcting((k, 2, 3)) for k in range(4)] + [promoting(0.6, -0.8), promoting(0.0, 1.0)]
    for number_of, (re, im) in enumerate(states):
        lines.say(f"Steps on state {number_of + 1} of {len(states)}, with room for a promotion.")
        for step in steps:
            past = [9.0, 9.5, 9.25, 9.75, 10.0]
            lines.ask(run_line(spelled(starting(2), step, END), re + past, im + past, 3, 2))
    quarter_turns(lines, states)
    lines.say("Every kind in a row.")
    for re, im in states:
        for run in (EVERY_KIND, [starting(2), *EVERY_KIND[1:5], *EVERY_KIND[2:5], END]):
            lines.ask(run_line(spelled(*run), re + [3.0] * 4, im + [4.0] * 4, 4, 4))
    lines.ask(run_line(spelled(*FROM_NONE), [0.5, 1.0], [-0.25, 2.0]))
    lines.ask(run_line(spelled(*TURNS), [0.5, 1.0], [-0.25, 2.0], 1, 1))
    lines.ask(run_line(spelled(*DIAGONAL), [0.5, 1.0, 3.0], [-0.25, 2.0, 4.0], 1))
    lines.say("Seven qubits and back.")
    wide = [rotating((0, 0x55, 0x2A), 1), projecting((1, 0x60, 0x41), 6, 1, 1.25), promoting(), rotating((0, 0, 0x7F))]
    rng = random.Random(7)
    lines.ask(run_line(spelled(starting(7), *wide, END), *random_state(rng, 7), 64, 64))
    turns = [turning((1, 0x55, 0x60)), turning((2, 0, 0x7F)), turning((0, 0x41, 0))]
    lines.ask(run_line(spelled(starting(7), *turns, END), *random_state(rng, 7)))
    lines.say("The scope's examples: X fired on (1, 0); (1, 0) promoted with c 0, q 1.")
    lines.ask(
        run_line(spelled(starting(1), correcting(), END), [1.0, 0.0], [0.0, 0.0]),
        f"finished 1 1 |{floats([0.0, 1.0])} |{floats([0.0, 0.0])} | |",
    )
    lines.ask(
        run_line(spelled(starting(0), promoting(0.0, 1.0), END), [1.0, 7.0], [0.0, 7.0]),
        f"finished 1 1 |{floats([0.0, -0.0])} |{floats([0.0, 1.0])} | |",
    )


def quarter_turns(lines, states):
    """A quarter turn, and beside it the rotation with sign 0 and c and s both h: the same answer."""
    h = model.H
    paulis = [(0, 0, 3), (2, 0, 3), (0, 2, 0), (2, 3, 0), (1, 3, 1), (3, 1, 3), (2, 3, 3), (2, 0, 0)]
    for place, some in ((1, paulis[::2]), (2, paulis[1::2]), (3, paulis[1:6])):
        re, im = states[place]
        lines.say(f"Quarter turns on state {place + 1} of {len(states)}, each beside the rotation that it is.")
        for p in some:
            past = [9.0, 9.5]
            turned, rotated = (
                run_line(spelled(starting(2), step, END), re + past, im + past[:1], 1, 2)
                for step in (turning(p), rotating(p, 0, h, h))
            )
            lines.ask(turned)
            lines.ask(rotated, answer(turned))
    lines.say("Z, X and Y on (1, 0), -Y on it, and X twice; on no qubit, with either sign. By hand.")
    told = lambda count, re, im: f"finished 1 {count} |{floats(re)} |{floats(im)} | |"
    for p, re, im in (
        (Z, [h, 0.0], [-h, 0.0]),
        (X, [h, 0.0], [0.0, -h]),
        (Y, [h, h], [0.0, 0.0]),
        ((3, 1, 1), [h, -h], [0.0, 0.0]),
    ):
        lines.ask(run_line(spelled(starting(1), turning(p), END), [1.0, 0.0], [0.0, 0.0]), told(1, re, im))
    twice = [h * h - h * h, 0.0], [0.0, -(h * h) - h * h]
    lines.ask(run_line(spelled(starting(1), (2, turning()), END), [1.0, 0.0], [0.0, 0.0]), told(2, *twice))
    for k, im in ((0, -h), (2, h)):
        line = run_line(spelled(starting(0), turning((k, 0, 0)), END), [1.0], [0.0])
        lines.ask(line, f"finished 0 1 |{floats([h])} |{floats([im])} | |")
    lines.say("The run of the README, with a quarter turn for its rotation.")
    bell = [h, -0.0, 0.0, -0.0], [0.0, -0.0, 0.0, h]
    line = run_line(spelled(starting(2), turning((0, 3, 0)), correcting(Z), END), [1.0, 0.0, 0.0, 0.0], [0.0] * 4)
    lines.ask(line, f"finished 2 2 |{floats(bell[0])} |{floats(bell[1])} | |")


def carrying(lines):
    every = spelled(*EVERY_KIND)
    size = length(every)
    lines.say("Carrying: the run's own refusal first, then 3 and 4 of the Pauli, then 16. The output is kept.")
    bad = spelled(starting(2), correcting((4, 0, 0)), END)
    for p, width in (((4, 0, 0), 300), (I, 3), (I, 2)):
        lines.ask(carry_line(bad, width, p, 10), "refused 3 at 4 kept")
        lines.ask(carry_line(spelled(starting(2)), width, p, 10), "refused 14 at 4 kept")
        lines.ask(carry_line(spelled(starting(12), promoting(), END), width, p, 0), "refused 15 at 4 kept")
    good = spelled(starting(2), END)
    none = [(2, p) for p in ((4, 0, 0), (255, 0, 0), (0, 4, 0), (0, 0, 4))]
    none += [(257, I), (2**64 - 1, I), (3, (4, 0, 0)), (1, (0, 2, 0))]
    for out in (10, 0):
        for width, p in none:
            lines.ask(carry_line(good, width, p, out), "refused 3 kept")
        for width in (0, 1, 3, 12, 13, 64, 256):
            lines.ask(carry_line(good, width, I, out), "refused 4 kept")
    lines.ask(carry_line(good, 64, (3, 2**64 - 1, 2**64 - 1), 10), "refused 4 kept")
    for out in (0, 1, 6):
        lines.ask(carry_line(good, 2, I, out), "refused 16 kept")
    lines.ask(carry_line(good, 2, I, 7), "carried 2 0 0x0 0x0 kept")
    lines.ask(carry_line(every, 2, Z, size - 1), "refused 16 kept")
    lines.say("What lies past the run is kept.")
    for out in (size, size + 1, size + 50, 300):
        lines.ask(carry_line(every, 2, (3, 3, 2), out))
    lines.say("Each Pauli past each kind of step, on one qubit: rotations by X, Y, Z with either sign.")
    paulis = [("I", I), ("X", X), ("Y", Y), ("Z", Z)]
    for _, q in paulis:
        for _, p in paulis:
            for sign in (0, 1):
                lines.ask(carry_line(spelled(starting(1), rotating(p, sign), END), 1, q, 44))
    lines.say("Projections of X, Y, Z and their negatives, either branch.")
    for _, (k, x, z) in paulis:
        for _, (m, mx, mz) in paulis[1:]:
            for minus in (0, 2):
                for branch in (0, 1):
                    measured = ((m + minus) % 4, mx, mz)
                    text = spelled(starting(1), projecting(measured, 0, branch), END)
                    lines.ask(carry_line(text, 1, (k, x, z), 37))
    lines.say("Corrections, whatever their phase; promotions.")
    for _, q in paulis:
        for _, (k, x, z) in paulis:
            for phase in (0, 1):
                text = spelled(starting(1), correcting(((k + phase) % 4, x, z)), END)
                lines.ask(carry_line(text, 1, q, 27))
        lines.ask(carry_line(spelled(starting(1), promoting(), END), 1, q, 26))
    carrying_turns(lines)
    lines.say("Dropping the pivot of two and three qubits: lowest, middle, highest.")
    for pivot in range(3):
        for q in ((1, 7, 5), (2, 5, 7), (0, 2, 5), (3, 5, 2), (0, 7, 0), (0, 0, 7)):
            for p in ((0, 7, 0), (0, 0, 7), (1, 7, 2), (3, 7, 1)):
                text = spelled(starting(3), projecting(p, pivot, 1), END)
                lines.ask(carry_line(text, 3, q, 37))
    lines.say("Every kind, every Pauli of two qubits.")
    for x in range(4):
        for z in range(4):
            lines.ask(carry_line(every, 2, ((x + z) % 4, x, z), size))
    lines.say("Width 12, the top qubit.")
    top = 1 << 11
    text = spelled(starting(12), rotating((0, top, 1)), projecting((0, top, 1), 11, 1), promoting(), END)
    for q in ((0, 0, top), (2, top, 0), (1, 4095, 4095), (3, 0, 4095)):
        lines.ask(carry_line(text, 12, q, 100))
    text = spelled(starting(12), turning((0, top, 1)), turning((0, 0, top)), END)
    ends = [((0, 0, top), "0 0x800 0x1"), ((0, top, 0), "1 0x800 0x800"), ((2, 0, 1), "2 0x0 0x1"), ((0, 1, 0), "2 0x801 0x801")]
    for q, end in ends:
        lines.ask(carry_line(text, 12, q, 100), f"carried 12 {end} kept")
    lines.say("The scope's examples: X past a Z rotation; Z, X, Y past an X projection.")
    examples = [
        (rotating(Z, 0), X, "carried 1 0 0x1 0x0 24:01 kept"),
        (projecting(X, 0, 0), Z, "carried 0 0 0x0 0x0 25:01 kept"),
        (projecting(X, 0, 1), X, "carried 0 2 0x0 0x0 kept"),
        (projecting(X, 0, 0), Y, "carried 0 1 0x0 0x0 25:01 kept"),
    ]
    for step, q, told in examples:
        lines.ask(carry_line(spelled(starting(1), step, END), 1, q, 44), told)


# What a quarter turn of P makes of Q where the two anticommute, -i P·Q, by the book's Z·X = i Y, X·Y = i Z, Y·Z = i X.
TURNED = {
    ("Z", "X"): "Y", ("Z", "Y"): "-X",
    ("X", "Y"): "Z", ("X", "Z"): "-Y",
    ("Y", "Z"): "X", ("Y", "X"): "-Z",
}
LETTERS = {"I": I, "X": X, "Y": Y, "Z": Z}


def negative(name):
    return name[1:] if name.startswith("-") else "-" + name


def pauli_named(name):
    """A letter, or its negative: a phase of 2 more."""
    k, x, z = LETTERS[name[-1]]
    return (k + 2) % 4 if name[0] == "-" else k, x, z


def carrying_turns(lines):
    told = lambda n, k, x, z: f"carried {n} {k} {x:#x} {z:#x} kept"
    lines.say("Quarter turns of I, X, Y, Z and of their negatives: the field stays, the Pauli turns.")
    for name in ("I", "X", "Y", "Z"):
        for minus in (False, True):
            text = spelled(starting(1), turning(pauli_named("-" * minus + name)), END)
            for q in ("I", "X", "Y", "Z"):
                end = TURNED.get((name, q))
                end = q if end is None else negative(end) if minus else end
                lines.ask(carry_line(text, 1, pauli_named(q), 27), told(1, *pauli_named(end)))
    lines.say("A phase of the Pauli stays in front; what lies past the run is kept, and a short output.")
    text = spelled(starting(1), turning(Z), END)
    for k in range(1, 4):
        lines.ask(carry_line(text, 1, (k, 1, 0), 27 + k), told(1, (k + 1) % 4, 1, 1))
        lines.ask(carry_line(text, 1, (k, 0, 1), 27), told(1, k, 0, 1))
    lines.ask(carry_line(text, 1, X, 26), "refused 16 kept")
    lines.ask(carry_line(spelled(starting(1), turning((0, 1, 1)), END), 1, X, 27), "refused 7 at 4 kept")
    lines.say("On no qubit: the Pauli stays.")
    for k in range(4):
        for minus in (0, 2):
            lines.ask(carry_line(spelled(starting(0), turning((minus, 0, 0)), END), 0, (k, 0, 0), 27), told(0, k, 0, 0))
    lines.say("In a row: X past Z, Z; past Z four times; past Z, X; past Z and -Z; Z past X, Y.")
    minus_z = (2, 0, 1)
    for q, turns, end in (
        (X, [Z, Z], (2, 1, 0)), (X, [Z] * 4, X), (X, [Z, X], Z), (X, [Z, minus_z], X), (Z, [X, Y], (3, 1, 1)),
    ):
        text = spelled(starting(1), *map(turning, turns), END)
        lines.ask(carry_line(text, 1, q, 100), told(1, *end))
    lines.say("Before the other kinds: what is carried past them is Y, which X became; and behind them.")
    first = [starting(1), turning(Z)]
    behind = [
        ([*first, rotating(X)], X, "1 1 0x1 0x1 44:01"),
        ([*first, rotating(Y)], X, "1 1 0x1 0x1"),
        ([*first, correcting(X)], X, "1 3 0x1 0x1"),
        ([*first, promoting()], X, "2 1 0x1 0x1"),
        ([*first, projecting(X)], X, "0 1 0x0 0x0 45:01"),
        ([*first, projecting(Y)], X, "0 0 0x0 0x0"),
        ([*first, projecting(Z)], X, "0 3 0x0 0x0 45:01"),
        ([starting(1), rotating(Z), turning(Z)], X, "1 1 0x1 0x1 24:01"),
        ([starting(1), correcting(Z), turning(Z)], X, "1 3 0x1 0x1"),
        ([starting(0), promoting(), turning((0, 1, 0))], (3, 0, 0), "1 3 0x0 0x0"),
        ([starting(2), projecting((0, 0, 1)), turning(Z)], (0, 2, 0), "1 1 0x1 0x1"),
    ]
    for run, q, end in behind:
        n = run[0][3]
        lines.ask(carry_line(spelled(*run, END), n, q, 100), f"carried {end} kept")
    lines.say("Two qubits: ZZ past XI is -YZ, past XX it stays; XX past ZI is YX; XI past -ZZ is -YZ; ZI past YY is XY; YX past ZZ stays.")
    for q, p, end in (
        ((0, 0, 3), (0, 1, 0), (3, 1, 3)),
        ((0, 0, 3), (0, 3, 0), (0, 0, 3)),
        ((0, 3, 0), (0, 0, 1), (1, 3, 1)),
        ((0, 1, 0), (2, 0, 3), (3, 1, 3)),
        ((0, 0, 1), (2, 3, 3), (1, 3, 2)),
        ((1, 3, 1), (0, 0, 3), (1, 3, 1)),
    ):
        lines.ask(carry_line(spelled(starting(2), turning(p), END), 2, q, 27), told(2, *end))


def passes(lines):
    lines.say("A Pauli past one step: 01's X past a Z rotation; Z, X, Y past an X projection; X past a Z correction.")
    one = (1, *X)
    lines.ask(pass_line(one, 2, (1, *Z)), f"rotation 1 0 0x0 0x1 1 {shown(0.6)} {shown(0.8)} 1 0 0x1 0x0")
    for q, branch, phase in ((Z, 0, 0), (X, 1, 2), (Y, 0, 1)):
        told = f"projection 1 0 0x1 0x0 0 1 {shown(1.0)} 0 {phase} 0x0 0x0"
        lines.ask(pass_line((1, *q), 4, one, branch, 0, (1.0, 0.0)), told)
    lines.ask(pass_line(one, 5, (1, *Z)), "correction 1 0 0x0 0x1 1 2 0x1 0x0")
    lines.ask(pass_line((1, *Y), 3), f"promotion {shown(0.6)} {shown(0.8)} 2 1 0x1 0x1")
    lines.say("X past a quarter turn of Z is Y, Y is -X, Z stays. A flag, a pivot and floats, which it does not have, are not looked at.")
    for q, end in ((X, "1 0x1 0x1"), (Y, "2 0x1 0x0"), (Z, "0 0x0 0x1")):
        for rest in ((), (1, 300, (NAN, INFINITY))):
            lines.ask(pass_line((1, *q), 7, (1, *Z), *rest), f"quarter-turn 1 0 0x0 0x1 1 {end}")
    lines.say("Each Pauli of one qubit and each phase past each kind of step, with either flag.")
    for place in range(16):
        q = (1, place % 4, place >> 2 & 1, place >> 3)
        for p in (I, X, Y, Z):
            for tag, flag in ((2, 0), (2, 1), (4, 0), (4, 1), (5, 0)):
                lines.ask(pass_line(q, tag, (1, *p), flag))
        lines.ask(pass_line(q, 3))
    lines.say("The same past quarter turns, of a P that is Hermitian where Q's phase is 0 or 1, and else is not: nobody asks here.")
    for place in range(16):
        q = (1, place % 4, place >> 2 & 1, place >> 3)
        for k, x, z in (I, X, Y, Z):
            lines.ask(pass_line(q, 7, (1, (k + q[1] // 2) % 4, x, z)))
    lines.say("No Pauli: the one that is carried, the step's, both. 3 before 4 and 10.")
    none = [(2, *p) for p in ((4, 0, 0), (255, 0, 0), (0, 4, 0), (0, 0, 4), (0, 1 << 63, 0))]
    none += [(257, *I), (2**64 - 1, *I), (0, 0, 0, 1), (63, 0, 1 << 63, 0)]
    for bad in none:
        for tag in (2, 4, 5):
            for other in ((2, *I), bad):
                lines.ask(pass_line(bad, tag, other, 0, 300), "refused 3")
                lines.ask(pass_line(other, tag, bad, 0, 300), "refused 3")
        lines.ask(pass_line(bad, 3), "refused 3")
        lines.ask(pass_line(bad, 7, (2, *I)), "refused 3")
        lines.ask(pass_line((2, *I), 7, bad), "refused 3")
    lines.say("On other qubits: 4, before 10.")
    for a, b in ((0, 1), (1, 0), (2, 3), (64, 65), (256, 255)):
        for tag in (2, 4, 5):
            for pivot in (0, 300):
                lines.ask(pass_line((a, *I), tag, (b, *I), 0, pivot), "refused 4")
        lines.ask(pass_line((a, *I), 7, (b, *I)), "refused 4")
    lines.say("A pivot at the width and past it, and the highest that there is: 10 from the width on, at no qubit too.")
    for n in (0, 1, 2, 64, 65, 256):
        for pivot in (n, n + 1, 300, 2**64 - 1):
            lines.ask(pass_line((n, *I), 4, (n, *I), 1, pivot), "refused 10")
        if n:
            top = (1 << n - 1) % 2**64
            for q, p in (((0, top, 0), (0, 0, top)), ((3, 0, top), (0, top, 0)), ((1, top, top), (0, 0, 0))):
                lines.ask(pass_line((n, *q), 4, (n, *p), 0, n - 1))
    lines.say("A promotion up to 256 qubits; there is no Pauli on 257.")
    for n in (0, 1, 63, 64, 254, 255):
        lines.ask(pass_line((n, 3, 0, 0), 3), f"promotion {shown(0.6)} {shown(0.8)} {n + 1} 3 0x0 0x0")
    for n in (256, 257, 2**64 - 1):
        lines.ask(pass_line((n, 3, 0, 0), 3), "refused 3")
    lines.say("On no qubit; all 64 bits of both masks; a pivot past the masks.")
    for k in range(4):
        lines.ask(pass_line((0, k, 0, 0), 2, (0, 2, 0, 0), 1))
        lines.ask(pass_line((0, k, 0, 0), 5, (0, 1, 0, 0)), f"correction 0 1 0x0 0x0 0 {k} 0x0 0x0")
    full = 2**64 - 1
    for n in (64, 65, 256):
        for x, z in ((full, full), (full, 0), (0, full), (full - 1, 1), (1 << 63, 1)):
            for tag in (2, 4, 5):
                lines.ask(pass_line((n, 1, x, z), tag, (n, 0, z, full), 1, 63))
    for pivot in (64, 100, 255):
        lines.ask(pass_line((256, 1, full, full), 4, (256, 0, full, 0), 1, pivot))
    passes_of_turns(lines)
    lines.say("Steps that no run has: their own kernels' rows are not looked at.")
    lines.ask(pass_line(one, 2, (1, 1, 0, 1), 0, 0, (NAN, INFINITY)))
    lines.ask(pass_line(one, 4, (1, 1, 1, 0), 0, 0, (NAN, 0.0)))
    lines.ask(pass_line((2, 0, 3, 3), 4, (2, 0, 1, 0), 1, 1, (INFINITY, 0.0)))
    lines.ask(pass_line((62, 0, 1, 0), 5, (62, 0, 0, 1)), "correction 62 0 0x0 0x1 62 2 0x1 0x0")


def passes_of_turns(lines):
    """A quarter turn at the widths where a mask's word ends, and of Paulis that no rotation takes."""
    lines.say("A quarter turn of Z on the top qubit of a word or below: X there becomes Y, Z stays. On no qubit all stays.")
    for n in (1, 63, 64, 65, 256):
        top = 1 << min(n, 64) - 1
        turned = f"quarter-turn {n} 0 0x0 {top:#x} {n}"
        lines.ask(pass_line((n, 0, top, 0), 7, (n, 0, 0, top)), f"{turned} 1 {top:#x} {top:#x}")
        lines.ask(pass_line((n, 3, 0, top), 7, (n, 0, 0, top)), f"{turned} 3 0x0 {top:#x}")
    for k in range(4):
        lines.ask(pass_line((0, k, 0, 0), 7, (0, k ^ 2, 0, 0)), f"quarter-turn 0 {k ^ 2} 0x0 0x0 0 {k} 0x0 0x0")
    lines.say("X on 63 qubits past Z on them, an odd number: -Y on all. On 64, an even one: kept.")
    odd, even = 2**63 - 1, 2**64 - 1
    for n in (64, 256):
        lines.ask(pass_line((n, 0, odd, 0), 7, (n, 0, 0, odd)), f"quarter-turn {n} 0 0x0 {odd:#x} {n} 1 {odd:#x} {odd:#x}")
        lines.ask(pass_line((n, 0, even, 0), 7, (n, 0, 0, even)), f"quarter-turn {n} 0 0x0 {even:#x} {n} 0 {even:#x} 0x0")
    lines.say("Not Hermitian: X past a quarter turn of i Z and of -i Z, which no run has. On 62 qubits, which none has either.")
    for k in (1, 3):
        lines.ask(pass_line((1, *X), 7, (1, k, 0, 1)), f"quarter-turn 1 {k} 0x0 0x1 1 {(k + 1) % 4} 0x1 0x1")
    lines.ask(pass_line((62, 0, 1, 0), 7, (62, 0, 0, 1)), "quarter-turn 62 0 0x0 0x1 62 1 0x1 0x1")


def emulated(lines):
    """The emulator of 64 amplitudes: its limit and its rows, beside the service's answer to the same run."""
    emulated_starts(lines)
    emulated_promotions(lines)
    emulated_order(lines)
    emulated_steps(lines)
    emulated_runs(lines)
    emulated_carrying(lines)
    emulated_room(lines)
    emulated_unread(lines)
    emulated_both(lines)


def beside(lines, pieces, service, emulator):
    """The check of a run by the service and by the emulator."""
    line = check_line(*pieces)
    lines.ask(line, service)
    lines.ask(on_emulator(line), emulator)


def alone(lines, pieces, told):
    """The check of a run by the emulator, where the service's answer is the same, or stands further up."""
    lines.ask(on_emulator(check_line(*pieces)), told)


def kept_by(row, parts, m=0, n=0):
    """A run refused by that row: all buffers as they were lent."""
    return f"refused {row}" + "".join(f" |{floats(part)}" for part in (*parts, [7.0] * m, [7.5] * n))


def emulated_starts(lines):
    lines.say("The emulator has 64 amplitudes, the service 4,096. Starts on the service, then on the emulator: 21 over 6.")
    for n in (0, 5, 6, 7, 11, 12, 13, 254, 255):
        taken = f"run {n} 0 {n} 0"
        beside(lines, [starting(n), END], taken if n <= 12 else "refused 14 at 0", taken if n <= 6 else "refused 21 at 0")
    lines.say("No start field is 14 at 0 on the emulator too, whatever stands where a width would: tag, length, cut, nothing.")
    for first in (framed(0, b"\7"), framed(2, b"\7"), framed(6, b"\xff"), framed(1, b""), framed(1, b"\7\7"), framed(1, b"\xff\0")):
        alone(lines, [first, END], "refused 14 at 0")
    for cut in range(4):
        alone(lines, [starting(7)[:cut]], "refused 14 at 0")
    lines.say("A start over 6 in 65,536 bytes and in one more.")
    alone(lines, [starting(7), END, (65529, bytes(1))], "refused 21 at 0")
    alone(lines, [starting(7), END, (65530, bytes(1))], "refused 14 at 0")
    lines.say("A start over 6 is refused before what stands behind it.")
    beside(lines, [starting(7)], "refused 14 at 4", "refused 21 at 0")
    beside(lines, [starting(12), correcting((4, 0, 0)), END], "refused 3 at 4", "refused 21 at 0")
    beside(lines, [starting(12), promoting(), END], "refused 15 at 4", "refused 21 at 0")


def emulated_promotions(lines):
    lines.say("A promotion at 5, and at 6: 21 in 15's place.")
    beside(lines, [starting(5), promoting(), END], "run 6 1 6 0", "run 6 1 6 0")
    beside(lines, [starting(6), promoting(), END], "run 7 1 7 0", "refused 21 at 4")
    lines.say("8 before it: c or q a NaN or over 1, at 5 and at 6.")
    alone(lines, [starting(5), promoting(NAN), END], "refused 8 at 4")
    beside(lines, [starting(6), promoting(NAN), END], "refused 8 at 4", "refused 8 at 4")
    for c, q in ((0.6, NAN), (ABOVE_ONE, 0.8), (0.6, -2.0)):
        alone(lines, [starting(6), promoting(c, q), END], "refused 8 at 4")
    lines.say("At 6 behind other steps, twice, by promotions alone, left and reached again.")
    steps = [turning((1, 16, 16)), promoting(), correcting((3, 32, 1)), promoting()]
    beside(lines, [starting(5), *steps, END], "run 7 4 7 0", "refused 21 at 63")
    alone(lines, [starting(5), *steps[:-1], END], "run 6 3 6 0")
    beside(lines, [starting(6), (2, promoting()), END], "run 8 2 8 0", "refused 21 at 4")
    alone(lines, [starting(0), (6, promoting()), END], "run 6 6 6 0")
    beside(lines, [starting(0), (7, promoting()), END], "run 7 7 7 0", "refused 21 at 118")
    alone(lines, [starting(6), projecting(), promoting(), END], "run 6 2 6 32")
    beside(lines, [starting(6), projecting(), (2, promoting()), END], "run 7 3 7 32", "refused 21 at 53")
    lines.say("What stands behind a promotion at 6, at a width of 7, is never reached.")
    beside(lines, [starting(6), promoting(), projecting((0, 64, 0), 6), END], "run 6 2 7 64", "refused 21 at 4")
    beside(lines, [starting(6), promoting(), projecting((4, 0, 0)), END], "refused 3 at 23", "refused 21 at 4")


def emulated_order(lines):
    lines.say("21 before what is wrong behind it: 14 of a field, of a missing end, of bytes past the end.")
    beside(lines, [starting(6), promoting(), framed(0, b""), END], "refused 14 at 23", "refused 21 at 4")
    beside(lines, [starting(6), promoting()], "refused 14 at 23", "refused 21 at 4")
    beside(lines, [starting(6), promoting(), END, END], "refused 14 at 26", "refused 21 at 4")
    lines.say("What is wrong before it goes before it: 14, 7, 3, each in a field of its own; a promotion that is cut or too short.")
    for row, first in ((14, framed(0, b"")), (7, rotating((1, 1, 0)))):
        beside(lines, [starting(6), first, promoting(), END], f"refused {row} at 4", f"refused {row} at 4")
    for row, first in ((14, rotating(X, 2)), (3, correcting((0, 64, 0)))):
        alone(lines, [starting(6), first, promoting(), END], f"refused {row} at 4")
    alone(lines, [starting(6), promoting()[:-1]], "refused 14 at 4")
    alone(lines, [starting(6), framed(3, bytes(15)), END], "refused 14 at 4")
    alone(lines, [starting(6), promoting(), (65514, bytes(1))], "refused 14 at 0")


def emulated_steps(lines):
    lines.say("A promotion read at a cursor of 5, 6, 7, 12, 13 qubits by the emulator, and by the service under a limit of 6.")
    text = spelled(starting(5), promoting(), promoting(NAN), correcting(), END)
    taken = f"promotion {shown(0.6)} {shown(0.8)} 23 6"
    for width, told in ((5, taken), (6, "refused 15 at 4"), (7, "refused 14 at 4")):
        lines.ask(f"step {text} 4 {width} 6", told)
    for width, told in ((5, taken), (6, "refused 21 at 4"), (7, None), (12, None), (13, None)):
        lines.ask(f"emulated-step {text} 4 {width}", told or "refused 14 at 4")
    lines.say("One with a NaN at 6 and at 7; a correction and the end at 6 and at 7; a start field.")
    for at, width, told in (
        (23, 6, "refused 8 at 23"),
        (23, 7, "refused 14 at 23"),
        (42, 6, "correction 6 0 0x1 0x0 62 6"),
        (42, 7, "refused 14 at 42"),
        (62, 6, "end 65 6"),
        (62, 7, "refused 14 at 62"),
        (0, 7, "refused 14 at 0"),
    ):
        lines.ask(f"emulated-step {text} {at} {width}", told)


def emulated_runs(lines):
    """Both callers on the same buffers."""
    re, im = random_state(random.Random(8), 6)

    def both(pieces, parts, m=0, n=0):
        line = run_line(spelled(*pieces), *parts, m, n)
        lines.ask(line)
        lines.ask(on_emulator(line), answer(line))

    lines.say("Run by both: six qubits in 64 entries, the same answer; 13 in 63 of re or of im.")
    six = [starting(6), rotating((1, 33, 32)), turning((0, 32, 1)), correcting((3, 9, 18)), END]
    both(six, (re, im))
    for parts in ((re[:63], im), (re, im[:63])):
        lines.ask(on_emulator(run_line(spelled(*six), *parts)), kept_by(13, parts))
    lines.say("A promotion from 5 to 6; a mixing projection from 6 to 5 with 32 entries of each scratch, and with 31 of one.")
    both([starting(5), promoting(), END], (re, im))
    mixed = [starting(6), projecting((0, 32, 1), 5, 1, 1.25), END]
    both(mixed, (re, im), 32, 32)
    for m, n in ((31, 32), (32, 31)):
        lines.ask(on_emulator(run_line(spelled(*mixed), re, im, m, n)), kept_by(13, (re, im), m, n))
    lines.say("21 before 13, all buffers kept; on the service 13 alone. Few qubits in few entries, on both.")
    some = [1.0, NAN, -0.0], [0.5, INFINITY]
    for pieces, at in (([starting(7), END], 0), ([starting(6), promoting(), END], 4)):
        line = run_line(spelled(*pieces), *some, 1, 2)
        lines.ask(line, kept_by(13, some, 1, 2))
        lines.ask(on_emulator(line), kept_by(f"21 at {at}", some, 1, 2))
    both([starting(1), projecting(Y), END], some, 1, 1)


def emulated_carrying(lines):
    lines.say("Carried by both: the same. Z on the top qubit of six past its X, which is measured; every kind of step.")
    top = spelled(starting(6), rotating((0, 32, 1)), projecting((0, 32, 1), 5, 1), promoting(), END)
    every = spelled(*EVERY_KIND)
    line = carry_line(top, 6, (0, 0, 32), 100)
    for asked in (line, on_emulator(line)):
        lines.ask(asked, "carried 6 0 0x0 0x0 24:01 62:00 kept")
    line = carry_line(every, 2, (3, 3, 2), length(every))
    lines.ask(on_emulator(line), answer(line))
    for width, p, out, row in ((6, (0, 0, 64), 100, 3), (5, I, 100, 4), (6, I, length(top) - 1, 16)):
        lines.ask(on_emulator(carry_line(top, width, p, out)), f"refused {row} kept")
    lines.say("Refused by 21, before 3, 4 and 16 of the Pauli and the output, which is kept.")
    seven = spelled(starting(6), promoting(), END)
    lines.ask(carry_line(seven, 6, X, 26), "carried 7 0 0x1 0x0 kept")
    for width, p, out in ((6, X, 26), (6, (4, 0, 0), 26), (7, I, 0)):
        lines.ask(on_emulator(carry_line(seven, width, p, out)), "refused 21 at 4 kept")
    lines.ask(on_emulator(carry_line(spelled(starting(7), END), 7, I, 7)), "refused 21 at 0 kept")
    lines.ask(on_emulator(carry_line(spelled(framed(1, b"\7\7"), END), 7, I, 9)), "refused 14 at 0 kept")


def emulated_room(lines):
    """Six qubits reached by promotions: 64 entries of re and of im, by hand."""
    lines.say("A promotion from 5 to 6 on the emulator: 13 in 63 entries of re or of im; in 64 of both the halves of the new qubit.")
    re, im = random_state(random.Random(9), 6)
    grown = spelled(starting(5), promoting(0.5, -1.0), END)
    low = [[0.5 * x for x in part[:32]] for part in (re, im)]
    high = im[:32], [-x for x in re[:32]]
    for parts in ((re[:63], im), (re, im[:63])):
        lines.ask(on_emulator(run_line(grown, *parts)), kept_by(13, parts))
    lines.ask(
        on_emulator(run_line(grown, re, im)),
        f"finished 6 1 |{floats(low[0] + high[0])} |{floats(low[1] + high[1])} | |",
    )
    lines.say("Six promotions from no qubit with c 1/2, q 1: i for each one of a basis, 1/2 for each zero.")
    six = spelled(starting(0), (6, promoting(0.5, 1.0)), END)
    for parts in ((re[:63], im), (re, im[:63])):
        lines.ask(on_emulator(run_line(six, *parts)), kept_by(13, parts))
    r, i = 0.75, -0.625
    turned = [(r, i), (-i, r), (-r, -i), (i, -r)]
    grown_re, grown_im = (
        [turned[ones % 4][part] / 2 ** (6 - ones) for ones in (bin(b).count("1") for b in range(64))] for part in (0, 1)
    )
    lines.ask(
        on_emulator(run_line(six, [r, *re[1:]], [i, *im[1:]])),
        f"finished 6 6 |{floats(grown_re)} |{floats(grown_im)} | |",
    )


def emulated_unread(lines):
    """Runs of which no step is read."""
    lines.say("Starts at 12, 13 and 255 run and carried by the emulator: 21 at 0, buffers and output kept.")
    some = [1.0, NAN, -0.0], [0.5, INFINITY]
    for n in (12, 13, 255):
        text = spelled(starting(n), correcting(), END)
        lines.ask(on_emulator(run_line(text, *some, 1, 2)), kept_by("21 at 0", some, 1, 2))
        lines.ask(on_emulator(carry_line(text, n, X, 30)), "refused 21 at 0 kept")
    lines.say("65,537 bytes run and carried by the emulator, from 1 and from 7 qubits: 14 at 0, all kept.")
    for n in (1, 7):
        over = spelled(starting(n), (10, rotating()), (3258, correcting()), END)
        assert length(over) == LONGEST + 1
        lines.ask(on_emulator(run_line(over, *some, 2, 1)), kept_by("14 at 0", some, 2, 1))
        lines.ask(on_emulator(carry_line(over, n, Z, LONGEST + 1)), "refused 14 at 0 kept")


def alike(re, im, verdict="same"):
    """The same number on both sides, signs of zeros too."""
    return " | ".join([f"{b}{floats([*parts, *parts])}" for b, parts in enumerate(zip(re, im))] + [verdict])


def emulated_both(lines):
    """Demand 3's two sides by the emulator's carrying and running."""

    def as_service(line, verdict="same"):
        assert answer(line).endswith(f" {verdict}")
        lines.ask(on_emulator(line), answer(line))

    lines.say("Both ways of demand 3 on the emulator: X past nothing and past Z fired, by hand; every kind of step, as on the service.")
    one = [0.5, -0.75], [0.25, -0.0]
    two = [0.1, 0.2, 0.3, 0.7], [-0.3, 0.6, 1e-310, -0.9]
    line = on_emulator(both_line(spelled(starting(1), END), 1, X, *one))
    lines.ask(line, alike([-0.75, 0.5], [-0.0, 0.25]))
    line = on_emulator(both_line(spelled(starting(1), correcting(Z), END), 1, X, *one))
    lines.ask(line, alike([-0.75, -0.5], [-0.0, -0.25]))
    as_service(both_line(spelled(*TURNS), 0, (3, 0, 0), [0.5], [-0.25]))
    as_service(both_line(spelled(*DIAGONAL), 1, Y, *one))
    as_service(both_line(spelled(*EVERY_KIND), 2, (3, 3, 2), *two))
    lines.say("Six qubits from the start. Z on qubit 0 from 5 to 6, and back to 5 by X on qubits 0 and 5, which it flips: by hand.")
    wide = random_state(random.Random(10), 6)
    steps = [rotating((1, 33, 32)), turning((0, 32, 1)), correcting((3, 9, 18))]
    as_service(both_line(spelled(starting(6), *steps, END), 6, (2, 32, 17), *wide))
    h, five = model.H, range(32)
    re, im = [(b + 1) / 64 for b in five], [-(b + 40) / 64 for b in five]
    back = spelled(starting(5), promoting(0.5, 0.5), projecting((0, 33, 0), 5, 0, 2.0), END)
    line = on_emulator(both_line(back, 5, Z, re, im))
    # Half of b and i times half of its partner, which is b xor 1 on the new qubit; Z takes odd b to its negative.
    mixed = [(h * re[b] + h * im[b ^ 1], h * im[b] - h * re[b ^ 1]) for b in five]
    lines.ask(line, alike(*([(-1) ** b * parts[part] for b, parts in enumerate(mixed)] for part in (0, 1))))
    lines.say("Y on qubit 0, which is the pivot, from 5 to 6 to 5 and to 6 again, as on the service.")
    again = [promoting(), projecting((0, 33, 0), 0, 1, 1.25), rotating((0, 16, 1)), promoting(-0.8, 0.6)]
    as_service(both_line(spelled(starting(5), *again, END), 5, Y, *(part[:32] for part in wide)))
    lines.say("Refused by 21, at the start and at a promotion at 6, before 3 of the Pauli; 3 and 4 of the Pauli alone.")
    line = both_line(spelled(starting(6), promoting(), END), 6, X, *wide)
    assert answer(line).endswith(" same")
    lines.ask(on_emulator(line), "refused 21 at 4")
    for n, p, pieces, told in (
        (7, X, [starting(7), END], "21 at 0"),
        (7, (4, 0, 0), [starting(7), END], "21 at 0"),
        (6, (0, 64, 0), [starting(6), END], "3"),
        (5, X, [starting(6), END], "4"),
    ):
        lines.ask(on_emulator(both_line(spelled(*pieces), n, p, *one)), f"refused {told}")
    lines.say("An infinity at the start: times 0 on one side only, as on the service; times 0 on both, by hand.")
    as_service(both_line(spelled(starting(1), projecting(), END), 1, X, [0.0, INFINITY], [0.0, 0.0]), "differ")
    line = on_emulator(both_line(spelled(starting(0), promoting(0.0, 1.0), END), 0, I, [INFINITY], [0.0]))
    lines.ask(line, f"0{floats([NAN, 0.0] * 2)} | 1{floats([-0.0, INFINITY] * 2)} | nan")


def merging(lines):
    """Two corrections, one carry: B, then A through what that leaves, and B·A."""
    merging_projections(lines)
    merging_turns(lines)
    merging_kinds(lines)
    merging_identities(lines)
    merging_again(lines)
    merging_wide(lines)
    merging_longest(lines)
    merging_refused(lines)
    merging_emulated(lines)
    merging_unread(lines)


def merged(*ends):
    """The ends of B, of A and of B·A, each with its changes, where nothing is refused."""
    return " | ".join([*(f"carried {end} kept" for end in ends), "same"])


def merge_all(lines, n, cases):
    """Steps from n qubits, B and A there, and what each of the three carries ends in."""
    for steps, b, a, *ends in cases:
        lines.ask(merge_line(spelled(starting(n), *steps, END), (n, *b), (n, *a)), merged(*ends))


# Past an X projection: its branch, B, A, and for B, A and B·A the phase that is left and the branch byte if it is another. X·Z
# has phase 0, Z·X has 2.
PAST_X = [
    (0, X, Z, (0, None), (0, 1), (0, 1)),
    (1, X, Z, (2, None), (0, 0), (2, 0)),
    (0, Z, X, (0, 1), (2, 1), (2, 1)),
    (1, Z, X, (0, 0), (0, 0), (0, 0)),
    (1, X, X, (2, None), (2, None), (0, None)),
    (0, Z, Z, (0, 1), (0, None), (0, None)),
    (0, Y, Y, (1, 1), (3, None), (0, None)),
    (1, Y, Y, (3, 0), (1, None), (0, None)),
    (0, Y, X, (1, 1), (2, 1), (3, 1)),
    (0, X, Y, (0, None), (1, 1), (1, 1)),
]
# Past a Z projection, where the Z part decides.
PAST_Z = [
    (0, X, Z, (0, 1), (2, 1), (2, 1)),
    (1, X, Z, (0, 0), (0, 0), (0, 0)),
    (0, Z, X, (0, None), (0, 1), (0, 1)),
    (1, Z, X, (2, None), (0, 0), (2, 0)),
    (0, Y, Y, (3, 1), (1, None), (0, None)),
]
# Past a quarter turn of Z and an X projection: X becomes Y, X·Z becomes i X, Z·X becomes -i X.
TURNED_PAST_X = [
    (0, X, Z, (1, 1), (0, None), (1, None)),
    (1, X, Z, (3, 0), (0, None), (3, None)),
    (0, Z, X, (0, 1), (3, None), (3, None)),
    (1, Z, X, (0, 0), (1, None), (1, None)),
]


def merge_past(lines, cases, measured, before=(), behind=()):
    """One qubit measured, the steps before it being quarter turns."""
    at = length(spelled(starting(1), *before)) + 21
    left = lambda phase, branch: f"0 {phase} 0x0 0x0" + ("" if branch is None else f" {at}:{branch:02x}")
    rows = [
        ([*before, projecting(measured, 0, branch), *behind], b, a, *(left(*end) for end in ends))
        for branch, b, a, *ends in cases
    ]
    merge_all(lines, 1, rows)


def merging_projections(lines):
    lines.say("Two corrections, one carry: B, A through what that leaves, B·A. Past an X projection and a Z projection, by hand.")
    merge_past(lines, PAST_X, X)
    merge_past(lines, PAST_Z, Z)
    lines.say("Past a projection of -X, of Y; of XX and of ZZ, which leave a qubit.")
    merge_past(lines, [(0, X, Z, (2, None), (0, 1), (2, 1))], (2, 1, 0))
    merge_past(lines, [(0, Y, X, (0, None), (3, 1), (3, 1))], Y)
    first_x, second_z = (0, 1, 0), (0, 0, 2)
    merge_all(lines, 2, [
        ([projecting((0, 3, 0))], first_x, second_z, "1 0 0x1 0x0", "1 0 0x0 0x1 25:01", "1 0 0x1 0x1 25:01"),
        ([projecting((0, 3, 0))], second_z, first_x, "1 0 0x0 0x1 25:01", "1 2 0x1 0x0 25:01", "1 0 0x1 0x1 25:01"),
        ([projecting((0, 0, 3), 1)], first_x, second_z, "1 0 0x1 0x0 25:01", "1 2 0x0 0x1 25:01", "1 2 0x1 0x1 25:01"),
        ([projecting((0, 0, 3), 1)], second_z, first_x, "1 0 0x0 0x1", "1 0 0x1 0x0 25:01", "1 2 0x1 0x1 25:01"),
    ])


def merging_turns(lines):
    lines.say("A quarter turn of Z before an X projection; one of -I behind it, on no qubit; both.")
    minus = turning((2, 0, 0))
    merge_past(lines, TURNED_PAST_X, X, [turning(Z)])
    merge_past(lines, PAST_X[:4], X, [], [minus])
    merge_past(lines, TURNED_PAST_X, X, [turning(Z)], [minus])
    lines.say("A projection of XX, and a quarter turn of Z behind it on the qubit that is left; another before it.")
    first_x, second_z = (0, 1, 0), (0, 0, 2)
    turned = lambda branch: [projecting((0, 3, 0), 0, branch), turning(Z)]
    merge_all(lines, 2, [
        (turned(0), first_x, second_z, "1 1 0x1 0x1", "1 0 0x0 0x1 25:01", "1 1 0x1 0x0 25:01"),
        (turned(1), first_x, second_z, "1 3 0x1 0x1", "1 0 0x0 0x1 25:00", "1 3 0x1 0x0 25:00"),
        (turned(0), second_z, first_x, "1 0 0x0 0x1 25:01", "1 3 0x1 0x1 25:01", "1 1 0x1 0x0 25:01"),
        (turned(1), second_z, first_x, "1 0 0x0 0x1 25:00", "1 1 0x1 0x1 25:00", "1 3 0x1 0x0 25:00"),
        ([turning(Z), *turned(0)], first_x, second_z, "1 2 0x1 0x1 45:01", "1 0 0x0 0x1", "1 2 0x1 0x0"),
    ])
    lines.say("Quarter turns alone: one that turns both, B, A; of ZZ, which turns XI to YZ and IX to ZY, and keeps XX.")
    merge_all(lines, 1, [
        ([turning(Z)], X, Y, "1 1 0x1 0x1", "1 2 0x1 0x0", "1 1 0x0 0x1"),
        ([turning(Z)], X, Z, "1 1 0x1 0x1", "1 0 0x0 0x1", "1 1 0x1 0x0"),
        ([turning(Z)], Z, X, "1 0 0x0 0x1", "1 1 0x1 0x1", "1 3 0x1 0x0"),
    ])
    merge_all(lines, 2, [([turning((0, 0, 3))], first_x, (0, 2, 0), "2 1 0x1 0x3", "2 1 0x2 0x3", "2 0 0x3 0x0")])


def merging_kinds(lines):
    lines.say("Rotations by Z and by ZZ: A flips back what B flipped, or B alone flips.")
    merge_all(lines, 1, [
        ([rotating(Z, 0)], X, X, "1 0 0x1 0x0 24:01", "1 0 0x1 0x0", "1 0 0x0 0x0"),
        ([rotating(Z, 1)], X, Z, "1 0 0x1 0x0 24:00", "1 0 0x0 0x1 24:00", "1 0 0x1 0x1 24:00"),
        ([rotating(Z, 0)], X, Y, "1 0 0x1 0x0 24:01", "1 1 0x1 0x1", "1 1 0x0 0x1"),
    ])
    merge_all(lines, 2, [([rotating((0, 0, 3))], (0, 1, 0), (0, 2, 0), "2 0 0x1 0x0 24:01", "2 0 0x2 0x0", "2 0 0x3 0x0")])
    lines.say("A promotion; corrections Z and Y; no step at all.")
    merge_all(lines, 1, [
        ([promoting()], X, Z, "2 0 0x1 0x0", "2 0 0x0 0x1", "2 0 0x1 0x1"),
        ([promoting()], Z, X, "2 0 0x0 0x1", "2 0 0x1 0x0", "2 2 0x1 0x1"),
        ([correcting(Z)], X, Z, "1 2 0x1 0x0", "1 0 0x0 0x1", "1 2 0x1 0x1"),
        ([correcting(Z)], X, X, "1 2 0x1 0x0", "1 2 0x1 0x0", "1 0 0x0 0x0"),
        ([correcting(Y)], Z, X, "1 2 0x0 0x1", "1 2 0x1 0x0", "1 2 0x1 0x1"),
        ([], X, Z, "1 0 0x1 0x0", "1 0 0x0 0x1", "1 0 0x1 0x1"),
        ([], Z, X, "1 0 0x0 0x1", "1 0 0x1 0x0", "1 2 0x1 0x1"),
    ])
    lines.say("On no qubit the phases add; also past a quarter turn and a promotion.")
    none, one = (lambda n, k: f"{n} {k % 4} 0x0 0x0"), [turning((2, 0, 0)), promoting()]
    for place in range(16):
        b, a = divmod(place, 4)
        merge_all(lines, 0, [([], (b, 0, 0), (a, 0, 0), none(0, b), none(0, a), none(0, b + a))])
    merge_all(lines, 0, [(one, (3, 0, 0), (2, 0, 0), none(1, 3), none(1, 2), none(1, 5))])


def merging_identities(lines):
    lines.say("The identity as B, as A, as both, through every kind of step: it leaves the run, and the identity of the last width.")
    text, q = spelled(*EVERY_KIND), (2, 3, 3, 2)
    told = answer(carry_line(text, q[0], q[1:], HELD))
    _, _, _, _, _, *changes = told.split()
    assert changes != ["kept"]
    left = " ".join(["carried 1 0 0x0 0x0", *changes])
    unchanged = "carried 1 0 0x0 0x0 kept"
    lines.ask(merge_line(text, (2, *I), q), f"{unchanged} | {told} | {told} | same")
    lines.ask(merge_line(text, q, (2, *I)), f"{told} | {left} | {told} | same")
    lines.ask(merge_line(text, (2, *I), (2, *I)), f"{unchanged} | {unchanged} | {unchanged} | same")


def merging_again(lines):
    lines.say("Q and Q again, through every kind of step: the run comes back, and of Q·Q nothing is left but its phase.")
    steps = [
        rotating(Z), turning(Y), promoting(), correcting((1, 3, 2)), rotating((0, 2, 1), 1), projecting((0, 3, 0), 1, 1), turning(Z),
        rotating(X, 1),
    ]
    text = spelled(starting(1), *steps, END)
    squares = [((k, 1, 0), 2 * k % 4) for k in range(4)] + [(Y, 0), ((0, 1, 1), 2), ((3, 1, 1), 0), ((1, 0, 1), 2)]
    for q, phase in squares:
        line = merge_line(text, (1, *q), (1, *q))
        first, second, both, _ = answer(line).split(" | ")
        assert len(first.split()) > 6 and len(second.split()) == 6, "changed, and changed back"
        assert both == f"carried 1 {phase} 0x0 0x0 kept"
        lines.ask(line)


def merging_wide(lines):
    lines.say("Twelve qubits, all masks full, past a rotation, a projection of X on all, and a promotion.")
    full = 4095
    steps = [rotating((1, full, 1)), projecting((0, full, 0), 11, 1), promoting()]
    b = (1, full, full)
    end_of_b = "12 3 0x0 0x7ff 24:01"
    merge_all(lines, 12, [
        (steps, b, (2, full, full), end_of_b, "12 0 0x0 0x7ff", "12 3 0x0 0x0"),
        (steps, b, (0, 0, full), end_of_b, "12 0 0x0 0x7ff 24:01", "12 3 0x0 0x0 24:01"),
    ])


def merging_longest(lines):
    lines.say("65,536 bytes: 17 rotations by X, and 3,245 corrections X; the same with quarter turns of Z, whole rounds and one more.")
    signs = "".join(f" {4 + 37 * place + 20}:01" for place in range(17))
    rotations, most = (17, rotating()), 3245
    assert length(spelled(starting(1), rotations, (most, correcting()), END)) == LONGEST
    merge_all(lines, 1, [
        ([rotations, (most, correcting())], X, Z, "1 0 0x1 0x0", f"1 2 0x0 0x1{signs}", f"1 2 0x1 0x1{signs}"),
        ([rotations, (most, correcting())], Z, Z, f"1 2 0x0 0x1{signs}", "1 2 0x0 0x1", "1 0 0x0 0x0"),
        ([rotations, (most, turning(Z))], X, Z, "1 1 0x1 0x1", f"1 0 0x0 0x1{signs}", f"1 1 0x1 0x0{signs}"),
    ])
    lines.say("One byte more, and 66,000 bytes: 14 at 0.")
    over = spelled(starting(1), (10, rotating()), (3258, correcting()), END)
    filled = spelled(starting(1), END, (HELD - 7, bytes(1)))
    assert length(over) == LONGEST + 1 and length(filled) == HELD
    for text in (over, filled):
        lines.ask(merge_line(text, (1, *X), (1, *Z)), "refused 14 at 0 kept")


def merging_refused(lines):
    lines.say("B no Pauli, or on other qubits; it is looked at before A.")
    good = spelled(starting(2), rotating((0, 0, 1)), END)
    none = [(2, 4, 0, 0), (2, 0, 4, 0), (2, 0, 0, 4), (257, *I), (3, 4, 0, 0), (1, 0, 2, 0)]
    others = [(0, *I), (1, *X), (3, *I), (256, *I)]
    ok = (2, *X)
    for row, paulis in ((3, none), (4, others)):
        for p in paulis:
            lines.ask(merge_line(good, p, ok), f"refused {row} kept")
    lines.ask(merge_line(good, others[0], none[0]), "refused 4 kept")
    lines.ask(merge_line(good, none[0], others[0]), "refused 3 kept")
    lines.say("A no Pauli, or on other qubits, behind B's part; B and A on the same wrong qubits, or on those of the end.")
    told = "carried 2 0 0x1 0x0 24:01 kept"
    for row, paulis in ((3, none), (4, others)):
        for p in paulis:
            lines.ask(merge_line(good, ok, p), f"{told} | refused {row} kept")
    lines.ask(merge_line(good, (3, *X), (3, *X)), "refused 4 kept")
    shrunk = spelled(starting(2), projecting((0, 0, 1)), END)
    lines.ask(merge_line(shrunk, (1, *X), (1, *X)), "refused 4 kept")
    lines.ask(merge_line(shrunk, (2, 0, 2, 0), (1, *X)), "carried 1 0 0x1 0x0 kept | refused 4 kept")
    lines.say("A refused run: its row and its place, once, before 3 and 4 of B and A.")
    for run, told in (
        ([starting(2), correcting((4, 0, 0)), END], "3 at 4"),
        ([starting(2), turning((1, 1, 0)), END], "7 at 4"),
        ([starting(2), rotating(X, 2), END], "14 at 4"),
        ([starting(2)], "14 at 4"),
        ([starting(12), promoting(), END], "15 at 4"),
        ([], "14 at 0"),
    ):
        for b, a in ((ok, ok), (none[0], ok), (others[0], none[0])):
            lines.ask(merge_line(spelled(*run), b, a), f"refused {told} kept")


def merging_emulated(lines):
    """As the service where the board has room, and 21 where not."""
    lines.say("Merged by the emulator: as by the service; 21 before 3 and 4 of B and A; 3 and 4 of B and of A alone.")
    to_six = [promoting(), rotating((0, 33, 0)), projecting((0, 48, 1), 4), promoting()]
    for run, b, a in (
        ([starting(1), projecting(), END], (1, *Z), (1, *X)),
        (EVERY_KIND, (2, 3, 3, 2), (2, 0, 1, 3)),
        ([starting(5), *to_six, END], (5, 1, 31, 31), (5, 2, 17, 9)),
        ([starting(6), turning((0, 32, 1)), projecting((0, 0, 63), 5, 1), END], (6, 3, 63, 32), (6, 0, 1, 63)),
    ):
        line = merge_line(spelled(*run), b, a)
        lines.ask(on_emulator(line), answer(line))
    six, seven = spelled(starting(6), promoting(), END), spelled(starting(7), END)
    lines.ask(merge_line(six, (6, *X), (6, *Z)), merged("7 0 0x1 0x0", "7 0 0x0 0x1", "7 0 0x1 0x1"))
    lines.ask(merge_line(seven, (7, *X), (7, *Z)), merged("7 0 0x1 0x0", "7 0 0x0 0x1", "7 0 0x1 0x1"))
    for text, n, at in ((six, 6, 4), (seven, 7, 0)):
        for b, a in (((n, *X), (n, *Z)), ((n, 4, 0, 0), (n, *Z)), ((n + 1, *X), (n, 4, 0, 0))):
            lines.ask(on_emulator(merge_line(text, b, a)), f"refused 21 at {at} kept")
    one, told = spelled(starting(1), END), "carried 1 0 0x1 0x0 kept"
    for row, p in ((3, (1, 4, 0, 0)), (4, (2, *I))):
        lines.ask(on_emulator(merge_line(one, p, (1, *X))), f"refused {row} kept")
        lines.ask(on_emulator(merge_line(one, (1, *X), p)), f"{told} | refused {row} kept")


def merging_unread(lines):
    lines.say("Not read: no number, one Pauli, one number too few, one too many; a run of 66,001 bytes.")
    text = spelled(starting(1), END)
    whole = merge_line(text, (1, *X), (1, *Z))
    for line in (f"merge {text}", f"merge {text} 1 0 0x1 0x0", whole.rpartition(" ")[0], whole + " 0x1"):
        lines.ask(line, "unread")
        lines.ask(on_emulator(line), "unread")
    lines.ask(merge_line(spelled(starting(1), END, (HELD - 6, bytes(1))), (1, *X), (1, *Z)), "unread")
    lines.say("The greatest count, of a byte and of no byte.")
    most = 2**64 - 1
    lines.ask(merge_line(spelled(starting(1), END, (most, bytes(1))), (1, *X), (1, *Z)), "unread")
    told = merged("1 0 0x1 0x0", "1 0 0x0 0x1", "1 0 0x1 0x1")
    lines.ask(merge_line(spelled(starting(1), (most, b""), END), (1, *X), (1, *Z)), told)


NO_START = "refused 25"


def seeking(lines):
    """Which start gives this end: whether there is one, by hand."""
    seeking_nothing(lines)
    seeking_kinds(lines)
    seeking_all(lines)
    seeking_promotions(lines)
    seeking_projections(lines)
    seeking_none(lines)
    seeking_wide(lines)
    seeking_longest(lines)
    seeking_refused(lines)
    seeking_order(lines)
    seeking_emulated(lines)
    seeking_unread(lines)


def started(width, end):
    """A start of that width is found, and it ends in the named Pauli."""
    n, k, x, z = end
    return f"start {width} | carried {n} {k} {x:#x} {z:#x} | same"


def phases(x, z):
    return [(k, x, z) for k in range(4)]


def every_pauli(n):
    """All Paulis on n qubits, of each phase."""
    return [(k, x, z) for x in range(2**n) for z in range(2**n) for k in range(4)]


def each_letter(n):
    """All letters on n qubits, the phases in turn."""
    return [((x + z + x // 2) % 4, x, z) for x in range(2**n) for z in range(2**n)]


def seek_ends(lines, run, n, ends, reached=lambda x, z: True):
    """Ends on the n last qubits; those whose masks are reached have a start, whatever their phase."""
    for k, x, z in ends:
        end = (n, k, x, z)
        told = started(run[0][3], end) if reached(x, z) else NO_START
        lines.ask(seek_line(spelled(*run), end), told)


def seeking_nothing(lines):
    lines.say("Which start gives this end: in an empty run each Pauli is its own. On no qubit, one, twelve.")
    for n in (0, 1):
        seek_ends(lines, [starting(n), END], n, every_pauli(n))
    full = 4095
    wide = [*phases(full, full), (0, full, 0), (2, 0, full), (1, 0x555, 0xAAA), (3, 0xAAA, 0x555), I]
    seek_ends(lines, [starting(12), END], 12, wide)
    lines.say("One letter on each of twelve qubits, and all letters but that one.")
    for q in range(12):
        bit = 1 << q
        ends = [(0, bit, 0), (0, 0, bit), (1, full ^ bit, full), (3, full, full ^ bit)]
        seek_ends(lines, [starting(12), END], 12, ends)


def seeking_kinds(lines):
    lines.say("All ends on one qubit behind one step: rotations, corrections, quarter turns, of which each has a start.")
    one = [rotating(Z), rotating(Y, 1), correcting(X), correcting(Z), correcting((0, 1, 1))]
    one += [turning(p) for p in (I, X, Y, Z, (2, 0, 1))]
    for step in one:
        seek_ends(lines, [starting(1), step, END], 1, every_pauli(1))
    lines.say("Behind a projection of X, -X, Y, Z, either branch: each phase has starts.")
    for p in (X, (2, 1, 0), Y, Z):
        for branch in (0, 1):
            seek_ends(lines, [starting(1), projecting(p, 0, branch), END], 0, phases(0, 0))
    lines.say("Behind a promotion: all ends on two qubits, of which those with I on the new one have a start.")
    seek_ends(lines, [starting(1), promoting(), END], 2, every_pauli(2), lambda x, z: x < 2 and z < 2)


def seeking_all(lines):
    lines.say("All ends on two qubits behind a correction, which turns signs; behind two quarter turns; three: found.")
    two = [turning((0, 0, 3)), turning((0, 1, 0))]
    for steps in ([correcting((3, 2, 1))], two, [*two, turning((1, 2, 2))]):
        seek_ends(lines, [starting(2), *steps, END], 2, every_pauli(2))
    lines.say("Letters of two and of three qubits behind these and a rotation.")
    steps = [turning((2, 3, 3)), correcting((0, 0, 2)), rotating((0, 3, 0)), turning((0, 1, 2))]
    for n in (2, 3):
        seek_ends(lines, [starting(n), *steps, turning((0, 0, 2**n - 1)), END], n, each_letter(n)[: 8 * n])


def seeking_promotions(lines):
    lines.say("A promotion, then a quarter turn of XX: Z becomes -YX, Y becomes ZX, X stays. These and I are reached, and no other of all ends.")
    joining = [starting(1), promoting(), turning((0, 3, 0)), END]
    moved = {(0, 0), (1, 0), (3, 1), (2, 1)}
    seek_ends(lines, joining, 2, every_pauli(2), lambda x, z: (x, z) in moved)
    lines.say("Then one of ZI: -YX becomes XX, X becomes Y; the letters on the new qubit alone are not reached.")
    again = [*joining[:-1], turning(Z), END]
    moved_again = {(0, 0), (1, 1), (3, 0), (2, 1)}
    seek_ends(lines, again, 2, each_letter(2), lambda x, z: (x, z) in moved_again)
    lines.say("Quarter turns of XX and of ZZ, and Z of the first qubit measured: X leaves Z on the new one, Z leaves X. Each end is reached.")
    exchanged = [starting(1), promoting(), turning((0, 3, 0)), turning((0, 0, 3)), projecting(Z), END]
    seek_ends(lines, exchanged, 1, every_pauli(1))
    lines.say("Two promotions from one qubit; from two qubits one that is joined to the second alone.")
    ends = [(0, 1, 1), (2, 1, 0), (3, 0, 1), (0, 2, 0), (0, 0, 2), (1, 4, 0), (0, 0, 4), (0, 7, 7), (1, 1, 5), (2, 3, 1)]
    seek_ends(lines, [starting(1), (2, promoting()), END], 3, ends, lambda x, z: x < 2 and z < 2)
    ends = [(0, 1, 1), (0, 4, 0), (0, 6, 2), (1, 6, 0), (2, 2, 0), (3, 7, 3), (0, 0, 2), (0, 5, 0), (1, 5, 1), (0, 0, 4), (2, 3, 0)]
    joined_to = lambda x, z: z < 4 and z >> 1 == x >> 2
    seek_ends(lines, [starting(2), promoting(), turning((0, 6, 0)), END], 3, ends, joined_to)
    lines.say("A promotion, a correction on the new qubit: it turns no sign that is reached. A rotation of both: the same.")
    for step in (correcting((1, 2, 2)), rotating((0, 3, 0))):
        run = [starting(1), promoting(), step, END]
        seek_ends(lines, run, 2, [*phases(1, 1), *phases(1, 0), (0, 2, 0), (0, 0, 2), (1, 3, 3)], lambda x, z: x < 2 and z < 2)


def seeking_projections(lines):
    lines.say("Projections of XX and of ZZ, either pivot and branch: each end on the qubit that is left has several starts.")
    for p in ((0, 3, 0), (0, 0, 3)):
        for pivot in (0, 1):
            for branch in (0, 1):
                seek_ends(lines, [starting(2), projecting(p, pivot, branch), END], 1, [*each_letter(1), *phases(1, 1)])
    lines.say("Of -YZ with its pivot on the Y; a quarter turn and a correction behind it; a projection of what is left.")
    some = [starting(2), projecting((3, 1, 3), 0, 1)]
    for behind in ([], [turning(Y), correcting(Z)]):
        seek_ends(lines, [*some, *behind, END], 1, every_pauli(1))
    seek_ends(lines, [*some, turning(Y), projecting(Z, 0, 1), END], 0, phases(0, 0))
    lines.say("A projection and a promotion: what was left has a start, with any letter on the new qubit none.")
    seek_ends(lines, [starting(2), projecting((0, 3, 0)), promoting(), END], 2, each_letter(2), lambda x, z: x < 2 and z < 2)
    lines.say("A promotion and a projection: of the first qubit's X and of its Z, nothing is reached but phases; of XX, ZZ, of the new one's X.")
    for p, pivot, reached in (
        (X, 0, {(0, 0)}),
        (Z, 0, {(0, 0)}),
        ((0, 3, 0), 0, {(0, 0), (1, 0)}),
        ((0, 0, 3), 0, {(0, 0), (0, 1)}),
        ((0, 2, 0), 1, {(x, z) for x in (0, 1) for z in (0, 1)}),
    ):
        run = [starting(1), promoting(), projecting(p, pivot, 1), END]
        seek_ends(lines, run, 1, [*phases(0, 0), *each_letter(1)[1:]], lambda x, z: (x, z) in reached)
    lines.say("Down to no qubit, and up to twelve: i^k on twelve qubits, and no letter.")
    run = [starting(1), projecting(Z, 0, 1), (12, promoting()), END]
    letters = [(0, 1, 0), (0, 0, 1), (1, 0x800, 0x800), (2, 0, 0x800), (0, 4095, 4095)]
    seek_ends(lines, run, 12, [*phases(0, 0), *letters], lambda x, z: x == z == 0)


def seeking_none(lines):
    lines.say("From no qubit: its i^k and no letter, behind promotions; behind quarter turns and rotations of them too.")
    for steps in (
        [promoting()],
        [promoting(), turning(Y), correcting((1, 1, 0))],
        [turning((2, 0, 0)), promoting(), rotating(Z), projecting(X, 0, 1), correcting((3, 0, 0)), promoting()],
    ):
        seek_ends(lines, [starting(0), *steps, END], 1, [*phases(0, 0), *each_letter(1)[1:]], lambda x, z: x == z == 0)
    ends = [*phases(0, 0), (0, 1, 0), (0, 0, 1), (0, 0x800, 0), (0, 0, 0x800), (3, 4095, 4095)]
    seek_ends(lines, [starting(0), (12, promoting()), END], 12, ends, lambda x, z: x == z == 0)
    lines.say("From no qubit to none: by a quarter turn, a correction, by a promotion and a projection of either kind.")
    for steps in ([turning(I)], [correcting((1, 0, 0))], [promoting(), projecting(X, 0, 1)], [promoting(), projecting(Z)]):
        seek_ends(lines, [starting(0), *steps, END], 0, phases(0, 0))
    lines.say("To no qubit from two and from twelve.")
    seek_ends(lines, [starting(2), projecting((0, 3, 0)), projecting(Z, 0, 1), END], 0, phases(0, 0))
    for p in (X, Z, Y):
        seek_ends(lines, [starting(12), (12, projecting(p, 0, 1)), END], 0, phases(0, 0))


def seeking_wide(lines):
    full, top = 4095, 1 << 11
    lines.say("Twelve qubits: the top one is measured and a new one made. With a letter there no start, else one.")
    run = [starting(12), projecting((0, top, 1), 11, 1), promoting(), END]
    ends = [*phases(0x7FF, 0x7FF), (0, 0x7FF, 0), (0, 0, 0x7FF), (0, 1, 0), (0, 0, 1), I]
    ends += [(0, top, 0), (0, 0, top), (1, top, top), (0, full, full), (2, 0x7FF, full), (2, full, 0x7FF)]
    seek_ends(lines, run, 12, ends, lambda x, z: x < top and z < top)
    lines.say("The lowest is measured, and all others move down.")
    run = [starting(12), projecting(Z), promoting(), END]
    seek_ends(lines, run, 12, ends, lambda x, z: x < top and z < top)
    lines.say("Eleven qubits and a new one that is joined to each of them by a quarter turn: X there goes with each Z.")
    run = [starting(11), promoting(), *(turning((0, top | 1 << q, 0)) for q in range(11)), END]
    # Z on qubit q becomes a Y there and an X on the new qubit; X stays.
    reached = lambda x, z: z < top and parity(z) == x >> 11
    ends = [I, (0, top, 1), (2, top, 1), (0, 1, 1), (0, top | 0x400, 0x400), (0, 0x400, 0x400), (1, 0x7FF, 0), (3, top, 0), (0, 0, top)]
    ends += [(1, full, 0x7FF), (1, 0x7FF, 0x7FF), (2, top | 0x2AA, 0x7FE), (2, 0x2AA, 0x7FE)]
    seek_ends(lines, run, 12, ends, reached)
    lines.say("Quarter turns of ZZ of neighbours and of X of each, over twelve qubits and five times: each end has a start.")
    ladder = [turning((0, 0, 3 << q)) for q in range(11)] + [turning((0, 1 << q, 0)) for q in range(12)]
    run = [starting(12), (5, b"".join(ladder)), END]
    ends = [*phases(full, full), (0, full, 0), (1, 0x555, 0xAAA), (3, 0x924, 0x249), (0, top, 0), Z]
    seek_ends(lines, run, 12, ends)


def seeking_longest(lines):
    full, top = 4095, 1 << 11
    lines.say("65,536 bytes: rotations by X and corrections X; rotations and quarter turns of Z, whole rounds and one more.")
    for step in (correcting(), turning(Z)):
        run = [starting(1), (17, rotating()), (3245, step), END]
        assert length(spelled(*run)) == LONGEST
        seek_ends(lines, run, 1, [*phases(1, 1), (0, 1, 0), (2, 0, 1), (3, 0, 0)])
    lines.say("The same on twelve qubits, of Z on all.")
    run = [starting(12), (17, rotating((0, full, 0))), (3245, turning((0, 0, full))), END]
    assert length(spelled(*run)) == LONGEST
    seek_ends(lines, run, 12, [*phases(full, full), (0, 1, 0), (1, 0, top)])
    lines.say("65,536 bytes from eleven qubits: a promotion, rotations, and 3,257 quarter turns of X on the lowest and the new one.")
    run = [starting(11), promoting(), (10, rotating((0, full, 0))), (3257, turning((0, top | 1, 0))), END]
    assert length(spelled(*run)) == LONGEST
    ends = [*phases(top | 1, 1), *phases(0x7FE, 0x7FE), (0, top, 0), (0, 1, 1), (0, 0, top), (1, full, 0x7FF), (1, full, full)]
    seek_ends(lines, run, 12, ends, lambda x, z: z < top and z & 1 == x >> 11)
    lines.say("65,536 bytes on twelve qubits: 1,321 times the top one is measured and made again, and forty corrections.")
    run = [starting(12), (1321, projecting((0, top, 0), 11) + promoting()), (40, correcting((0, full, 0))), END]
    assert length(spelled(*run)) == LONGEST
    ends = [*phases(0x7FF, 0x7FF), (0, 0x400, 0), (0, top, 0), (0, 0, top), (0, full, full)]
    seek_ends(lines, run, 12, ends, lambda x, z: x < top and z < top)
    lines.say("One byte more, and 66,000 bytes: 14 at 0.")
    over = spelled(starting(1), (10, rotating()), (3258, correcting()), END)
    filled = spelled(starting(1), END, (HELD - 7, bytes(1)))
    assert length(over) == LONGEST + 1 and length(filled) == HELD
    for text in (over, filled):
        for end in ((1, *X), (300, 9, 9, 9)):
            lines.ask(seek_line(text, end), "refused 14 at 0")


# Refused runs, each with its row and its place.
REFUSED_RUNS = [
    ([], "14 at 0"),
    ([correcting(), END], "14 at 0"),
    ([starting(13), END], "14 at 0"),
    ([starting(2)], "14 at 4"),
    ([starting(2), promoting()[:-1]], "14 at 4"),
    ([starting(2), correcting((4, 0, 0)), END], "3 at 4"),
    ([starting(2), turning((0, 4, 0)), END], "3 at 4"),
    ([starting(2), turning((1, 1, 0)), END], "7 at 4"),
    ([starting(2), correcting(), rotating((1, 1, 0)), END], "7 at 24"),
    ([starting(2), promoting(NAN), END], "8 at 4"),
    ([starting(0), projecting(I), END], "9 at 4"),
    ([starting(2), projecting(X, 2), END], "10 at 4"),
    ([starting(2), projecting(I), END], "11 at 4"),
    ([starting(2), promoting(), projecting(X, 2), END], "12 at 23"),
    ([starting(2), rotating(X, 2), END], "14 at 4"),
    ([starting(2), correcting(), framed(9, b""), END], "14 at 24"),
    ([starting(2), promoting(), END, END], "14 at 26"),
    ([starting(12), promoting(), END], "15 at 4"),
    ([starting(11), promoting(), promoting(), END], "15 at 23"),
]


def seeking_refused(lines):
    lines.say("A refused run: its row and its place, before 3 and 4 of the end and before 25.")
    for run, told in REFUSED_RUNS:
        for end in ((2, *I), (3, 0, 4, 0), (2, 4, 0, 0), (257, 9, 9, 9)):
            lines.ask(seek_line(spelled(*run), end), f"refused {told}")


def seeking_order(lines):
    """A run from two qubits to three, whose ends with a letter on the new one have no start."""
    text = spelled(starting(2), promoting(), END)
    lines.say("3 for an end that is no Pauli: its phase, its width, a mask bit at its width; before 4 and 25.")
    most = 2**64 - 1
    for end in (
        (3, 4, 0, 0), (3, 255, 0, 0), (3, 4, 4, 0), (3, 0, 8, 0), (3, 0, 0, 8), (3, 0, 1 << 63, 0), (3, 0, 0, 1 << 63), (3, 0, most, most),
        (2, 4, 0, 0), (2, 0, 4, 0), (2, 0, 0, 4), (0, 0, 1, 0), (0, 0, 0, 1), (0, 4, 0, 0), (4, 255, 4, 0), (4, 0, 16, 0), (12, 0, 4096, 0),
        (13, 0, 0x2000, 0), (13, 0, 0, 0x2000), (63, 0, 1 << 63, 0), (63, 0, 0, 1 << 63), (256, 4, 0, 0),
        (257, *I), (257, 4, 0, 0), (300, 0, 4, 0), (1 << 32, *I), (1 << 63, *I), (most, *I), (most, 255, most, most),
    ):
        lines.ask(seek_line(text, end), "refused 3")
    lines.say("4 for one on other qubits, the start's too; before 25.")
    for n in (0, 1, 2, 4, 12, 13, 63, 64, 65, 255, 256):
        lines.ask(seek_line(text, (n, *I)), "refused 4")
    for end in ((2, 0, 3, 3), (4, 0, 12, 0), (13, 3, 0x1000, 0x1000), (64, 3, most, most), (256, 0, most, 0)):
        lines.ask(seek_line(text, end), "refused 4")
    lines.say("25 last; and found.")
    seek_ends(lines, [starting(2), promoting(), END], 3, [(3, 7, 7), (0, 4, 0), (0, 0, 4), (3, 3, 3), I], lambda x, z: x < 4 and z < 4)
    lines.say("A run that ends with fewer qubits: on those of the start it is 4, on one more or fewer than are left too.")
    text = spelled(starting(3), projecting((0, 7, 0), 2), END)
    for n in (0, 1, 3, 4, 256):
        lines.ask(seek_line(text, (n, *I)), "refused 4")
    for end in ((2, 0, 4, 0), (3, 0, 8, 0), (2, 4, 0, 0)):
        lines.ask(seek_line(text, end), "refused 3")
    lines.ask(seek_line(text, (2, 1, 3, 3)), started(3, (2, 1, 3, 3)))
    lines.say("To no qubit and from none: 3 and 4 there.")
    for run in ([starting(1), projecting(), END], [starting(0), END]):
        for end, row in (((0, 4, 0, 0), 3), ((0, 0, 1, 0), 3), ((0, 0, 0, 1), 3), ((1, *I), 4), ((1, *X), 4), ((257, *I), 3)):
            lines.ask(seek_line(spelled(*run), end), f"refused {row}")


def seeking_emulated(lines):
    """As the service where the board has room, and 21 where not."""
    lines.say("Sought by the service and by the emulator, the same: from no qubit, by every kind of step, up to six and on six.")
    rung = [turning((0, 0, 3 << q)) for q in range(5)] + [turning((0, 1 << q, 0)) for q in range(6)]
    joined_to = [promoting(), turning((0, 33, 0))]
    six = [(0, 63, 63), (1, 32, 32), (2, 0, 1), (3, 33, 1), (0, 1, 0), (0, 0, 32), (0, 31, 31)]
    for run, n, ends in (
        ([starting(0), END], 0, phases(0, 0)),
        ([starting(0), (6, promoting()), END], 6, [*phases(0, 0), (0, 32, 0), (0, 0, 32), (0, 1, 0)]),
        (EVERY_KIND, 1, each_letter(1)),
        (TURNS, 0, phases(0, 0)),
        ([starting(5), *joined_to, END], 6, six),
        ([starting(6), *rung, END], 6, six),
        ([starting(6), projecting((0, 33, 0), 5, 1), promoting(), END], 6, six),
        ([starting(6), (6, projecting()), END], 0, phases(0, 0)),
    ):
        for end in ends:
            line = seek_line(spelled(*run), (n, *end))
            lines.ask(line)
            lines.ask(on_emulator(line), answer(line))
    lines.say("21 for a start over six and a promotion at six, before 3, 4 and 25; the service takes them.")
    wide, grown, most = spelled(starting(7), END), spelled(starting(6), promoting(), END), spelled(starting(12), END)
    lines.ask(seek_line(wide, (7, 1, 127, 127)), started(7, (7, 1, 127, 127)))
    lines.ask(seek_line(grown, (7, 1, 63, 63)), started(6, (7, 1, 63, 63)))
    lines.ask(seek_line(grown, (7, 0, 64, 0)), NO_START)
    for text, n, at in ((wide, 7, 0), (grown, 7, 4), (most, 12, 0)):
        for end in ((n, 1, 63, 63), (n, 0, 64, 0), (6, *I), (n, 4, 0, 0), (257, *I)):
            lines.ask(on_emulator(seek_line(text, end)), f"refused 21 at {at}")
    again = spelled(starting(5), (2, promoting()), END)
    lines.ask(on_emulator(seek_line(again, (7, *I))), "refused 21 at 23")
    lines.say("Its own 14, 8 and 3 at their places; then 3, 4 and 25 of the end.")
    for run, told in (
        ([], "14 at 0"),
        ([starting(7)[:3]], "14 at 0"),
        ([starting(6)], "14 at 4"),
        ([starting(6), promoting(NAN), END], "8 at 4"),
        ([starting(6), correcting((0, 64, 0)), END], "3 at 4"),
        ([starting(6), projecting(X, 6), END], "10 at 4"),
        ([starting(1), (10, rotating()), (3258, correcting()), END], "14 at 0"),
    ):
        lines.ask(on_emulator(seek_line(spelled(*run), (6, *I))), f"refused {told}")
    text = spelled(starting(5), promoting(), END)
    for end, row in (((6, 4, 0, 0), 3), ((6, 0, 64, 0), 3), ((257, *I), 3), ((5, *I), 4), ((7, *I), 4), ((7, 0, 64, 0), 4), ((6, 0, 32, 0), 25)):
        lines.ask(on_emulator(seek_line(text, end)), f"refused {row}")
    lines.say("65,536 bytes by the emulator.")
    run = [starting(5), promoting(), (10, rotating((0, 63, 0))), (3257, turning((0, 33, 0))), END]
    assert length(spelled(*run)) == LONGEST
    for end, told in (((6, 3, 33, 1), None), ((6, 0, 32, 0), NO_START), ((6, 2, 0, 1), NO_START)):
        lines.ask(on_emulator(seek_line(spelled(*run), end)), told or started(5, end))


def seeking_unread(lines):
    lines.say("Not read: no number, one too few, one too many; a run of 66,001 bytes.")
    unread_of_four(lines, "seeker", seek_line)


def unread_of_four(lines, call, line_of):
    """A call on a run and a Pauli's four numbers, by either caller."""
    text = spelled(starting(1), END)
    whole = line_of(text, (1, *X))
    for line in (f"{call} {text}", whole.rpartition(" ")[0], whole + " 0x1"):
        lines.ask(line, "unread")
        lines.ask(on_emulator(line), "unread")
    lines.ask(line_of(spelled(starting(1), END, (HELD - 6, bytes(1))), (1, *X)), "unread")


def folding(lines):
    """Runs without corrections: the folded run and the end Pauli, by hand."""
    folding_nothing(lines)
    folding_products(lines)
    folding_qubits(lines)
    folding_rotations(lines)
    folding_promotions(lines)
    folding_projections(lines)
    folding_between(lines)
    folding_turns(lines)
    folding_kinds(lines)
    folding_lengths(lines)
    folding_room(lines)
    folding_refused(lines)
    folding_emulated(lines)
    folding_unread(lines)
    folding_equal(lines)
    folding_infinite(lines)


def folds(end, n, left, past=0):
    """The answer with that end Pauli and those steps left of a run from n qubits, so many bytes of the output being past them."""
    folded = bytes_of(spelled(starting(n), *left, END))
    return f"{told_folded(folded, Pauli(*end), bytes([FILLED]) * past)} | same"


def fold_all(lines, n, cases, past=0):
    """Steps from n qubits, the end Pauli with its width, and the steps that are left."""
    for steps, end, left in cases:
        room = length(spelled(starting(n), *left, END)) + past
        lines.ask(fold_line(spelled(starting(n), *steps, END), room), folds(end, n, left, past))


def folding_nothing(lines):
    lines.say("Runs without corrections: the end Pauli, the folded length, the folded run. The empty run, from 0 to 12 qubits.")
    for n in range(13):
        fold_all(lines, n, [([], (n, *I), [])], n % 3)
    lines.say("No correction in it: the run, and the identity of the last width.")
    every = [step for step in EVERY_KIND[1:-1] if step[0] != 5]
    for n, steps, last in ((2, every, 1), (0, TURNS[1:-1], 0), (1, DIAGONAL[1:3], 0), (0, [(12, promoting())], 12)):
        fold_all(lines, n, [(steps, (last, *I), steps)], 5)
    lines.say("Nothing but corrections, the identity one of them: start and end are left.")
    fold_all(lines, 1, [([correcting(I)], (1, *I), []), ([correcting(X)] * 2, (1, *I), []), ([correcting(X)] * 3, (1, *X), [])])


def book_product(p, q):
    """The product P·Q of two letters: what a quarter turn makes of Q is -i P·Q where they anticommute."""
    if "I" in (p, q) or p == q:
        return I if p == q else LETTERS[p if q == "I" else q]
    k, x, z = pauli_named(TURNED[p, q])
    return (k + 1) % 4, x, z


def folding_products(lines):
    lines.say("One correction of each letter and phase, on one qubit.")
    fold_all(lines, 1, [([correcting(p)], (1, *p), []) for p in every_pauli(1)])
    lines.say("Two: P behind Q is P·Q, each letter behind each. X and then Z is Z·X, which is i Y.")
    for q in LETTERS:
        for p in LETTERS:
            fold_all(lines, 1, [([correcting(LETTERS[q]), correcting(LETTERS[p])], (1, *book_product(p, q)), [])])
    fold_all(lines, 1, [([correcting(X), correcting(Z)], (1, 2, 1, 1), []), ([correcting(Z), correcting(X)], (1, 0, 1, 1), [])])
    lines.say("All sixteen after one another, four letters of each phase: Z·Y·X is -i, and X·Y·Z is i.")
    for names, phase in (("IXYZ", 3), ("ZYXI", 1)):
        sixteen = [raised(Pauli(1, *LETTERS[name]), k) for k in range(4) for name in names]
        fields_of = [correcting((p.k, p.x, p.z)) for p in sixteen]
        for rounds in range(1, 5):
            fold_all(lines, 1, [(fields_of[: 4 * rounds], (1, phase * rounds % 4, 0, 0), [])])


def folding_qubits(lines):
    lines.say("Two qubits: XI and then ZZ; XX and ZZ in either order; YX and then XY; eleven and twelve qubits: X on all, then Z on all.")
    xx, zz = (0, 3, 0), (0, 0, 3)
    fold_all(lines, 2, [
        ([correcting((0, 1, 0)), correcting(zz)], (2, 2, 1, 3), []),
        ([correcting(xx), correcting(zz)], (2, 0, 3, 3), []),
        ([correcting(zz), correcting(xx)], (2, 0, 3, 3), []),
        # XY·YX is i Z on the first and -i Z on the second.
        ([correcting((1, 3, 1)), correcting((1, 3, 2))], (2, 0, 0, 3), []),
    ])
    for n, phase in ((11, 2), (12, 0)):
        full = 2**n - 1
        fold_all(lines, n, [([correcting((0, full, 0)), correcting((0, 0, full))], (n, phase, full, full), [])])
    lines.say("On no qubit the phases add.")
    for b, a in ((0, 1), (1, 1), (2, 1), (3, 1), (3, 2), (3, 3)):
        fold_all(lines, 0, [([correcting((b, 0, 0)), correcting((a, 0, 0))], (0, (b + a) % 4, 0, 0), [])])


def folding_rotations(lines):
    lines.say("A correction before a rotation: the sign flips where the letters differ; behind it: the sign stays.")
    for place, (q, p) in enumerate(itertools.product("XYZ", "XYZ")):
        sign, q, p = place % 2, LETTERS[q], LETTERS[p]
        fold_all(lines, 1, [([correcting(q), rotating(p, sign)], (1, *q), [rotating(p, sign ^ (p != q))])])
    behind = [rotating(Z, 1), rotating(X)]
    fold_all(lines, 1, [([*behind, correcting(p)], (1, *p), behind) for p in (X, (3, 0, 1))])
    lines.say("Before, between and behind: each rotation goes by the Pauli held there.")
    fold_all(lines, 1, [(
        [correcting(X), rotating(Z), correcting(X), rotating(Z), correcting(Z), rotating(X), rotating(Y, 1), correcting(Y)],
        (1, *book_product("Y", "Z")),
        [rotating(Z, 1), rotating(Z), rotating(X, 1), rotating(Y, 0)],
    )])
    zz = (0, 0, 3)
    fold_all(lines, 2, [(
        [correcting((0, 1, 0)), rotating(zz), correcting((0, 2, 0)), rotating(zz), rotating(Z)],
        (2, 0, 3, 0),
        [rotating(zz, 1), rotating(zz), rotating(Z, 1)],
    )])


def folding_promotions(lines):
    lines.say("Corrections before and behind promotions: identity on the new qubit, then a letter there too.")
    fold_all(lines, 1, [
        ([correcting(X), promoting()], (2, 0, 1, 0), [promoting()]),
        ([promoting(), correcting((0, 2, 0))], (2, 0, 2, 0), [promoting()]),
        (
            [correcting(X), promoting(-0.0, 1.0), correcting((0, 2, 1)), rotating((0, 0, 2)), rotating((0, 0, 3))],
            (2, 2, 3, 1),
            [promoting(-0.0, 1.0), rotating((0, 0, 2), 1), rotating((0, 0, 3))],
        ),
    ])
    fold_all(lines, 0, [
        ([correcting((1, 0, 0)), promoting(), correcting(Y)], (1, 2, 1, 1), [promoting()]),
        ([correcting((3, 0, 0)), (12, promoting()), correcting((3, 2048, 1))], (12, 2, 2048, 1), [(12, promoting())]),
    ])


def fold_past(lines, cases, measured, before=()):
    """One qubit measured, by the tables of merged corrections: B and then the projection; A, B and then it, which holds B·A."""
    seen = set()
    for branch, b, a, end_of_b, _, end in cases:
        for first, (phase, flag) in (([b], end_of_b), ([a, b], end)):
            new = branch if flag is None else flag
            if (branch, *first) not in seen:
                steps = [*map(correcting, first), *before, projecting(measured, 0, branch)]
                fold_all(lines, 1, [(steps, (0, phase, 0, 0), [*before, projecting(measured, 0, new)])])
            seen.add((branch, *first))


def folding_projections(lines):
    lines.say("Corrections before an X projection and a Z projection, of either branch; the pivot met and not.")
    fold_past(lines, PAST_X, X)
    fold_past(lines, PAST_Z, Z)
    lines.say("A quarter turn of Z between: X becomes Y.")
    fold_past(lines, TURNED_PAST_X, X, [turning(Z)])
    lines.say("Behind it: the branch stays.")
    for branch in (0, 1):
        step = projecting(X, 0, branch)
        fold_all(lines, 1, [([step, correcting((3, 0, 0))], (0, 3, 0, 0), [step])])


def folding_between(lines):
    xx = (0, 3, 0)
    lines.say("Before and between projections: neither pivot met; both; the second alone; letters above and below the pivot.")
    fold_all(lines, 2, [
        (
            [correcting(Z), projecting(X), correcting(X), projecting(Z)],
            (0, *I),
            [projecting(X, 0, 1), projecting(Z, 0, 1)],
        ),
        # X on the first is -X on what is left, Z·(-X) is -i Y, and -i Y·Z with the branch 1 is -X.
        (
            [correcting(X), projecting(xx, 0, 1), correcting(Z), projecting(Z)],
            (0, 2, 0, 0),
            [projecting(xx, 0, 1), projecting(Z, 0, 1)],
        ),
        # Z·X flips the branch to 0, and Z·X·X is Z, of which no letter is left.
        (
            [projecting(xx, 1), correcting(X), correcting(Z), projecting(X, 0, 1), correcting((1, 0, 0))],
            (0, 1, 0, 0),
            [projecting(xx, 1), projecting(X, 0, 0)],
        ),
    ])
    for q, p, pivot, branch, end, new in (
        ((1, 7, 5), (0, 7, 0), 1, 1, (3, 0, 3), 1),
        ((0, 2, 5), (0, 0, 7), 1, 0, (0, 0, 3), 1),
        ((0, 5, 2), (0, 0, 7), 2, 1, (0, 1, 2), 1),
        ((2, 5, 7), (0, 7, 0), 0, 0, (2, 1, 3), 1),
    ):
        fold_all(lines, 3, [([correcting(q), projecting(p, pivot, branch)], (2, *end), [projecting(p, pivot, new)])])


def folding_turns(lines):
    lines.say("A correction before a quarter turn: the field stays, the Pauli turns; behind it.")
    for q, p in [*itertools.product("XYZ", "XYZ"), ("X", "-Z"), ("Y", "-X")]:
        turned = TURNED.get((p[-1], q), q)
        end = negative(turned) if p[0] == "-" else turned
        step = turning(pauli_named(p))
        fold_all(lines, 1, [([correcting(LETTERS[q]), step], (1, *pauli_named(end)), [step])])
    lines.say("Before, between and behind: X, turned to Y, and X behind that; Z behind it, and a quarter turn that keeps it; other kinds.")
    rest = [rotating(Z, 1), projecting(Z)]
    fold_all(lines, 1, [
        ([turning(Z), correcting(X)], (1, *X), [turning(Z)]),
        ([correcting(X), turning(Z), correcting(X)], (1, *book_product("X", "Y")), [turning(Z)]),
        ([correcting(X), turning(Z), correcting(Z), turning(X)], (1, *book_product("Z", "Y")), [turning(Z), turning(X)]),
        # Z is turned to -Y, and Y·(-Y) is -I.
        ([correcting(Z), turning(X), rotating(Z), correcting(Y), projecting(Z)], (0, 2, 0, 0), [turning(X), *rest]),
        ([(4, correcting(X) + turning(Z))], (1, 2, 0, 0), [(4, turning(Z))]),
    ])


def folding_kinds(lines):
    lines.say("Every kind of step, with floats of every sort, which stay.")
    fold_all(lines, 2, [(EVERY_KIND[1:-1], (1, 3, 1, 1), [*EVERY_KIND[1:5], projecting((2, 0, 3), 0, 1, 1.25)])])
    fold_all(lines, 0, [(FROM_NONE[1:-1], (1, *X), FROM_NONE[1:4])])
    fold_all(lines, 1, [(DIAGONAL[1:-1], (0, *I), DIAGONAL[1:3])])
    least, most = 5e-324, 1.7976931348623157e308
    floats_of = lambda flag: [rotating(Z, flag, -0.0, least), rotating(Z, flag, 1.0, -1.0), promoting(-least, 0.0), projecting(Z, 0, flag, -most)]
    fold_all(lines, 1, [([correcting(X), *floats_of(0)], (1, *I), floats_of(1))])


def folding_lengths(lines):
    """Up to the last byte. Y times i squares to -1."""
    i_y, full, top = (2, 1, 1), 4095, 1 << 11
    lines.say("Corrections alone: 3,276 are 65,527 bytes, the most that there is room for, and 7 are left; one fewer; one more: 14.")
    corrections = lambda p, count: [(count, correcting(p))]
    fold_all(lines, 1, [
        (corrections(X, 3276), (1, *I), []),
        (corrections(X, 3275), (1, *X), []),
        (corrections(i_y, 3276), (1, *I), []),
        (corrections(i_y, 3275), (1, 0, 1, 1), []),
        ([(1638, correcting(X) + correcting(Z))], (1, 2, 0, 0), []),
    ])
    fold_all(lines, 12, [(corrections((1, full, full), 3276), (12, *I), []), (corrections((1, full, full), 3274), (12, 2, 0, 0), [])])
    lines.ask(fold_line(spelled(starting(1), *corrections(X, 3277), END), HELD), "refused 14 at 0 kept")
    lines.say("65,536 bytes, 17 rotations of them: all corrections first, one before each, X and Z in turn, all behind.")
    flipped = [(17, rotating(Z, 1))]
    in_turn = [(8, rotating(Z, 1) + rotating(Z)), rotating(Z, 1)]
    longest = [
        ([*corrections(X, 3245), (17, rotating(Z))], (1, *X), flipped),
        ([(17, correcting(X) + rotating(Z)), *corrections(X, 3228)], (1, *X), in_turn),
        ([(1622, correcting(X) + correcting(Z)), correcting(X), (17, rotating(Z))], (1, 2, 1, 0), flipped),
        ([(17, rotating(Z)), *corrections(Z, 3245)], (1, *Z), [(17, rotating(Z))]),
        # Whole rounds of quarter turns.
        ([correcting(X), (17, rotating(X)), (3244, turning(Z))], (1, *X), [(17, rotating(X)), (3244, turning(Z))]),
    ]
    for steps, _, _ in longest:
        assert length(spelled(starting(1), *steps, END)) == LONGEST
    fold_all(lines, 1, longest)
    long = spelled(starting(1), *longest[-1][0], END)
    lines.ask(fold_line(long, LONGEST - 21), "refused 16 kept")
    lines.ask(fold_line(long, HELD), folds((1, *X), 1, longest[-1][2], HELD - LONGEST + 20))
    lines.say("Quarter turns alone, 65,527 bytes: all are left.")
    fold_all(lines, 1, [([(3276, turning(Z))], (1, *I), [(3276, turning(Z))])])
    lines.say("Twelve qubits: 949 times X on the top one, which is measured and made again; one more behind.")
    measured = lambda branch: projecting((0, 0, top), 11, branch) + promoting()
    fold_all(lines, 12, [([(949, correcting((0, top, 0)) + measured(0)), correcting((1, top, 1))], (12, 1, top, 1), [(949, measured(1))])])
    lines.say("One byte more than 65,536, and 66,000 bytes: 14 at 0.")
    over = spelled(starting(1), (10, rotating()), (3258, correcting()), END)
    for text in (over, spelled(starting(1), END, (HELD - 7, bytes(1)))):
        lines.ask(fold_line(text, HELD), "refused 14 at 0 kept")
    lines.ask(fold_line(over, 0), "refused 14 at 0 kept")


def folding_room(lines):
    lines.say("16 for an output under the folded length alone; what lies past the folded run is kept. The run's own length plays no part.")
    every = [*EVERY_KIND[1:5], projecting((2, 0, 3), 0, 1, 1.25)]
    for run, end, left, short in (
        (EVERY_KIND, (1, 3, 1, 1), every, (0, 7, 142)),
        ([starting(1), (3, correcting()), END], (1, *X), [], (0, 1, 6)),
        ([starting(1), END], (1, *I), [], (0, 6)),
    ):
        text, n = spelled(*run), run[0][3]
        size, whole = length(spelled(starting(n), *left, END)), length(text)
        for room in short:
            lines.ask(fold_line(text, room), "refused 16 kept")
        for room in sorted({size, size + 1, whole - 1, whole, HELD}):
            if size <= room:
                lines.ask(fold_line(text, room), folds(end, n, left, room - size))


def folding_refused(lines):
    lines.say("A refused run: its row and its place, before 16, the output kept.")
    for place, (run, told) in enumerate(REFUSED_RUNS):
        lines.ask(fold_line(spelled(*run), 200 * (place % 2)), f"refused {told} kept")
    lines.say("Behind corrections, at its place in the run; faults in two fields: the first.")
    after = [starting(2), (3, correcting())]
    faults = [(rotating((1, 1, 0)), 7), (promoting(NAN), 8), (projecting(X, 2), 10), (correcting((0, 4, 0)), 3), (framed(5, bytes(16)), 14)]
    for field_of, row in faults:
        lines.ask(fold_line(spelled(*after, field_of, correcting((4, 0, 0)), END), 6 + row % 2), f"refused {row} at 64 kept")
    lines.ask(fold_line(spelled(*after), 7), "refused 14 at 64 kept")
    lines.ask(fold_line(spelled(*after, END, END), 0), "refused 14 at 67 kept")


def folding_emulated(lines):
    """As the service where the board has room, and 21 where not."""
    lines.say("Folded by the emulator: as by the service, from no qubit, by every kind of step, up to six and on six; 16.")
    to_six = [correcting((1, 31, 17)), promoting(), correcting((2, 32, 1)), projecting((0, 48, 1), 4), correcting(Z), promoting()]
    on_six = [correcting((3, 63, 32)), turning((0, 32, 1)), correcting((0, 1, 63)), projecting((0, 0, 63), 5, 1)]
    for run in (
        [starting(0), END], EVERY_KIND, FROM_NONE, DIAGONAL, [starting(5), *to_six, END], [starting(6), *on_six, END],
        [starting(6), (3276, correcting((1, 33, 1))), END],
    ):
        line = fold_line(spelled(*run), 200)
        lines.ask(on_emulator(line), answer(line))
    lines.ask(on_emulator(fold_line(spelled(*EVERY_KIND), 142)), "refused 16 kept")
    lines.say("21 for a start over six and a promotion at six, before 16; the service takes them. Its own rows at their places.")
    fold_all(lines, 7, [([correcting(X)], (7, *X), [])])
    fold_all(lines, 6, [([correcting(X), promoting()], (7, *X), [promoting()])])
    for room in (0, 100):
        for run, told in (
            ([starting(7), correcting(), END], "21 at 0"),
            ([starting(12), END], "21 at 0"),
            ([starting(6), correcting(), promoting(), END], "21 at 24"),
            ([starting(5), promoting(), correcting(), promoting(), END], "21 at 43"),
            ([starting(6), correcting((0, 64, 0)), END], "3 at 4"),
        ):
            lines.ask(on_emulator(fold_line(spelled(*run), room)), f"refused {told} kept")


def folding_unread(lines):
    lines.say("Not read: no number, two; an output of 66,001 bytes, and of the greatest number; a run of 66,001 bytes.")
    text, state = spelled(starting(1), correcting(), END), ([0.5, 0.0], [0.0, 0.25])
    long = spelled(starting(1), END, (HELD - 6, bytes(1)))
    for line in (f"fold-into {text}", f"fold-into {text} 7 7", *(fold_line(text, room) for room in (HELD + 1, 2**64 - 1))):
        lines.ask(line, "unread")
        lines.ask(on_emulator(line), "unread")
    for line in (fold_line(long, 7), equal_line(long, *state), equal_line(f"{text} 7", *state)):
        lines.ask(line, "unread")
    lines.ask(on_emulator(equal_line(f"{text} 7", *state)), "unread")


def folding_equal(lines):
    lines.say("A run, and the folded run with its end Pauli: corrections alone, by hand, with zeros of either sign and NaN, which move.")
    one = [0.5, -0.0], [0.25, 0.0]
    for steps, parts, told in (
        ([], one, one),
        ([correcting(X)], one, ([-0.0, 0.5], [0.0, 0.25])),
        ([correcting(Z)], one, ([0.5, 0.0], [0.25, -0.0])),
        ([correcting(X), correcting(Z)], one, ([-0.0, -0.5], [0.0, -0.25])),
        ([correcting(Z), correcting(X)], one, ([0.0, 0.5], [-0.0, 0.25])),
        ([correcting((1, 0, 0))] * 3, one, ([0.25, 0.0], [-0.5, 0.0])),
        ([correcting(Y)] * 2, one, one),
    ):
        lines.ask(equal_line(spelled(starting(1), *steps, END), *parts), alike(*told))
    # NaN and infinities are turned and moved alike.
    line = equal_line(spelled(starting(1), correcting(X), correcting(Z), END), [NAN, 1.0], [INFINITY, -0.0])
    lines.ask(line, alike([1.0, NAN], [-0.0, -INFINITY], "nan"))
    lines.say("Zeros that differ in their signs count as equal: Z before a rotation by X, of zeros.")
    line = equal_line(spelled(starting(1), correcting(Z), rotating(X), END), [0.0, 0.0], [0.0, 0.0])
    lines.ask(line, f"0{floats([0.0] * 4)} | 1{floats([0.0, -0.0, -0.0, -0.0])} | same")
    lines.say("Corrections before, between and behind each kind of step; the last qubit measured; the emulator alike.")
    two = [0.1, 0.2, 0.3, 0.7], [-0.3, 0.6, 1e-310, -0.9]
    kinds = [rotating((1, 3, 1)), turning((1, 3, 2)), promoting(), projecting((0, 3, 0), 1, 1), projecting((0, 0, 3), 0)]
    cases = [(2, [correcting((1, 3, 1)), step, correcting((2, 1, 0)), rotating(Y)]) for step in kinds]
    cases += [(1, [correcting(p), projecting(q, 0, branch), correcting((3, 0, 0))]) for p, q, branch in ((Y, X, 0), (X, Z, 1), (Z, Y, 0))]
    cases += [(2, EVERY_KIND[1:-1]), (0, FROM_NONE[1:-1]), (1, DIAGONAL[1:-1])]
    for place, (n, steps) in enumerate(cases):
        line = equal_line(spelled(starting(n), *steps, END), *(part[: 2**n] for part in two))
        assert answer(line).endswith(" same")
        lines.ask(line)
        if place % 3 == 0:
            lines.ask(on_emulator(line), answer(line))
    lines.say("Six qubits by both; the buffers have no room for eight. The run's refusals; 21.")
    wide = random_state(random.Random(2), 6)
    steps = [correcting((3, 33, 18)), rotating((1, 33, 32)), correcting((0, 0, 63)), projecting((0, 32, 1), 5)]
    line = equal_line(spelled(starting(6), *steps, END), *wide)
    lines.ask(line)
    lines.ask(on_emulator(line), answer(line))
    lines.ask(equal_line(spelled(starting(8), correcting(), END), *wide), "refused 13")
    lines.ask(equal_line(spelled(starting(2), correcting((4, 0, 0)), END), *two), "refused 3 at 4")
    lines.ask(on_emulator(equal_line(spelled(starting(7), correcting(), END), *wide)), "refused 21 at 0")
    lines.ask(on_emulator(equal_line(spelled(starting(6), correcting(), promoting(), END), *wide)), "refused 21 at 24")


def folding_infinite(lines):
    lines.say("0 times an infinity on one side only, where E2 promises nothing: X before an X projection, a quarter turn of Y; not of Z.")
    for step, state, verdict in (
        (projecting(), [0.0, INFINITY], "differ"),
        (turning(Y), [INFINITY, 0.0], "differ"),
        (turning(Z), [INFINITY, 0.0], "same"),
        (rotating(X, 0, 0.0, 1.0), [INFINITY, NAN], "nan"),
    ):
        line = equal_line(spelled(starting(1), correcting(), step, END), state, [0.0, 0.0])
        assert answer(line).endswith(f" {verdict}")
        lines.ask(line)
    lines.say("An amplitude that overflows on the way. The last projection reads it, and it is times 0; or the other, which is 0.")
    huge = [1.7976931348623157e308] * 2, [0.0, 0.0]
    for last in (projecting(Z, 0, 0, 0.0), projecting(Z, 0, 1, 1.0)):
        lines.ask(equal_line(spelled(starting(1), correcting(Z), rotating(Y, 0, 1.0, 1.0), last, END), *huge))


def limits():
    lines = Lines(answer)
    for section in (
        fields, starts, reads, accepted, single_rows, rows_together, wrong_fields, wrong_places,
        two_fields, cuts, lengths, room, values, carrying, passes, emulated, merging, seeking,
    ):
        section(lines)
    return lines.lines


# ---------------------------------------------------------------- random runs


def random_pauli(rng, n):
    """Any Hermitian Pauli on n qubits."""
    x, z = rng.randrange(2**n), rng.randrange(2**n)
    kind = rng.randrange(4)
    x, z = (x if kind != 1 else 0), (z if kind != 2 else 0)
    return ((bin(x & z).count("1") + 2 * rng.randrange(2)) % 4, x, z)


def random_phased(rng, n):
    """Any Pauli on n qubits, Hermitian or not."""
    return rng.randrange(4), rng.randrange(2**n), rng.randrange(2**n)


def random_unit(rng):
    return rng.choice([rng.uniform(-1, 1)] * 4 + [0.0, -0.0, 1.0, -1.0, 0.5, -0.5, 0.6, 0.8, 5e-324])


def random_step(rng, n, widest):
    kinds = ["rotation"] * 3 + ["correction"] + ["promotion"] * (n < widest) * 2 + ["projection"] * (n > 0) * 2
    kinds += ["quarter-turn"] * 2
    kind = rng.choice(kinds)
    if kind == "rotation":
        return rotating(random_pauli(rng, n), rng.randrange(2), random_unit(rng), random_unit(rng)), n
    if kind == "correction":
        return correcting((rng.randrange(4), rng.randrange(2**n), rng.randrange(2**n))), n
    if kind == "quarter-turn":
        return turning(random_pauli(rng, n)), n
    if kind == "promotion":
        return promoting(random_unit(rng), random_unit(rng)), n + 1
    p = (0, 0, 0)
    while p[1:] == (0, 0):
        p = random_pauli(rng, n)
    pivot = rng.choice([q for q in range(n) if (p[1] or p[2]) >> q & 1])
    invnorm = rng.choice([1.0, 1.0, 2**0.5, 2.0, 0.5, -1.0, 1.25, 0.0, rng.uniform(0.5, 3)])
    return projecting(p, pivot, rng.randrange(2), invnorm), n - 1


def random_run(rng, n, steps, widest):
    """An accepted run as a list of fields."""
    run = [starting(n)]
    for _ in range(steps):
        step, n = random_step(rng, n, widest)
        run.append(step)
    return [*run, END]


def random_corrected(rng, n, steps, widest):
    """As random_run, with as many corrections between."""
    run = [starting(n)]
    for left in range(steps, -1, -1):
        while rng.randrange(2):
            run.append(correcting(random_phased(rng, n)))
        if left:
            step, n = random_step(rng, n, widest)
            run.append(step)
    return [*run, END]


def random_scaled(rng, n, steps, widest):
    """As random_run; before a step a qubit may be made and measured at once, by which each amplitude is multiplied: out of the
    finite floats, or to 0, at once or the second time."""
    run = [starting(n)]
    for _ in range(steps):
        if n < widest and rng.randrange(2):
            scale = rng.choice([1e308, 1e308, -1e308, 1.7976931348623157e308, 1e200, 1e-200, -5e-324])
            run += [promoting(1.0, 0.0), projecting((0, 0, 1 << n), n, 0, scale)]
        step, n = random_step(rng, n, widest)
        run.append(step)
    return [*run, END]


def random_float(rng, finite=True):
    x = rng.choice([rng.uniform(-1, 1)] * 5 + [0.0, -0.0, 0.5, -0.5, 1.0, -1.0, 5e-324, -5e-324, 1e-310])
    return x if finite or rng.randrange(4) else rng.choice([INFINITY, -INFINITY, NAN, 1e308])


def random_state(rng, n, finite=True):
    return [[random_float(rng, finite) for _ in range(2**n)] for _ in (0, 1)]


def replay():
    """Accepted runs on finite states, where demand 3 promises `same`; then on others."""
    rng, lines = random.Random(3), Lines(answer)
    lines.say("Runs of every kind of step from 0 to 4 qubits on finite states: the same by demand 3.")
    kinds = set()
    for place in range(150):
        n = place % 5
        run = random_run(rng, n, rng.randrange(1, 9), 5)
        kinds |= {field_of[0] for field_of in run}
        q = (rng.randrange(4), rng.randrange(2**n), rng.randrange(2**n))
        line = both_line(spelled(*run), n, q, *random_state(rng, n))
        _, verdict, finite = both_sides(b"".join(run), SERVICE, Pauli(n, *q), *buffers_of(line))
        assert finite and verdict == "same"
        lines.ask(line)
    assert kinds == {1, 2, 3, 4, 5, 6, 7}
    lines.say("With infinities and NaN in the state: demand 3 promises nothing.")
    for place in range(20):
        n = 1 + place % 3
        run = random_run(rng, n, rng.randrange(1, 5), 4)
        q = (rng.randrange(4), rng.randrange(2**n), rng.randrange(2**n))
        lines.ask(both_line(spelled(*run), n, q, *random_state(rng, n, False)))
    lines.say("0 times an infinity on one side only: X past an X projection of (0, 0), (inf, 0).")
    state = [0.0, INFINITY], [0.0, 0.0]
    lines.ask(both_line(spelled(starting(1), projecting(), END), 1, X, *state))
    lines.ask(both_line(spelled(starting(1), projecting(Y), END), 1, X, *state))
    both_turned(lines)
    return lines.lines


def both_turned(lines):
    """Quarter turns that turn what is carried past them, and on states that are not finite."""
    lines.say("Quarter turns: the book's, in a row, on two qubits with P of each kind, and before each other kind.")
    one = [0.5, -0.75], [0.25, -0.0]
    two = [0.1, 0.2, 0.3, 0.7], [-0.3, 0.6, 1e-310, -0.9]
    cases = [(1, q, [turning(p)]) for q, p in ((X, Z), (Y, Z), (Z, X), (X, Y), ((3, 1, 0), (3, 1, 1)), (Z, Z))]
    cases += [(1, X, [turning(Z)] * 4), (1, X, [turning(Z), turning()]), (0, (1, 0, 0), [turning((2, 0, 0))])]
    cases += [(2, q, [turning(p)]) for q, p in (((0, 0, 3), X), ((0, 1, 2), (2, 3, 3)), ((1, 3, 1), (0, 1, 2)), ((0, 2, 0), (2, 0, 2)))]
    cases += [(1, X, [turning(Z), step]) for step in (rotating(), promoting(), projecting(X, 0, 1), correcting())]
    for n, q, steps in cases:
        line = both_line(spelled(starting(n), *steps, END), n, q, *([[0.5], [-0.25]], one, two)[n])
        assert answer(line).endswith(" same")
        lines.ask(line)
    lines.say("0 times an infinity on one side only: X past a quarter turn of Y of (inf, 0), (0, 0). Past Z, and Z past X, there is none.")
    state = [INFINITY, 0.0], [0.0, 0.0]
    for q, p, verdict in ((X, Y, "differ"), (X, Z, "same"), (Z, X, "same")):
        line = both_line(spelled(starting(1), turning(p), END), 1, q, *state)
        assert answer(line).endswith(f" {verdict}")
        lines.ask(line)


def merges():
    """Accepted runs with two Paulis on their start qubits: E11 promises `same`, whatever the floats are."""
    rng, lines, met, turned = random.Random(11), Lines(answer), {}, {}
    lines.say("Runs of every kind of step from 0 to 5 qubits, and B and A of any phase: the same by E11.")
    kinds, emulator = set(), []
    for place in range(150):
        n = place % 6
        run = random_run(rng, n, rng.randrange(1, 9), 6)
        kinds |= {field_of[0] for field_of in run}
        b, a = ((n, rng.randrange(4), rng.randrange(2**n), rng.randrange(2**n)) for _ in (0, 1))
        line = merge_line(spelled(*run), b, a)
        assert answer(line).endswith(" | same")
        lines.ask(line)
        emulator += [line] * (place % 5 == 0)
        count_meetings(b"".join(run), Pauli(*b), Pauli(*a), met, turned)
    assert kinds == {1, 2, 3, 4, 5, 6, 7}
    # Of B and of A, at a projection's pivot and at a quarter turn.
    assert all(seen.get((b, a), 0) > 9 for seen in (met, turned) for b in (0, 1) for a in (0, 1)), (met, turned)
    lines.say("Thirty of them by the emulator.")
    for line in emulator:
        lines.ask(on_emulator(line), answer(line))
    return lines.lines


def count_meetings(run, b, a, met, turned):
    """How many projections have B, A, both or neither at their pivot, and how many quarter turns turn them; A goes past what B leaves."""
    for _, step in walk(run, SERVICE)[1]:
        left, after = passed(b, step)
        if step[0] == "projection":
            key = meets(b, *step[1:3]), meets(a, *left[1:3])
            met[key] = met.get(key, 0) + 1
        elif step[0] == "quarter-turn":
            key = anticommute(b, step[1]), anticommute(a, left[1])
            turned[key] = turned.get(key, 0) + 1
        b, a = after, passed(a, left)[1]


def starts_for_ends():
    """Accepted runs, each with an end that a start was carried to, and with any Pauli on its last qubits."""
    rng, lines, counts = random.Random(15), Lines(answer), Counter()
    lines.say("Runs of every kind of step from 0 to 12 qubits: an end that has a start, and one that may have none.")
    emulator = []
    for place in range(150):
        n = place % 13
        # Those from 0 to 5 qubits suit the emulator.
        run = random_run(rng, n, rng.randrange(1, 8), 6 if n < 6 else 12)
        _, steps = walk(b"".join(run), SERVICE)
        reached = end_of(Pauli(n, *random_phased(rng, n)), steps)
        other = Pauli(reached.n, *random_phased(rng, reached.n))
        asked = [seek_line(spelled(*run), (end.n, end.k, end.x, end.z)) for end in (reached, other)]
        lines.ask(asked[0], f"start {n} | carried {reached.shown()} | same")
        lines.ask(asked[1])
        if n < 6 and len(emulator) < 30:
            emulator.append(asked[place % 2])
        count_seeking(counts, n, steps, reached, other)
    # Ends that are found and that are not, of runs that grow, keep their width and shrink; each kind of step; each phase.
    wanted = [(sort, grows) for sort in ("found", "25") for grows in (-1, 0, 1)] + [("phase", k) for k in range(4)]
    wanted += [("kind", tag) for tag in ("rotation", "promotion", "projection", "correction", "quarter-turn")]
    wanted += [("from", n) for n in range(13)] + ["shared", "letter on a new qubit", "phase turned", "both ways"]
    assert all(counts[what] > 4 for what in wanted), counts
    lines.say("Thirty of them by the emulator.")
    told = [answer(line) for line in emulator]
    assert len(told) == 30 and 4 < told.count(NO_START) < 26
    for line, same in zip(emulator, told):
        lines.ask(on_emulator(line), same)
    return lines.lines


def count_seeking(counts, width, steps, reached, other):
    """Which cases these two ends of a run are; from few qubits, whether both ways of finding a start agree."""
    grows = (reached.n > width) - (reached.n < width)
    counts["25" if matched(width, steps, other) is None else "found", grows] += 1
    counts["phase", reached.k] += 1
    counts["from", width] += 1
    for kind in {step[0] for _, step in steps}:
        counts["kind", kind] += 1
    letters = [Pauli(width, 0, x << q, z << q) for q in range(width) for x, z in ((1, 0), (0, 1))]
    # A letter of which no letter is left: each end that is reached has several starts.
    counts["shared"] += 0 in [joined(end_of(letter, steps)) for letter in letters]
    counts["letter on a new qubit"] += (reached.x | reached.z) >> width > 0
    counts["phase turned"] += matched(width, steps, reached).k != reached.k
    if width <= 3:
        for end in (reached, other):
            assert (tried(width, steps, end) is None) == (matched(width, steps, end) is None), "both ways"
            counts["both ways"] += 1


def folded_runs():
    """Runs with many corrections: what is left of them, by the request's way and by carrying each correction to the end; then run
    from finite states, where E2 promises `same`, and from others; then damaged."""
    rng, lines, counts = random.Random(40), Lines(answer), Counter()
    folding(lines)
    lines.say("Runs of every kind of step from 0 to 12 qubits, half of their fields corrections; some by the emulator too.")
    for place in range(39):
        n = place % 13
        run = b"".join(random_corrected(rng, n, rng.randrange(1, 8), 6 if n < 6 else 12))
        folded, end = fold(run, SERVICE, HELD)
        other, last = folded_from_behind(run, SERVICE)
        assert (folded, end.shown()) == (other, last.shown()), "both ways"
        line = fold_line(spelled(run), len(folded) + place % 3)
        lines.ask(line)
        if n < 6 and place % 2:
            lines.ask(on_emulator(line), answer(line))
        count_folding(counts, run)
    lines.say("From 0 to 4 qubits on finite states: the same by E2.")
    for place in range(40):
        n = place % 5
        run = b"".join(random_corrected(rng, n, rng.randrange(1, 6), 5))
        line = equal_line(spelled(run), *random_state(rng, n))
        _, verdict, finite = folded_sides(run, SERVICE, *buffers_of(line))
        assert finite and verdict == "same"
        lines.ask(line)
        count_folding(counts, run)
    wanted = [(kind, flag) for kind in ("rotation", "quarter-turn") for flag in (0, 1)] + ["promotion", "order"]
    wanted += [("projection", *case) for case in itertools.product((0, 1), repeat=3)]
    assert all(counts[what] > 3 for what in wanted), counts
    lines.say("With infinities and NaN in the state: E2 promises nothing.")
    for place in range(12):
        n = 1 + place % 3
        run = random_corrected(rng, n, rng.randrange(1, 5), 4)
        lines.ask(equal_line(spelled(*run), *random_state(rng, n, False)))
    lines.say("Damaged.")
    refused_runs = 0
    for place in range(16):
        n = place % 7
        whole = faulty(rng, random_corrected(rng, n, rng.randrange(1, 6), 7))
        line = fold_line(spelled(whole) if whole else spelled(), max(0, len(whole) - 10 * (place % 4)))
        line = on_emulator(line) if place % 5 == 0 else line
        refused_runs += answer(line).startswith("refused")
        lines.ask(line)
    assert 8 < refused_runs < 16
    return lines.lines


def count_folding(counts, run):
    """What the Pauli meets on its way: a sign that flips, a quarter turn that turns it, a projection by its branch, whether it
    flips and whether its pivot is met, and corrections whose product depends on the order."""
    width, steps = walk(run, SERVICE)
    pauli = Pauli(width, 0, 0, 0)
    for _, step in steps:
        kind, *rest = step
        if kind == "correction":
            counts["order"] += anticommute(pauli, rest[0])
            pauli = product(rest[0], pauli)
            continue
        if kind == "projection":
            counts[kind, rest[2], anticommute(pauli, rest[0]), meets(pauli, *rest[:2])] += 1
        elif kind == "promotion":
            counts[kind] += (pauli.x | pauli.z) > 0
        else:
            counts[kind, anticommute(pauli, rest[0])] += 1
        pauli = passed(pauli, step)[1]


# Single steps from basis 0: the width, the Pauli, the step, and what the two files leave by hand, which is the same in bits where
# it is given once.
C, S, H = 0.6, 0.8, model.H
SINGLE_STEPS = [
    # Rotations by Z, X and Y: the sign flips, and stays.
    (1, X, rotating(Z), [(0.0, 0.0), (C, S)]),
    (1, Z, rotating(Z), [(C, -S), (0.0, -0.0)], [(C, -S), (-0.0, -0.0)]),
    (1, Z, rotating(X), [(C, 0.0), (0.0, -S)], [(C, 0.0), (-0.0, -S)]),
    (1, X, rotating(X), [(0.0, -S), (C, 0.0)]),
    (1, X, rotating(Y), [(-S, 0.0), (C, 0.0)]),
    (1, Z, rotating(Y), [(C, 0.0), (S, 0.0)], [(C, 0.0), (S, -0.0)]),
    (1, Y, rotating(Y), [(0.0, -S), (0.0, C)], [(0.0, -S), (-0.0, C)]),
    # Promotions: from no qubit, where the Pauli is a phase, and from one.
    (0, (1, 0, 0), promoting(), [(-0.0, C), (-S, -0.0)]),
    (1, X, promoting(), [(0.0, 0.0), (C, 0.0), (-0.0, 0.0), (-0.0, S)]),
    # Projections of Z, -Z and ZZ: the branch flips; the Pauli is absorbed; both; neither.
    (1, X, projecting(Z, 0, 1, 2.0), [(2.0, 0.0)]),
    (1, Z, projecting(Z, 0, 1, 2.0), [(-0.0, -0.0)]),
    (1, Y, projecting(Z, 0, 0, 2.0), [(0.0, -0.0)]),
    (1, Y, projecting(Z, 0, 1, 2.0), [(-0.0, 2.0)]),
    (1, X, projecting((2, 0, 1), 0, 0, -1.0), [(-1.0, -0.0)]),
    (2, (0, 3, 0), projecting((0, 0, 3)), [(0.0, 0.0), (1.0, 0.0)]),
    # Of X, XX and Y: the branch flips; the Pauli is absorbed; both; neither; both.
    (1, Z, projecting(X), [(H, 0.0)]),
    (1, X, projecting(X, 0, 1), [(-H, 0.0)], [(-H, -0.0)]),
    (1, Y, projecting(X), [(0.0, H)], [(-0.0, H)]),
    (2, (0, 0, 3), projecting((0, 3, 0), 1), [(H, 0.0), (-0.0, 0.0)], [(H, 0.0), (-0.0, -0.0)]),
    (1, X, projecting(Y), [(0.0, -H)]),
    # Corrections: the phase rises, stays, rises.
    (1, Z, correcting(X), [(-0.0, -0.0), (1.0, 0.0)]),
    (1, Z, correcting(Z), [(1.0, 0.0), (0.0, 0.0)]),
    (1, X, correcting(Y), [(0.0, -1.0), (-0.0, 0.0)]),
    # Quarter turns: X becomes Y, Z stays, Z becomes -Y.
    (1, X, turning(Z), [(0.0, 0.0), (H, H)], [(0.0, -0.0), (H, H)]),
    (1, Z, turning(Z), [(H, -H), (0.0, -0.0)], [(H, -H), (-0.0, -0.0)]),
    (1, Z, turning(X), [(H, 0.0), (0.0, -H)]),
]


def basis_0(n):
    """Amplitude (1, 0) at basis 0."""
    return [1.0] + [0.0] * (2**n - 1), [0.0] * 2**n


def by_hand(side):
    """The listing of these amplitudes as both-show tells it: 0 added to either zero is +0."""
    text = f"qubits {len(side).bit_length() - 1}/"
    text += "".join(f"{b}{floats([re + 0.0, im + 0.0])}/" for b, (re, im) in enumerate(side))
    return f"{len(text)} {text}"


def list_both(lines, n, steps, q, left, right=None, verdict="same", numbers="same"):
    """What the two files leave, by hand, as listings and in bits."""
    text, right = spelled(starting(n), *steps, END), right or left
    lines.ask(show_line(text, (n, *q)), " | ".join([by_hand(left), by_hand(right), verdict]))
    bits = [f"{b}{floats([*one, *other])}" for b, (one, other) in enumerate(zip(left, right))]
    lines.ask(both_line(text, n, q, *basis_0(n)), " | ".join([*bits, numbers]))


def former_texts(run, pauli):
    """What `bench` printed of the two files before E6, by `shown`, and prints now."""
    each = [listed(file, shown, printed) for file in two_files(run, pauli, *carry(run, SERVICE, pauli, HELD))]
    return tuple(zip(*each))


def both_listings():
    """E6: both files' listings, by hand, of runs of every kind, at the limits, refused, unread and random."""
    lines = Lines(answer)
    listing_single_steps(lines)
    listing_kinds(lines)
    listing_wide(lines)
    listing_infinite(lines)
    listing_longest(lines)
    listing_refused(lines)
    listing_unread(lines)
    listing_random(lines)
    return lines.lines


def listing_single_steps(lines):
    lines.say("Both listings, and in bits what is left from basis 0: no step, where both files are the same.")
    for n, q, side in (
        (0, I, [(1.0, 0.0)]),
        (0, (1, 0, 0), [(-0.0, 1.0)]),
        (0, (2, 0, 0), [(-1.0, -0.0)]),
        (1, X, [(0.0, 0.0), (1.0, 0.0)]),
        (1, Z, [(1.0, 0.0), (-0.0, -0.0)]),
        (1, (3, 1, 1), [(-0.0, 0.0), (0.0, -1.0)]),
    ):
        list_both(lines, n, [], q, side)
    lines.say("Each kind of step, by hand: where the bits differ in a zero's sign, the listings do not.")
    differed = 0
    for n, q, step, *sides in SINGLE_STEPS:
        list_both(lines, n, [step], q, *sides)
        former, now = former_texts(starting(n) + step + END, Pauli(n, *q))
        assert (former[0] != former[1]) == (len(sides) == 2) and now[0] == now[1]
        differed += former[0] != former[1]
    assert differed == 9


def listing_kinds(lines):
    lines.say("Every kind of step in one run, from none to four qubits.")
    grown = [starting(2), promoting(), rotating((1, 5, 4)), promoting(S, -C), turning((0, 12, 3)), projecting((2, 0, 10), 3, 1), END]
    four = [starting(4), turning((0, 15, 0)), rotating((0, 0, 9), 1), correcting((1, 8, 3)), rotating((1, 6, 12)), END]
    differed = 0
    for run, n, paulis in (
        (EVERY_KIND, 2, [(0, 1, 2), (1, 3, 3), (2, 2, 0)]),
        (FROM_NONE, 0, [(3, 0, 0)]),
        (DIAGONAL, 1, [X, Z]),
        (TURNS, 0, [(2, 0, 0)]),
        (grown, 2, [(0, 3, 1), (3, 0, 2)]),
        (four, 4, [(0, 0, 5), (1, 10, 7)]),
    ):
        for q in paulis:
            line = show_line(spelled(*run), (n, *q))
            assert answer(line).endswith(" | same")
            lines.ask(line)
            lines.ask(both_line(spelled(*run), n, q, *basis_0(n)))
            former, _ = former_texts(b"".join(run), Pauli(n, *q))
            differed += former[0] != former[1]
    assert differed > 3, differed


def listing_wide(lines):
    lines.say("Twelve qubits: X on the top one and no step, 158,644 bytes; reached by promotions; three steps; eleven left.")
    top = 1 << 11
    projected = [rotating((0, 0, 0xFFF)), projecting((0, 0xFFF, 0), 11, 1)]
    for n, q, steps, size in (
        (12, (0, top, 0), [], 158644),
        (0, (3, 0, 0), [(12, promoting())], 158644),
        (12, (2, 0x5A5, 0xC3C), [rotating((1, top | 1, top)), turning((0, 0xFFF, 0)), correcting((3, 0xF, 0xF0))], 158644),
        (12, (0, 1, 0x801), projected, 10 + 10 * 36 + 90 * 37 + 900 * 38 + 1048 * 39),
    ):
        line = show_line(spelled(starting(n), *steps, END), (n, *q))
        first, second, verdict = answer(line).split(" | ")
        assert first == second and first.startswith(f"{size} ") and verdict == "same"
        lines.ask(line)


def listing_infinite(lines):
    """1e308 times itself is an infinity: E6 promises nothing."""
    overflow = [projecting((0, 0, 4), 2, 0, 1e308), projecting((0, 0, 2), 1, 0, 1e308)]
    lines.say("An infinity on the way, where nothing is promised: times 0 on one side only, and the texts differ.")
    list_both(lines, 3, [*overflow, correcting(), projecting()], X, [(INFINITY, 0.0)], [(INFINITY, NAN)], "differ", "differ")
    lines.say("It is left by both; times 0 by both; left by neither. The texts are equal.")
    list_both(lines, 3, overflow, X, [(0.0, 0.0), (INFINITY, 0.0)])
    list_both(lines, 3, [*overflow, projecting(Z, 0, 1, 0.0)], X, [(NAN, 0.0)], None, "same", "nan")
    list_both(lines, 3, [*overflow, projecting(Z)], X, [(0.0, 0.0)])
    for last in ([correcting(), projecting()], [], [projecting(Z, 0, 1, 0.0)], [projecting(Z)]):
        carried, _ = carry(b"".join([starting(3), *overflow, *last, END]), SERVICE, Pauli(3, *X), HELD)
        assert not stays_finite(carried)
    lines.say("2^1023 times, then 2^-1022 times: finite.")
    scaled = [projecting((0, 0, 2), 1, 0, 2.0**1023), promoting(1.0, 0.0), projecting((0, 0, 2), 1, 0, 2.0**-1022)]
    list_both(lines, 2, scaled, Z, [(2.0, 0.0), (-0.0, -0.0)])


def listing_longest(lines):
    lines.say("A run of 65,516 bytes: both files are 65,536. Rotations by X with c 1 and s 0, and X 3,244 times: by hand.")
    still, ones = rotating(X, 0, 1.0, 0.0), [(1.0, 0.0), (0.0, 0.0)]
    run = lambda rotation, *pieces: spelled(starting(1), rotation, *pieces, END)
    fits = run((17, still), (3244, correcting()))
    assert length(fits) == LONGEST - 20
    for q, side in ((Z, ones), (X, ones[::-1]), (I, ones)):
        lines.ask(show_line(fits, (1, *q)), " | ".join([by_hand(side), by_hand(side), "same"]))
    lines.say("17 rotations, and quarter turns, whole rounds of them.")
    turned = run((17, rotating()), (3244, turning(Z)))
    assert length(turned) == LONGEST - 20
    for q in (X, Z, Y):
        assert answer(show_line(turned, (1, *q))).endswith(" | same")
        lines.ask(show_line(turned, (1, *q)))
    lines.say("65,517 bytes, then 65,536: both files are refused by 14. 65,537 and 66,000: carrying refuses.")
    for text, size in ((run((10, still), (3257, correcting())), LONGEST - 19), (run((17, still), (3245, correcting())), LONGEST)):
        assert length(text) == size
        for q in (X, I):
            lines.ask(show_line(text, (1, *q)), "11 refused 14/ | 11 refused 14/ | same")
        lines.ask(show_line(text, (2, *X)), "refused 4")
    over = run((10, still), (3258, correcting()))
    assert length(over) == LONGEST + 1
    for text in (over, spelled(starting(1), END, (HELD - 7, bytes(1)))):
        lines.ask(show_line(text, (1, *X)), "refused 14 at 0")
        lines.ask(show_line(text, (257, *X)), "refused 14 at 0")


def listing_refused(lines):
    lines.say("Refused as carrying is: the run's row and place, before 3 and 4 of the Pauli; these.")
    for place, (run, told) in enumerate(REFUSED_RUNS):
        pauli = ((2, *X), (3, 0, 4, 0), (2, 4, 0, 0), (257, *I))[place % 4]
        lines.ask(show_line(spelled(*run), pauli), f"refused {told}")
    good = spelled(starting(2), rotating((0, 0, 1)), END)
    for row, paulis in (
        (3, [(2, 4, 0, 0), (2, 0, 4, 0), (2, 0, 0, 4), (257, *I), (3, 4, 0, 0), (1, 0, 2, 0), (2**64 - 1, *I)]),
        (4, [(0, *I), (1, *X), (3, *X), (12, *I), (256, *I)]),
    ):
        for pauli in paulis:
            lines.ask(show_line(good, pauli), f"refused {row}")


def listing_unread(lines):
    lines.say("Not read: no number, one too few, one too many; a run of 66,001 bytes; for the emulator, which has no listing.")
    unread_of_four(lines, "both-show", show_line)
    for text, n in ((spelled(starting(1), END), 1), (spelled(), 1), (spelled(starting(7), END), 7)):
        lines.ask(on_emulator(show_line(text, (n, *X))), "unread")


def listing_random(lines):
    rng, counts = random.Random(66), Counter()
    lines.say("Random runs from 0 to 4 qubits, in bits too up to 2: the same by E6.")
    for place in range(40):
        n = place % 5
        run = random_run(rng, n, rng.randrange(3, 9), 5)
        q = random_phased(rng, n)
        line = show_line(spelled(*run), (n, *q))
        assert answer(line).endswith(" | same")
        lines.ask(line)
        if n < 3:
            lines.ask(both_line(spelled(*run), n, q, *basis_0(n)))
        former, now = former_texts(b"".join(run), Pauli(n, *q))
        counts["a zero's sign"] += former[0] != former[1]
        counts["zeros alike"] += former[0] == former[1] != now[0]
        count_carrying(counts, b"".join(run), Pauli(n, *q))
    wanted = ["a zero's sign", "zeros alike", "promotion"]
    wanted += [(kind, flag) for kind in ("correction", "quarter-turn") for flag in (0, 1)]
    wanted += [("rotation", mask, flag) for mask in ("z", "x", "xz") for flag in (0, 1)]
    wanted += [("projection", mask, flip, met) for mask in ("z", "x") for flip in (0, 1) for met in (0, 1)]
    assert all(counts[what] > 1 for what in wanted), counts
    lines.say("With floats that overflow, or vanish: equal texts and others.")
    told = Counter()
    while min(told["same"], told["differ"]) < 4:
        n = rng.randrange(4)
        run = random_scaled(rng, n, rng.randrange(2, 6), 4)
        q = random_phased(rng, n)
        carried, _ = carry(b"".join(run), SERVICE, Pauli(n, *q), HELD)
        line = show_line(spelled(*run), (n, *q))
        verdict = answer(line).rpartition(" ")[2]
        if stays_finite(carried) or told[verdict] == 4:
            continue
        told[verdict] += 1
        lines.ask(line)


def masks_of(pauli):
    return "z" if pauli.x == 0 else "xz" if pauli.z else "x"


def count_carrying(counts, run, pauli):
    """What the Pauli meets on its way: a rotation by its masks and a quarter turn, each flipped or turned or not; a projection with
    or without X part, whether it flips and whether its pivot is met; a correction that raises its phase or not."""
    for _, step in walk(run, SERVICE)[1]:
        kind, *rest = step
        flips = 0 if kind == "promotion" else anticommute(pauli, rest[0])
        if kind == "rotation":
            counts[kind, masks_of(rest[0]), flips] += 1
        elif kind == "projection":
            counts[kind, "x" if rest[0].x else "z", flips, meets(pauli, *rest[:2])] += 1
        elif kind == "promotion":
            counts[kind] += (pauli.x | pauli.z) > 0
        else:
            counts[kind, flips] += 1
        pauli = passed(pauli, step)[1]


def buffers_of(line):
    return [[number(int(word, 16)) for word in part.split()] for part in line.split("|")[1:]]


# ------------------------------------------------------------------ the fuzz


def faulty(rng, run):
    """A run with something wrong in it, as bytes."""
    run = list(run)
    kind = rng.choice([0, 1, 2, 2, 2, 2, 3, 4, 5, 6, 7, 8])
    if kind == 0:  # A field left out, doubled, or two exchanged.
        place, other = rng.randrange(len(run)), rng.randrange(len(run))
        change = rng.randrange(3)
        if change == 0:
            del run[place]
        elif change == 1:
            run.insert(other, run[place])
        else:
            run[place], run[other] = run[other], run[place]
    elif kind == 1:  # A step of another width put in.
        step, _ = random_step(rng, rng.randrange(13), 13)
        run.insert(rng.randrange(1, len(run) + 1), rng.choice([step, projecting(I)]))
    elif kind == 2:  # One or two parts of a body (k, x, z, sign or pivot, branch) set to another value.
        for _ in range(rng.randrange(1, 3)):
            place = rng.randrange(len(run))
            body = bytearray(run[place][3:])
            at = rng.choice([0, 0, 1, 9, 17, 17, 18, rng.randrange(34)])
            if at < len(body):
                body[at] = rng.choice([0, 1, 2, 3, 4, rng.randrange(256)])
                run[place] = framed(run[place][0], bytes(body))
    elif kind == 3:  # A float that no row takes.
        place = rng.randrange(len(run))
        body, bad = run[place][3:], struct.pack("<d", rng.choice([NAN, INFINITY, -INFINITY, ABOVE_ONE, -2.0]))
        at = {2: rng.choice([18, 26]), 3: rng.choice([0, 8]), 4: 19}.get(run[place][0])
        if at is not None:
            run[place] = framed(run[place][0], body[:at] + bad + body[at + 8 :])
    elif kind == 4:  # A length or a tag that is another's.
        place = rng.randrange(len(run))
        tag, body = run[place][0], run[place][3:]
        tag = rng.choice([tag, rng.randrange(9), rng.randrange(256)])
        run[place] = framed(tag, rng.choice([body, body[:-1], body + bytes(1), body + body]))
    whole = bytearray(b"".join(run))
    if kind == 5 and whole:  # Cut.
        del whole[rng.randrange(len(whole)) :]
    elif kind == 6:  # Bytes put in or past the end.
        at = rng.choice([len(whole), rng.randrange(len(whole) + 1)])
        whole[at:at] = bytes(rng.choice([0, 6, rng.randrange(256)]) for _ in range(rng.randrange(1, 5)))
    elif kind == 7:  # Bits flipped.
        for _ in range(rng.randrange(1, 4)):
            whole[rng.randrange(len(whole))] ^= 1 << rng.randrange(8)
    elif kind == 8:  # Bytes of any sort.
        whole = bytearray(rng.choice([rng.randrange(256), rng.randrange(9), 0]) for _ in range(rng.randrange(40)))
    return bytes(whole)


def random_text(rng, n, widest, made=random_run):
    run = made(rng, n, rng.randrange(7), widest)
    if rng.randrange(10) == 0:  # Another start: what fits n qubits fits more.
        run[0] = starting(rng.choice([5, 6, 6, 7, 7, 8, 12, 13, 255]))
    if rng.randrange(2):
        return spelled(*run), b"".join(run)
    whole = faulty(rng, run)
    if rng.randrange(4) == 0:
        whole = faulty(rng, [whole or END, END])
    return spelled(whole) if whole else spelled(), whole


def cursors(run):
    """The places of the fields, by their lengths, and the widths there, by their tags."""
    at, width, places = 0, start(run) or 0, []
    while True:
        places.append((at, width))
        try:
            tag, _, at = field(run, at)
        except RefusedAt:
            return places
        width = max(0, width + {3: 1, 4: -1}.get(tag, 0))


def random_buffer(rng, exact):
    size = max(0, exact + rng.choice([0, 0, 0, 0, 0, 0, -1, 1, 3, -exact]))
    return [random_float(rng, rng.randrange(6) > 0) for _ in range(size)]


def random_line(rng):
    shares = {"check": 20, "run": 16, "carry": 16, "passing": 8, "both": 11, "step": 8, "merge": 8, "seeker": 10, "field": 4, "start": 4, "cuts": 1}
    shares |= {"fold-into": 20, "fold-equal": 11, "both-show": 12}
    call = rng.choices(list(shares), list(shares.values()))[0]
    if call == "passing":
        return random_pass(rng)
    if call == "both-show":
        return random_show(rng)
    if call in ("check", "run", "carry", "both", "step", "merge", "seeker", "fold-into", "fold-equal") and rng.randrange(3) == 0:
        # The emulator, and some of the same runs on the service: around its six qubits and few.
        line = random_run_line(rng, call, *rng.choice([(2, 6), (4, 7), (5, 6), (5, 7), (5, 8), (6, 6), (6, 7), (6, 8), (7, 8)]))
        step = f"{line} {rng.choice([6, 6, 7, 12])}" if call == "step" else line
        return on_emulator(line) if rng.randrange(5) else step
    n = rng.choice([0, 1, 1, 2, 2, 2, 3, 3, 4, 5, 6, 7, 11, 12])
    line = random_run_line(rng, call, n, max(n, rng.choice([2, 3, 4, 5, 6, 7, 12, 13])))
    return f"{line} {rng.choice([12, 12, 12, 6, rng.randrange(15)])}" if call == "step" else line


def random_run_line(rng, call, n, widest):
    """A call on a run from n qubits, for either caller; a step without its limit."""
    text, run = random_text(rng, n, widest, random_corrected if call.startswith("fold-") else random_run)
    if call in ("check", "cuts", "start"):
        return f"{call} {text}"
    if call in ("field", "step"):
        at, width = rng.choice(cursors(run))
        at = rng.choice([at, at, at, 0, 4, len(run), rng.randrange(len(run) + 4)])
        width = rng.choice([width, width, width, rng.randrange(14), rng.randrange(5, 8)])
        return f"{call} {text} {at}" + f" {width}" * (call == "step")
    try:
        _, _, greatest, scratch = survey(run, SERVICE)
    except RefusedAt:
        greatest, scratch = rng.randrange(3), rng.randrange(3)
    if call == "run":
        # Where there is no room in the program's buffers for all, for some.
        state, left = (2**greatest, scratch) if greatest <= 7 else (33, min(scratch, 33))
        sizes = [max(0, left + rng.choice([0, 0, 0, 0, 0, -1, 1])) for _ in (0, 1)]
        return run_line(text, *[random_buffer(rng, state) for _ in (0, 1)], *sizes)
    if call == "merge":
        line = merge_line(text, *(any_pauli(rng, n) for _ in (0, 1)))
        return line if rng.randrange(30) else rng.choice([line + " 0", line.rpartition(" ")[0]])
    if call == "seeker":
        line = seek_line(text, any_end(rng, run, n))
        return line if rng.randrange(40) else rng.choice([line + " 0", line.rpartition(" ")[0]])
    if call == "fold-into":
        line = fold_line(text, any_room(rng, run))
        return line if rng.randrange(40) else rng.choice([line + " 0", line.rpartition(" ")[0]])
    first = min(start(run) or 0, 7)  # A wider run has no room in the program's buffers.
    if call == "fold-equal":
        return equal_line(text, *random_state(rng, first, rng.randrange(5) > 0))
    width, *q = any_pauli(rng, n)
    if call == "carry":
        out = max(0, len(run) + rng.choice([0, 0, 0, 1, 5, -1, -len(run), 250]))
        return carry_line(text, width, q, out)
    return both_line(text, width, q, *random_state(rng, first, rng.randrange(5) > 0))


def random_show(rng):
    """Few from many qubits, whose listings are long; few for the emulator, which has none."""
    n = rng.choice([0, 1, 1, 2, 2, 2, 3, 3, 4, 5, 6, rng.randrange(13)])
    made = rng.choice([random_run, random_corrected, random_scaled])
    text, _ = random_text(rng, n, max(n, rng.choice([2, 3, 4, 5, 6, 7, 12])), made)
    line = show_line(text, any_pauli(rng, n))
    kind = rng.randrange(40)
    return rng.choice([line + " 0", line.rpartition(" ")[0]]) if kind == 0 else on_emulator(line) if kind == 1 else line


def any_pauli(rng, n):
    """Width, k, x, z: on n qubits, or now and then on others, or no Pauli."""
    width = n if rng.randrange(8) else rng.choice([0, n + 1, 256, 257])
    q = [rng.randrange(4), rng.randrange(2**n), rng.randrange(2**n)]
    if rng.randrange(12) == 0:
        q[rng.randrange(3)] = rng.choice([4, 2**n, 255])
    return width, *q


def any_end(rng, run, n):
    """A Pauli on the run's last qubits that a start ends in, one that is a letter off, or any; for a refused run one on n qubits."""
    try:
        width, steps = walk(run, SERVICE)
    except RefusedAt:
        return any_pauli(rng, n)
    end = end_of(Pauli(width, *random_phased(rng, width)), steps)
    kind = rng.randrange(4)
    if kind == 0:
        return any_pauli(rng, end.n)
    masks = [end.x, end.z]
    if kind == 1 and end.n:
        masks[rng.randrange(2)] ^= 1 << rng.randrange(end.n)
    return end.n, end.k, *masks


def any_room(rng, run):
    """Bytes of an output: those of the folded run, of the run, or around them."""
    try:
        size = len(fold(run, SERVICE, HELD)[0])
    except RefusedAt:
        size = len(run)
    return max(0, rng.choice([size, size, size, size - 1, size + 1, size + 50, len(run), len(run) - 1, 0, HELD]))


def random_pass(rng):
    n = rng.choice([0, 1, 2, 3, 12, 63, 64, 65, 255, 256])
    masks = 2 ** min(n, 64)
    q, p = ([n, rng.randrange(4), rng.randrange(masks), rng.randrange(masks)] for _ in (0, 1))
    if rng.randrange(4) == 0:
        rng.choice([q, p])[rng.randrange(4)] = rng.choice([0, 1, 2, 4, 64, 255, 256, 257, 2**64 - 1])
    if rng.randrange(3) == 0:
        p[2] = 0
    pivot = rng.choice([n, n + 1, 2**64 - 1]) if n == 0 or rng.randrange(8) == 0 else rng.randrange(n)
    floats_of = [random_float(rng, False), random_float(rng)]
    return pass_line(q, rng.choice([2, 3, 4, 5, 7, 7]), p, rng.randrange(2), pivot, floats_of)


def kind_of(asked, told):
    """The call and what sort of answer it has."""
    call, words = asked.split()[0], told.split()
    if call == "cuts":
        return call
    if words[0] == "refused":
        return f"{call} refused {words[1]}"
    name = call.removeprefix(EMULATED)
    if name == "merge" and "refused" in words:
        return f"{call} refused {words[words.index('refused') + 1]} of A"
    judged = name in ("both", "merge", "seeker", "fold-into", "fold-equal", "both-show")
    return f"{call} {words[-1] if judged else 'answered' if words[0].isdigit() else words[0]}"


def fuzz(program, seed, count):
    """Asks the program as many lines at a time as its buffer holds."""
    rng, seen, batch, size, kinds = random.Random(seed), 0, [], 0, {}
    while seen < count or batch:
        line = random_line(rng) if seen < count else None
        if line is None or size + len(line) + 1 > 1048576:
            given = "".join(text + "\n" for text in batch)
            got = subprocess.run([program], input=given, capture_output=True, text=True, check=True).stdout.split("\n")
            for asked, told in zip(batch, got):
                wanted = answer(asked)
                if told != wanted:
                    print(f"differs\n{asked}\nmodel:   {wanted}\nprogram: {told}")
                    return False
                kind = kind_of(asked, wanted)
                kinds[kind] = kinds.get(kind, 0) + 1
            assert len(got) == len(batch) + 1
            batch, size = [], 0
        if line is not None:
            batch.append(line)
            seen, size = seen + 1, size + len(line) + 1
    print(f"{seen} lines agree")
    for kind, times in sorted(kinds.items()):
        print(f"  {kind}: {times}")
    return True


# ----------------------------------------------------------------- the bench


def printed(x):
    """16 lower-case hexadecimal digits, any NaN as 7ff8000000000000; E6: sixteen 0 digits for either zero."""
    return "0" * 16 if x == 0 else shown(x)


def from_basis_0(run, seen=lambda width, re, im: None):
    """Starts from amplitude (1, 0) at basis 0; the last width, re and im. `seen` is told them on the way."""
    state, left = 2**SERVICE.widest, 2 ** (SERVICE.widest - 1)
    sizes = state, state, left, left
    re, im, *scratch = ([0.0] * size for size in sizes)
    re[0] = 1.0
    width, _ = run_whole(run, SERVICE, re, im, *scratch, lambda width: seen(width, re, im))
    return width, re, im


def listed(run, *ways):
    """Prints `qubits` and the last width, then each basis (decimal), re bits and im bits; or `refused N`. A text for each
    way to print a float."""
    try:
        width, re, im = from_basis_0(run)
    except (Refused, RefusedAt) as refusal:
        return [f"refused {refusal.args[0]}\n" for _ in ways]
    each = lambda way: "".join(f"{b} {way(re[b])} {way(im[b])}\n" for b in range(2**width))
    return [f"qubits {width}\n" + each(way) for way in ways]


def listing(run):
    return listed(run, printed)[0]


def listings(program, seed, count):
    """As many runs of each kind as agree, or the first whose listing differs."""
    rng, kinds = random.Random(seed), {}
    for _ in range(count):
        n = rng.choice([0, 1, 2, 3, 4, 5, 6, 7, 8, 11, 12])
        _, run = random_text(rng, n, max(n, rng.choice([2, 4, 7, 12])))
        wanted = listing(run)
        got = subprocess.run([program], input=run, capture_output=True, check=True).stdout.decode()
        if got != wanted:
            print(f"differs\n{run.hex()}\nmodel:\n{wanted}program:\n{got}")
            return False
        kind = wanted.split("\n")[0]
        kinds[kind] = kinds.get(kind, 0) + 1
    print(f"{count} listings agree")
    for kind, times in sorted(kinds.items()):
        print(f"  {kind}: {times}")
    return True


def random_pair(rng):
    """A run that carrying accepts and a Pauli on its start qubits; once in a while one whose files are about 65,536 bytes, which
    are few-qubit steps over and over."""
    n = rng.randrange(13)
    if rng.randrange(100) == 0:
        n %= 3
        steps = [random_step(rng, n, n)[0] for _ in range(8)]
        steps = [step for step in steps if step[0] != 4] or [turning(I)]
        run, size = starting(n), LONGEST - 20 + rng.choice([0, 0, 1, 10, 20])
        while len(run) + 40 < size:
            run += rng.choice(steps)
        # As near to the size as the lengths of a rotation and of a correction come.
        fits = [piece for piece in (rotating(I), correcting(I)) if len(run + piece + END) <= size]
        run += fits[0] if fits else b""
        return run + END, Pauli(n, *random_phased(rng, n))
    made = rng.choice([random_run, random_run, random_corrected, random_scaled])
    run = made(rng, n, rng.randrange(8), max(n, rng.choice([2, 4, 7, 12])))
    return b"".join(run), Pauli(n, *random_phased(rng, n))


def pairs(program, seed, count):
    """As many of each kind as agree, or the first that is wrong."""
    rng, kinds = random.Random(seed), Counter()
    for _ in range(count):
        run, pauli = random_pair(rng)
        carried, end = carry(run, SERVICE, pauli, HELD)
        files = two_files(run, pauli, carried, end)
        got = [subprocess.run([program], input=file, capture_output=True, check=True).stdout.decode() for file in files]
        each = [listed(file, shown, printed) for file in files]
        former, wanted = zip(*each)
        for file, text, told in zip(files, wanted, got):
            if told != text:
                print(f"differs\n{file.hex()}\nmodel:\n{text}program:\n{told}")
                return False
        same = got[0] == got[1]
        if len(files[0]) > LONGEST:
            kind, due = "over 65,536 bytes", True
        else:
            due = stays_finite(carried)
            kind = "with the premise" if due else "without the premise"
        if due and not same:
            print(f"differ {kind}\n{run.hex()}\n{pauli.shown()}\n{got[0]}{got[1]}")
            return False
        kinds[kind] += 1
        if kind == "with the premise":
            kinds["with the premise, and differed before E6"] += former[0] != former[1]
        elif not due:
            kinds[f"{kind}, {'agreed' if same else 'differed'}"] += 1
    print(f"{count} pairs agree")
    for kind, times in sorted(kinds.items()):
        print(f"  {kind}: {times}")
    return True


def write(crates):
    lines = [*limits(), "# ---- both ways of demand 3", *replay(), "# ---- two corrections, one carry", *merges()]
    lines += ["# ---- starts for ends", *starts_for_ends(), "# ---- runs without corrections", *folded_runs()]
    lines += ["# ---- both listings", *both_listings()]
    for file, texts in (("stdin", lines), ("stdout", map(answer, lines))):
        with open(f"{crates}/run_vectors/{file}", "w") as out:
            out.write("".join(text + "\n" for text in texts))


if __name__ == "__main__":
    command, *rest = sys.argv[1:]
    if command == "write":
        write(*rest)
    elif command == "fuzz":
        sys.exit(not fuzz(rest[0], int(rest[1]), int(rest[2])))
    elif command == "bench":
        sys.stdout.write(listing(sys.stdin.buffer.read()))
    elif command == "listings":
        sys.exit(not listings(rest[0], int(rest[1]), int(rest[2])))
    elif command == "pairs":
        sys.exit(not pairs(rest[0], int(rest[1]), int(rest[2])))
    else:
        for line in sys.stdin:
            print(answer(line.rstrip("\n")))
