#!/usr/bin/env python3
"""A second opinion on logs of frames and on judging them, and the lines of the program that tests both.

    logs.py answers < stdin > stdout      answers to calls, a line each
    logs.py fuzz PROGRAM SEED COUNT       COUNT random calls asked of PROGRAM (crates/frame_vectors/out/frame_vectors) as well: the first
                                          line that differs, or how many answers of each kind agree

Its recorded lines stand behind those of reports.py in crates/frame_vectors; frames.py writes them.

Written from the scope's text (document 01), from requests E10, E8 and E13 (document 02), which the comments quote, and from
the description of the calls that their writer was given as well. The model and its lines were done before their writer opened
any Rattle code of the logs; then it saw the calls' file. The reader of runs, its rows and the carrier are those of runs.py.
What a log holds is held against three other ways to it (see `tied`), and a log is judged both by its parts and byte for byte.
Wrong ways to write and to judge a log (`WRITERS`, `JUDGES`) stand here as well: the recorded lines tell each of them apart
(see `tell_apart`).

A call is its name, a run and numbers as in runs.py; a Pauli is its width, k, x and z. A log is bytes in text as a run is.

    log RUN width k x z room         the length of the right log, or the refusal; a bar; the output, which was lent as so many
                                     dots, by its size and its bytes or, where they are more than 400, a digest of them
    judge RUN LOG width k x z        `yes`, `no`, or the refusal
    damaged RUN width k x z xor      the right log is written to 66,000 bytes 0: the refusal, or the length of the log, a bar,
                                     and what is said of the log; of the log with one byte xored, the first, the second, up
                                     to the last; of the log without its last byte; of the log with a byte 0 behind it. Each
                                     is `y` for yes, `n` for no, or the number of the refusal between < and >

    emulated-log RUN width k x z room
    emulated-judge RUN LOG width k x z
    emulated-damaged RUN width k x z xor
                                     the same for the emulator

A run or a log of no text or of over 66,000 bytes, a room over 262,144, an xor over 255, another count of numbers, another
name: `unread`.

`refused` and the number, `at` and the offset where it has one, is a refusal.
"""

import random
import struct
import sys
from collections import Counter, namedtuple
from functools import lru_cache
from itertools import count as counted_from
from itertools import product as each_of

import reports
import runs
from model import Pauli, Refused, drop_bit, refuse
from reports import (
    EXAMPLE,
    FRAMES,
    MOST,
    NONE,
    OTHERS,
    WIDEST_TEXT,
    flag_of,
    flagged,
    letter,
    named,
    numbers,
    of,
    random_accepted,
    random_size,
    whole,
)
from runs import (
    DIAGONAL,
    EMULATED,
    EMULATOR,
    END,
    EVERY_KIND,
    FROM_NONE,
    HELD,
    I,
    LONGEST,
    NAN,
    REFUSED_RUNS,
    SERVICE,
    SPELLED,
    TURNS,
    X,
    Y,
    Z,
    RefusedAt,
    anticommute,
    any_pauli,
    bytes_of,
    correcting,
    digest,
    framed,
    length,
    meets,
    on_emulator,
    passed,
    product,
    projecting,
    promoting,
    raised,
    random_phased,
    random_run,
    random_text,
    refused,
    rotating,
    spelled,
    starting,
    turning,
    walk,
)

PAULI = "<BQQ"  # A step's Pauli is 17 bytes: k, x, z, little-endian.
PAULI_BYTES = 17

# --------------------------------------------------------------------- the log


def pauli_bytes(pauli):
    return struct.pack(PAULI, pauli.k, pauli.x, pauli.z)


@lru_cache(maxsize=8)
def followed(run, caller, n, k, x, z):
    """One byte, 0 or 1, per rotation and projection in run order: the sign or branch it used; and the end Pauli. The run's
    refusals come first, then the Pauli's."""
    width, steps = walk(run, caller)
    pauli = Pauli(n, k, x, z)
    refuse(3, not pauli.fits())
    refuse(4, pauli.n != width)
    flags = []
    for _, step in steps:
        left, pauli = passed(pauli, step)
        # Chip logs have no byte for a quarter turn.
        if flagged(left):
            flags.append(flag_of(left))
    tied(run, caller, Pauli(n, k, x, z), steps, flags, pauli)
    return bytes(flags), pauli


def carried(run, caller, pauli):
    return followed(run, caller, pauli.n, pauli.k, pauli.x, pauli.z)


def right_log(run, caller, pauli):
    """After them come the 17 bytes of its end Pauli, with no other bytes."""
    flags, end = carried(run, caller, pauli)
    return flags + pauli_bytes(end)


def write_log(run, caller, pauli, out):
    """The log at the front of the output, and its length. 16: output too short."""
    log = right_log(run, caller, pauli)
    refuse(16, len(out) < len(log))
    return log + out[len(log) :], len(log)


def judge(run, caller, pauli, log):
    """Yes exactly when all agree with carrying, whoever made the log, and no otherwise. 24, a log whose length doesn't suit the
    run, comes after the run's and the Pauli's refusals."""
    flags, end = carried(run, caller, pauli)
    refuse(24, len(log) != len(flags) + PAULI_BYTES)
    verdict = agrees(flags, end, log)
    assert verdict == (log == right_log(run, caller, pauli))
    return verdict


def taken_apart(log):
    """The flags, and k, x and z."""
    at = len(log) - PAULI_BYTES
    return log[:at], struct.unpack(PAULI, log[at:])


def agrees(flags, end, log):
    """A log of the right length is never refused: a byte over 1, or 17 bytes that are no Pauli of the last width, is a no."""
    chip_flags, numbers_of = taken_apart(log)
    chip_end = Pauli(end.n, *numbers_of)
    if any(byte > 1 for byte in chip_flags) or not chip_end.fits():
        return False
    return list(chip_flags) == list(flags) and chip_end.shown() == end.shown()


# ------------------------------------------------------------- three other ways

# By the tag: behind it and the length come 17 bytes of a Pauli, and a projection's pivot.
FLAG_AT = {2: 20, 4: 21}


def tied(run, caller, start, steps, flags, end):
    """Flags and end against the bytes of the carried run, against the book's letters, and against the rules below; the end's
    bytes as the body of a correction on the last qubits."""
    left, last = runs.carry(run, caller, start, len(run))
    assert flags == [left[at + FLAG_AT[run[at]]] for at, _ in steps if run[at] in FLAG_AT]
    assert last.shown() == end.shown()
    assert by_letters(start, steps) == (flags, lettered(end))
    by_rules, end_by_rules = followed_by(RIGHT, start, steps)
    assert by_rules == flags and end_by_rules.shown() == end.shown()
    _, ((_, step),) = walk(starting(end.n) + framed(5, pauli_bytes(end)) + END, SERVICE)
    assert step[1].shown() == end.shown()


# What two different letters make, and the power of i before it.
BOOK = {"XY": (1, "Z"), "YZ": (1, "X"), "ZX": (1, "Y"), "YX": (3, "Z"), "ZY": (3, "X"), "XZ": (3, "Y")}


def lettered(pauli):
    """The power of i, and the letters."""
    letters = [letter(pauli, q) for q in range(pauli.n)]
    return (pauli.k - letters.count("Y")) % 4, letters


def book_times(a, b):
    power, letters = a[0] + b[0], []
    for one, other in zip(a[1], b[1]):
        more, made = (0, "I") if one == other else (0, max(one, other)) if "I" in (one, other) else BOOK[one + other]
        power += more
        letters.append(made)
    return power % 4, letters


def opposed(a, b):
    """Two letters anticommute when neither is I and they differ."""
    return sum(one + other in BOOK for one, other in zip(a[1], b[1])) % 2


def by_letters(pauli, steps):
    """Flags and end Pauli."""
    (power, letters), flags = lettered(pauli), []
    for _, step in steps:
        if step[0] == "promotion":
            letters = [*letters, "I"]
            continue
        other = lettered(step[1])
        flips = opposed((power, letters), other)
        if flagged(step):
            flags.append(flag_of(step) ^ flips)
        if step[0] == "correction":
            power += 2 * flips
        elif step[0] == "quarter-turn" and flips:
            power, letters = book_times(other, (power, letters))
            power += 3
        elif step[0] == "projection":
            pivot = step[2]
            if letters[pivot] in ("XY" if set(other[1]) & set("XY") else "YZ"):
                power, letters = book_times((power, letters), other)
                power += 2 * flags[-1]
            # The pivot's bits are one at most, so none of the phase goes with them.
            assert letters[pivot] != "Y"
            letters = letters[:pivot] + letters[pivot + 1 :]
    return flags, (power % 4, letters)


# The rules of carrying, each of them by itself, so that each can be exchanged for a wrong one.
Rules = namedtuple("Rules", "flips branch times meets dropped turned corrected")

RIGHT = Rules(
    flips=lambda frame, behind, step: anticommute(frame, step[1]),
    branch=lambda old, new: new,
    times=product,
    meets=meets,
    dropped=drop_bit,
    turned=lambda frame, other: raised(product(other, frame), 3),
    corrected=2,
)


def past(rules, frame, step):
    """The Pauli behind a step."""
    if step[0] == "promotion":
        return Pauli(frame.n + 1, frame.k, frame.x, frame.z)
    flips = anticommute(frame, step[1])
    if step[0] == "correction":
        return raised(frame, rules.corrected * flips)
    if step[0] == "quarter-turn":
        return rules.turned(frame, step[1]) if flips else frame
    if step[0] == "rotation":
        return frame
    _, measured, pivot, old, _ = step
    if rules.meets(frame, measured, pivot):
        frame = raised(rules.times(frame, measured), 2 * rules.branch(old, old ^ flips))
    return Pauli(frame.n - 1, frame.k, rules.dropped(pivot, frame.x), rules.dropped(pivot, frame.z))


def followed_by(rules, frame, steps):
    """Flags and end Pauli."""
    flags = []
    for _, step in steps:
        behind = past(rules, frame, step)
        if flagged(step):
            flags.append(flag_of(step) ^ rules.flips(frame, behind, step))
        frame = behind
    return flags, frame


# ----------------------------------------------------------- wrong ways to a log


def by_rules(**changed):
    """A log by other rules of carrying."""

    def written(run, caller, pauli):
        flags, end = followed_by(RIGHT._replace(**changed), pauli, walk(run, caller)[1])
        return bytes(flags) + pauli_bytes(end)

    return written


def laid_out(layout):
    """The right flags and end Pauli, laid out otherwise."""
    return lambda run, caller, pauli: layout(*carried(run, caller, pauli))


def with_byte_for(*kinds):
    """Steps of these kinds have a byte 0 too."""

    def written(run, caller, pauli):
        flags, end = carried(run, caller, pauli)
        flag = iter(flags)
        bytes_for = [next(flag) if flagged(step) else 0 for _, step in walk(run, caller)[1] if flagged(step) or step[0] in kinds]
        return bytes(bytes_for) + pauli_bytes(end)

    return written


def changed_flags(run, caller, pauli):
    """Whether each flag is changed, in its place."""
    flags, end = carried(run, caller, pauli)
    own = [flag_of(step) for _, step in walk(run, caller)[1] if flagged(step)]
    return bytes(a ^ b for a, b in zip(flags, own)) + pauli_bytes(end)


def by_frame(chosen):
    """Flags by one frame for all steps: the first or the last."""

    def written(run, caller, pauli):
        flags, end = carried(run, caller, pauli)
        frame = (pauli, end)[chosen]
        own = [flag_of(step) ^ anticommute(frame, step[1]) for _, step in walk(run, caller)[1] if flagged(step)]
        return bytes(own) + pauli_bytes(end)

    return written


def cleared(pivot, mask):
    """The bit dropped, and those above it left where they are."""
    return mask & ~(1 << pivot)


WRITERS = {
    "the run's own flags": by_rules(flips=lambda frame, behind, step: 0),
    "whether flags are changed": changed_flags,
    "flags by the first frame": by_frame(0),
    "flags by the last frame": by_frame(1),
    "flags by the frame behind the step": by_rules(flips=lambda frame, behind, step: anticommute(behind, step[1])),
    "flags by X parts alone": by_rules(flips=lambda frame, behind, step: bin(frame.x & step[1].z).count("1") % 2),
    "flags by any qubit": by_rules(flips=lambda frame, behind, step: ((frame.x & step[1].z) ^ (frame.z & step[1].x)) > 0),
    "signs kept": by_rules(flips=lambda frame, behind, step: step[0] == "projection" and anticommute(frame, step[1])),
    "branches kept": by_rules(flips=lambda frame, behind, step: step[0] == "rotation" and anticommute(frame, step[1])),
    "v the old branch": by_rules(branch=lambda old, new: old),
    "v always 0": by_rules(branch=lambda old, new: 0),
    "M times Q": by_rules(times=lambda q, m: product(m, q)),
    "never met": by_rules(meets=lambda q, m, pivot: 0),
    "always met": by_rules(meets=lambda q, m, pivot: 1),
    "met by the other part": by_rules(meets=lambda q, m, pivot: (q.z if m.x else q.x) >> pivot & 1),
    "met by the X part": by_rules(meets=lambda q, m, pivot: q.x >> pivot & 1),
    "the pivot cleared": by_rules(dropped=cleared),
    "the pivot kept": by_rules(dropped=lambda pivot, mask: mask),
    "the lowest bit dropped": by_rules(dropped=lambda pivot, mask: mask >> 1),
    "a turn raised by 1": by_rules(turned=lambda q, p: raised(product(p, q), 1)),
    "a turn of Q times P": by_rules(turned=lambda q, p: raised(product(q, p), 3)),
    "no turn": by_rules(turned=lambda q, p: q),
    "corrections without a sign": by_rules(corrected=0),
    "a byte for quarter turns": with_byte_for("quarter-turn"),
    "a byte for corrections": with_byte_for("correction"),
    "a byte for promotions": with_byte_for("promotion"),
    "a byte for each step": with_byte_for("quarter-turn", "correction", "promotion"),
    "flags backwards": laid_out(lambda flags, end: flags[::-1] + pauli_bytes(end)),
    "the end before the flags": laid_out(lambda flags, end: pauli_bytes(end) + flags),
    "no flags": laid_out(lambda flags, end: pauli_bytes(end)),
    "no end": laid_out(lambda flags, end: flags),
    "flags upside down": laid_out(lambda flags, end: bytes(1 - flag for flag in flags) + pauli_bytes(end)),
    "flags in letters": laid_out(lambda flags, end: bytes(48 + flag for flag in flags) + pauli_bytes(end)),
    "masks with the high byte first": laid_out(lambda flags, end: flags + struct.pack(">BQQ", end.k, end.x, end.z)),
    "z before x": laid_out(lambda flags, end: flags + struct.pack(PAULI, end.k, end.z, end.x)),
    "k behind the masks": laid_out(lambda flags, end: flags + struct.pack("<QQB", end.x, end.z, end.k)),
    "the power of i that is shown": laid_out(lambda flags, end: flags + struct.pack(PAULI, lettered(end)[0], end.x, end.z)),
    "no phase": laid_out(lambda flags, end: flags + struct.pack(PAULI, 0, end.x, end.z)),
    "the phase opposite": laid_out(lambda flags, end: flags + pauli_bytes(raised(end, 2))),
    "the end's adjoint": laid_out(lambda flags, end: flags + pauli_bytes(raised(end, 2 * lettered(end)[0]))),
    "the start for the end": lambda run, caller, pauli: carried(run, caller, pauli)[0] + pauli_bytes(pauli),
}


def flags_alike(alike):
    """A judge that takes flags for the same by something else."""
    return lambda flags, end, log: alike(taken_apart(log)[0], flags) and log[len(flags) :] == pauli_bytes(end)


def ends_alike(alike):
    """A judge that takes ends for the same by something else: both k, x and z."""

    def verdict(flags, end, log):
        chip_flags, chip_end = taken_apart(log)
        return chip_flags == flags and alike(chip_end, (end.k, end.x, end.z))

    return verdict


def low(bits):
    """Masks by their low bits alone."""
    return ends_alike(lambda a, b: a[0] == b[0] and all(a[i] % 2**bits == b[i] % 2**bits for i in (1, 2)))


def below_width(flags, end, log):
    """Masks by the bits below the last width."""
    chip_flags, (k, x, z) = taken_apart(log)
    return chip_flags == flags and (k, x % 2**end.n, z % 2**end.n) == (end.k, end.x, end.z)


def alike_but(at):
    """All bytes but one of them."""

    def verdict(flags, end, log):
        right = flags + pauli_bytes(end)
        place = at % len(right)
        return log[:place] + log[place + 1 :] == right[:place] + right[place + 1 :]

    return verdict


JUDGES = {
    "always yes": lambda flags, end, log: True,
    "always no": lambda flags, end, log: False,
    "any flags": flags_alike(lambda a, b: True),
    "flags modulo 2": flags_alike(lambda a, b: [x % 2 for x in a] == [x % 2 for x in b]),
    "flags that are not 0": flags_alike(lambda a, b: [x > 0 for x in a] == [x > 0 for x in b]),
    "flags that are not 1": flags_alike(lambda a, b: [x == 1 for x in a] == [x == 1 for x in b]),
    "flags in any order": flags_alike(lambda a, b: sorted(a) == sorted(b)),
    "flags by their sum": flags_alike(lambda a, b: sum(a) == sum(b)),
    "flags by their xor": flags_alike(lambda a, b: sum(a) % 2 == sum(b) % 2),
    "flags by the first 8": flags_alike(lambda a, b: a[:8] == b[:8]),
    "flags by the first 64": flags_alike(lambda a, b: a[:64] == b[:64]),
    "flags by the first 256": flags_alike(lambda a, b: a[:256] == b[:256]),
    "all flags turned": flags_alike(lambda a, b: a == b or a == bytes(1 - x for x in b)),
    "any end": ends_alike(lambda a, b: True),
    "any phase": ends_alike(lambda a, b: a[1:] == b[1:]),
    "phases modulo 4": ends_alike(lambda a, b: a[0] % 4 == b[0] % 4 and a[1:] == b[1:]),
    "phases modulo 2": ends_alike(lambda a, b: a[0] < 4 and a[0] % 2 == b[0] % 2 and a[1:] == b[1:]),
    "phases up to i": ends_alike(lambda a, b: a[0] < 4 and (a[0] - b[0]) % 4 != 2 and a[1:] == b[1:]),
    "any x": ends_alike(lambda a, b: (a[0], a[2]) == (b[0], b[2])),
    "any z": ends_alike(lambda a, b: a[:2] == b[:2]),
    "x or z": ends_alike(lambda a, b: a[0] == b[0] and a[1] | a[2] == b[1] | b[2]),
    "x and z": ends_alike(lambda a, b: a[0] == b[0] and a[1] & a[2] == b[1] & b[2]),
    "x xor z": ends_alike(lambda a, b: a[0] == b[0] and a[1] ^ a[2] == b[1] ^ b[2]),
    "masks exchanged": ends_alike(lambda a, b: a[0] == b[0] and sorted(a[1:]) == sorted(b[1:])),
    "masks below the width": below_width,
    "masks below bit 4": low(4),
    "masks below bit 8": low(8),
    "masks below bit 12": low(12),
    "masks below bit 16": low(16),
    "masks below bit 32": low(32),
    "masks below bit 63": low(63),
    "by the sum of bytes": lambda flags, end, log: sum(log) % 256 == sum(flags + pauli_bytes(end)) % 256,
    "without the first byte": alike_but(0),
    "without the last byte": alike_but(-1),
    "without k": alike_but(-17),
    "without the byte before k": alike_but(-18),
}


# ------------------------------------------------------------------------ text


def told_bytes(out):
    """As runs.py tells a folded run."""
    return f"{len(out)} " + (f"[{out.hex()}]" if len(out) <= SPELLED else f"{digest(out):016x}")


def told_log(run, caller, pauli, room):
    out = b"." * room
    try:
        out, size = write_log(run, caller, pauli, out)
        told = f"length {size}"
    except (Refused, RefusedAt) as refusal:
        told = refused(refusal)
    return f"{told} | {told_bytes(out)}"


def told_judge(run, caller, pauli, log):
    return "yes" if judge(run, caller, pauli, log) else "no"


def told_short(run, caller, pauli, log):
    try:
        return "y" if judge(run, caller, pauli, log) else "n"
    except (Refused, RefusedAt) as refusal:
        return f"<{refusal.args[0]}>"


def told_damaged(run, caller, pauli, xor):
    log = right_log(run, caller, pauli)
    offered = [log]
    for at, byte in enumerate(log):
        offered.append(log[:at] + bytes([byte ^ xor]) + log[at + 1 :])
    offered += [log[:-1], log + bytes(1)]
    return f"length {len(log)} | " + "".join(told_short(run, caller, pauli, one) for one in offered)


# How many texts of bytes a call has, and how many numbers behind them; the largest that the last may be.
CALLS = {"log": (1, 5, WIDEST_TEXT), "judge": (2, 4, MOST), "damaged": (1, 5, 255)}


def is_log_call(line):
    return line.split(" ")[0].removeprefix(EMULATED) in CALLS


def parsed(line):
    """The caller, the name, the run, the log or None, the numbers; None where it is unread."""
    call, *words = line.split(" ")
    name = call.removeprefix(EMULATED)
    count, count_of_numbers, most = CALLS.get(name, (0, 0, 0))
    if count == 0 or len(words) != count + count_of_numbers or "" in words[:count]:
        return None
    texts, words = [bytes_of(text) for text in words[:count]], [int(word, 0) for word in words[count:]]
    if max(map(len, texts)) > HELD or words[-1] > most:
        return None
    return EMULATOR if call.startswith(EMULATED) else SERVICE, name, texts, words


def answer(line):
    if line.startswith("#"):
        return line
    asked = parsed(line)
    if asked is None:
        return "unread"
    caller, name, (run, *log), words = asked
    pauli, rest = Pauli(*words[:4]), words[4:]
    try:
        if name == "log":
            return told_log(run, caller, pauli, *rest)
        if name == "judge":
            return told_judge(run, caller, pauli, *log)
        return told_damaged(run, caller, pauli, *rest)
    except (Refused, RefusedAt) as refusal:
        return refused(refusal)


# ----------------------------------------------------------------------- lines


def log_line(text, pauli, room):
    return f"log {text} {numbers(pauli)} {room}"


def judge_line(text, log, pauli):
    """A log is bytes, or pieces of them as `spelled` takes them."""
    return f"judge {text} {spelled(*([log] if isinstance(log, bytes) else log))} {numbers(pauli)}"


def damaged_line(text, pauli, xor):
    return f"damaged {text} {numbers(pauli)} {xor}"


def ending(text):
    """The 17 bytes of the Pauli that a text shows."""
    return struct.pack(PAULI, *of(text))


def logged(log, room):
    """What is told of a log in so many dots that have room for it."""
    assert len(log) <= room <= SPELLED
    return f"length {len(log)} | {room} [{log.hex()}{'2e' * (room - len(log))}]"


def untouched(told, room):
    """What is told of a refusal: the dots are as they were."""
    assert room <= SPELLED
    return f"refused {told} | {room} [{'2e' * room}]"


def all_told(size, one="n"):
    """What is told of a damaged log: each of its bytes alike."""
    return f"length {size} | y{one * size}<24><24>"


# ------------------------------------------------------------------- by hand: logs

# The Pauli at the start, the steps, the flags, the end Pauli; on no qubits its prefix alone.
CASES = [
    # The scope's own: X past a Z rotation; Z, X and Y past an X projection.
    ("X", [rotating(Z)], [1], "X"),
    ("Z", [projecting(X)], [1], ""),
    ("X", [projecting(X, 0, 1)], [1], "-"),
    ("Y", [projecting(X)], [1], "i*"),
    # The same with the other sign and branch.
    ("X", [rotating(Z, 1)], [0], "X"),
    ("Z", [projecting(X, 0, 1)], [0], ""),
    ("X", [projecting(X)], [0], ""),
    ("Y", [projecting(X, 0, 1)], [0], "-i*"),
    # Rotations that keep their sign.
    ("Z", [rotating(Z)], [0], "Z"),
    ("-Z", [rotating(Z, 1)], [1], "-Z"),
    ("i*Y", [rotating(Y, 1)], [1], "i*Y"),
    ("-i*I", [rotating(X, 1)], [1], "-i*I"),
    # Projections without an X part: Z not met, met, X, Y; of -Z.
    ("I", [projecting(Z, 0, 1)], [1], ""),
    ("Z", [projecting(Z)], [0], ""),
    ("Z", [projecting(Z, 0, 1)], [1], "-"),
    ("X", [projecting(Z)], [1], ""),
    ("X", [projecting(Z, 0, 1)], [0], ""),
    ("Y", [projecting(Z)], [1], "-i*"),
    ("Y", [projecting(Z, 0, 1)], [0], "i*"),
    ("-Z", [projecting(of("-Z"), 0, 1)], [1], "-"),
    # Of Y: X·Y is i Z; Z·Y is -i X, which is not met; Y·Y is 1.
    ("X", [projecting(Y)], [1], "-i*"),
    ("X", [projecting(Y, 0, 1)], [0], "i*"),
    ("Z", [projecting(Y)], [1], ""),
    ("Y", [projecting(Y, 0, 1)], [1], "-"),
    # No byte for a promotion, a correction, a quarter turn, one after the other too.
    ("X", [promoting()], [], "XI"),
    ("X", [correcting(Z)], [], "-X"),
    ("X", [correcting(X)], [], "X"),
    ("X", [turning(Z)], [], "Y"),
    ("Y", [turning(Z)], [], "-X"),
    ("Z", [turning(Z)], [], "Z"),
    ("-i*X", [turning(Y), promoting(), correcting(of("XZ")), turning(of("XX"))], [], "i*YX"),
    # Flags in run order.
    ("X", [rotating(Z), rotating(X)], [1, 0], "X"),
    ("X", [rotating(X), rotating(Z)], [0, 1], "X"),
    ("X", [rotating(X, 1), rotating(Z, 1), rotating(Y), rotating(X)], [1, 0, 1, 0], "X"),
    # The frame before a step, not behind it and not the first: a quarter turn before a rotation and behind it.
    ("X", [turning(Z), rotating(Y)], [0], "Y"),
    ("X", [rotating(Y), turning(Z)], [1], "Y"),
    ("X", [turning(Z), rotating(X)], [1], "Y"),
    ("X", [rotating(X), turning(Z)], [0], "Y"),
    ("X", [rotating(Z), turning(Z), rotating(Z), turning(X), rotating(Z)], [1, 1, 0], "Z"),
    # A correction changes the sign of the frame and no flag behind it.
    ("X", [rotating(Z), correcting(Z), rotating(Z)], [1, 1], "-X"),
    # A promotion: the new qubit is the last, and I.
    ("X", [promoting(), rotating(of("IZ")), rotating(of("ZZ"))], [0, 1], "XI"),
    # Behind a projection the letters above the pivot stand one lower, those below it where they were.
    ("ZX", [projecting(of("XI"), 0), rotating(Z)], [1, 1], "X"),
    ("XZ", [projecting(of("IX"), 1, 1), rotating(Z)], [0, 1], "X"),
    ("YIZ", [projecting(of("IZI"), 1), rotating(of("XX"), 1)], [0, 1], "YZ"),
    # What the projection brings to the other qubits: XZ·XX is i IY; ZYI·ZZZ is -i IXZ.
    ("XZ", [projecting(of("XX"), 0), rotating(Z, 1)], [1, 0], "-i*Y"),
    ("XZ", [projecting(of("XX"), 0, 1), rotating(Z, 1)], [0, 0], "i*Y"),
    ("ZYI", [projecting(of("ZZZ"), 0), rotating(of("XX"))], [1, 1], "-i*XZ"),
    # Out of no qubits, and back to none.
    ("", [rotating(I, 1), promoting(), projecting(Z, 0, 1), rotating(of("-"))], [1, 1, 0], ""),
    ("i*", [promoting(), turning(X), projecting(X), correcting(I)], [0], "i*"),
    ("-i*", FROM_NONE[1:-1], [0], "-i*I"),
    ("-", TURNS[1:-1], [0], "-"),
    # Y·Z is i X. The scope's run of one correction.
    ("Y", DIAGONAL[1:-1], [1, 0], "i*"),
    ("Z", [correcting()], [], "-Z"),
    # All kinds, twice.
    ("IX", EVERY_KIND[1:-1], [0, 0, 1], "i*Y"),
    ("XX", EXAMPLE[1:-1], [0, 0, 1, 1, 0, 1], "i*Y"),
]


def logs_by_hand(lines):
    lines.say("Logs by hand: written to just enough room, taken for right; some of them damaged.")
    for place, (start, steps, flags, end) in enumerate(CASES):
        pauli, log = named(start), bytes(flags) + ending(end)
        run = whole(starting(pauli[0]), *steps)
        lines.ask(log_line(run, pauli, len(log)), logged(log, len(log)))
        lines.ask(judge_line(run, log, pauli), "yes")
        if place % 3 == 0:
            lines.ask(damaged_line(run, pauli, 1), all_told(len(log)))
    lines.say("On the emulator too.")
    for start, steps, flags, end in CASES[:4] + CASES[-2:]:
        pauli, log = named(start), bytes(flags) + ending(end)
        run = whole(starting(pauli[0]), *steps)
        lines.ask(on_emulator(log_line(run, pauli, len(log))), logged(log, len(log)))
        lines.ask(on_emulator(judge_line(run, log, pauli)), "yes")
        lines.ask(on_emulator(damaged_line(run, pauli, 128)), all_told(len(log)))
    lines.say("Ends of the frames of which reports were asked by hand.")
    for steps, shown in FRAMES[::2]:
        pauli = named(shown[0])
        line = log_line(whole(starting(pauli[0]), *steps), pauli, len(steps) + PAULI_BYTES)
        assert ending(shown[-1]).hex() in answer(line), line
        lines.ask(line)


def ends_of_phases(lines):
    lines.say("Phases 0 to 3 at the start: the flags are the same, and the end's phase is 0 to 3 more. Ends whose phase is any.")
    chosen = [CASES[place] for place in (0, 1, 2, 3, 17, 28, 44)] + [CASES[-1]]
    for start, steps, flags, end in chosen:
        n, k, x, z = named(start)
        run = whole(starting(n), *steps)
        end_k, end_x, end_z = of(end)
        for more in (1, 2, 3):
            log = bytes(flags) + struct.pack(PAULI, (end_k + more) % 4, end_x, end_z)
            lines.ask(judge_line(run, log, (n, (k + more) % 4, x, z)), "yes")
        lines.ask(judge_line(run, log, (n, k, x, z)), "no")
        lines.ask(judge_line(run, log, (n, (k + 1) % 4, x, z)), "no")


def of_no_flag(lines):
    lines.say("No step: 17 bytes, the start Pauli's. From 0 to 12 qubits; from 0 to 6 on the emulator, which refuses more.")
    for n in range(13):
        top = 2**n - 1
        run, pauli = whole(starting(n)), (n, n % 4, top, top >> 1)
        log = struct.pack(PAULI, *pauli[1:])
        lines.ask(log_line(run, pauli, 17), logged(log, 17))
        lines.ask(judge_line(run, log, pauli), "yes")
        if n % 2 or n in (0, 6, 12):
            lines.ask(on_emulator(judge_line(run, log, pauli)), "yes" if n <= 6 else "refused 21 at 0")
            lines.ask(on_emulator(log_line(run, pauli, 17)), logged(log, 17) if n <= 6 else untouched("21 at 0", 17))
        # The first bit past the width in one mask, the last of all in the other.
        for bits in ((1 << n, 0), (0, 1 << 63)):
            more_x, more_z = bits if n % 2 else bits[::-1]
            lines.ask(judge_line(run, struct.pack(PAULI, n % 4, top | more_x, top >> 1 | more_z), pauli), "no")
    lines.ask(judge_line(whole(starting(12)), bytes(17), (12, 0, 0x800, 0)), "no")
    for n, xor in ((0, 1), (0, 255), (1, 4), (6, 2), (12, 1), (12, 255)):
        lines.ask(damaged_line(whole(starting(n)), (n, *I), xor), all_told(17))
    for n in (0, 6, 7):
        told = all_told(17) if n <= 6 else "refused 21 at 0"
        lines.ask(on_emulator(damaged_line(whole(starting(n)), (n, 3, 0, 0), 2)), told)
    lines.say("Steps without a byte alone: 17 bytes, whatever the frame does; a byte for each of them is 24.")
    for start, steps, end in (
        ("X", [promoting()] * 11, "X" + "I" * 11),
        ("XZ", [correcting(of("ZI")), correcting(of("IX")), correcting(of("ZX")), correcting(of("i*XI"))], "XZ"),
        ("X", [turning(Z)] * 7, "-Y"),
        ("", [correcting(of("i*")), promoting(), turning(of("-Y")), promoting()], "II"),
        ("Y", [promoting(), turning(of("ZX")), correcting(of("IZ"))], "XX"),
    ):
        pauli, log = named(start), ending(end)
        run = whole(starting(pauli[0]), *steps)
        lines.ask(log_line(run, pauli, 20), logged(log, 20))
        lines.ask(judge_line(run, log, pauli), "yes")
        for flags in (bytes(1), bytes(len(steps))):
            lines.ask(judge_line(run, flags + log, pauli), "refused 24")
        lines.ask(damaged_line(run, pauli, 64), all_told(17))


# ---------------------------------------------------------- by hand: lengths and room

# Five steps, three of them flagged. X on the first qubit turns the branch; then Z is met, and branch 1 changes the sign, as two
# corrections do.
FIVE = [starting(3), (2, projecting(Z, 0, 1)), rotating(Z), (2, correcting(Z))]
RUN, START, LOG = whole(*FIVE), named("XZX"), bytes([0, 1, 1]) + ending("-X")


def lengths_of_logs(lines):
    lines.say("24: three flags and 17 bytes, and no other length. What is there begins or ends as the log does.")
    size = len(LOG)
    assert (size, length(RUN)) == (20, 144)
    for other in (0, 1, 3, 4, 16, 17, 18, 19, 21, 22, 23, 24, 36, 37, 40, 144, 256, 276, 65536, 65556, HELD):
        fill = max(0, other - size), bytes(1)
        from_front, from_behind = [LOG[:other], fill], [fill, LOG[max(0, size - other) :]]
        lines.ask(judge_line(RUN, from_front, START), "refused 24")
        if other in (3, 17, 19, 21, 22, 65556):
            lines.ask(judge_line(RUN, from_behind, START), "refused 24")
            lines.ask(on_emulator(judge_line(RUN, from_front, START)), "refused 24")
    lines.say("The right log twice; with a byte 1 before it and behind it.")
    for log in (LOG * 2, b"\1" + LOG, LOG + b"\1"):
        lines.ask(judge_line(RUN, log, START), "refused 24")
    lines.say("The log of one flag less and of one flag more, which are right for another run.")
    shorter, longer = whole(*FIVE[:2], *FIVE[3:]), whole(*FIVE, rotating(Z, 1))
    logs = LOG[:2] + LOG[3:], LOG, LOG[:3] + bytes(1) + LOG[3:]
    for (place, run), (other, log) in each_of(enumerate((shorter, RUN, longer)), enumerate(logs)):
        lines.ask(judge_line(run, log, START), "yes" if place == other else "refused 24")


def room_for_logs(lines):
    lines.say("16: the room one too short, and shorter; just enough; more, which is kept.")
    size = len(LOG)
    for room in (0, 1, 3, 16, 17, size - 1, size, size + 1, size + 17, 144, 400):
        told = logged(LOG, room) if room >= size else untouched("16", room)
        lines.ask(log_line(RUN, START, room), told)
        if room in (0, size - 1, size, size + 1):
            lines.ask(on_emulator(log_line(RUN, START, room)), told)
    for room in (0, 16, 17, 18):
        told = logged(ending("-i*X"), room) if room >= 17 else untouched("16", room)
        lines.ask(log_line(whole(starting(1)), named("-i*X"), room), told)
    lines.say("Much more, of which a digest is told.")
    for room in (401, 1000, HELD, WIDEST_TEXT):
        lines.ask(log_line(RUN, START, room))
        lines.ask(log_line(whole(starting(0)), (0, 2, 0, 0), room))


# ----------------------------------------------------------- by hand: bytes that are wrong


def with_byte(log, at, byte):
    return log[:at] + bytes([byte]) + log[at + 1 :]


def wrong_flags(lines):
    lines.say("A byte over 1 among the flags: a no, whatever the flag is, and whatever the byte's lowest bit.")
    for at in range(3):
        for byte in (2, 3, 48 + LOG[at], 128 + LOG[at], 254, 255, 1 - LOG[at]):
            lines.ask(judge_line(RUN, with_byte(LOG, at, byte), START), "no")
        lines.ask(on_emulator(judge_line(RUN, with_byte(LOG, at, 2 + LOG[at]), START)), "no")
    lines.say("Each of eight choices of three flags; the same sum in another order.")
    for flags in each_of((0, 1), repeat=3):
        lines.ask(judge_line(RUN, bytes(flags) + LOG[3:], START), "yes" if flags == (0, 1, 1) else "no")
    for flags in ((0, 2, 0), (2, 0, 0), (1, 2, 255), (0, 3, 255), (255, 1, 2)):
        lines.ask(judge_line(RUN, bytes(flags) + LOG[3:], START), "no")


def wrong_ends(lines):
    lines.say("Phases: the right one, the others, and those that are no phase, the same modulo 4 among them.")
    run, start = whole(starting(2), rotating(of("ZI"))), named("XY")
    k, x, z = start[1:]
    assert (k, x, z) == (1, 3, 2)
    for phase in (*range(10), 13, 64, 65, 128, 129, 253, 254, 255):
        lines.ask(judge_line(run, b"\1" + struct.pack(PAULI, phase, x, z), start), "yes" if phase == 1 else "no")
    lines.ask(on_emulator(judge_line(run, b"\1" + struct.pack(PAULI, 5, x, z), start)), "no")
    lines.say("A bit turned in x, in z, in both.")
    for bit in (0, 1, 2, 3, 7, 8, 12, 15, 16, 31, 32, 47, 62, 63):
        for in_x, in_z in ((1, 0), (0, 1), (1, 1)):
            log = b"\1" + struct.pack(PAULI, k, x ^ in_x << bit, z ^ in_z << bit)
            lines.ask(judge_line(run, log, start), "no")
    lines.say("Every byte of a log damaged: each bit, and several.")
    for xor in (1, 2, 4, 8, 16, 32, 64, 128, 3, 5, 6, 127, 254, 255):
        lines.ask(damaged_line(RUN, START, xor), all_told(20))
        if xor in (1, 2, 128, 255):
            lines.ask(on_emulator(damaged_line(RUN, START, xor)), all_told(20))
    lines.ask(damaged_line(RUN, START, 0), all_told(20, "y"))
    lines.say("X for Z and Z for X, Y for both, and I; the masks' bytes the other way round; on twelve qubits.")
    for n, paulis in ((1, "IXYZ"), (3, ("XYZ", "ZYX", "YYI", "IIX"))):
        for one, other in each_of(paulis, paulis):
            line = judge_line(whole(starting(n)), ending(other), named(one))
            lines.ask(line, "yes" if one == other else "no")
    twelve = 12, 2, 0x801, 0x18E
    for k, x, z in ((2, 0x801, 0x18E), (2, 0x18E, 0x801), (2, 0x801, 0x98E), (2, 0x1, 0x18E), (2, 0x801, 0x8E), (2, 0x1801, 0x18E), (2, 0x801, 0x1018E)):
        lines.ask(judge_line(whole(starting(12)), struct.pack(PAULI, k, x, z), twelve), "yes" if (x, z) == (0x801, 0x18E) else "no")
    for layout in (">BQQ", "<BxxxxxxxQQ"):
        log = struct.pack(layout, *twelve[1:])
        lines.ask(judge_line(whole(starting(12)), log, twelve), "no" if len(log) == 17 else "refused 24")


def last_width(lines):
    lines.say("17 bytes that are a Pauli of the first width and none of the last, of the last and none of the first.")
    less, more = whole(starting(2), projecting(of("IX"), 1)), whole(starting(2), promoting(), turning(of("IIX")))
    # X stays on qubit 0; Z on qubit 1 goes, and is met by nothing.
    for end, told in (("X", "yes"), ("XI", "yes"), ("XX", "no"), ("XZ", "no"), ("IX", "no"), ("Y", "no"), ("I", "no")):
        lines.ask(judge_line(less, b"\1" + ending(end), named("XZ")), told)
    for end, told in (("XZI", "yes"), ("XZ", "yes"), ("XZX", "no"), ("XZZ", "no"), ("XZIX", "no"), ("IIX", "no"), ("-XZI", "no")):
        lines.ask(judge_line(more, ending(end), named("XZ")), told)
    lines.say("A quarter turn takes the frame to the qubit that was new, whose bit is wrong before it.")
    run = whole(starting(1), promoting(), turning(of("ZX")))
    for end, told in (("YX", "yes"), ("XI", "no"), ("YI", "no"), ("-YX", "no"), ("XX", "no")):
        lines.ask(judge_line(run, ending(end), named("X")), told)


# --------------------------------------------------------------------- by hand: rows


def rows(lines):
    lines.say("A refused run: its row and its place, before 3 and 4 of the Pauli, before 24 and before 16.")
    for place, (run, told) in enumerate(REFUSED_RUNS):
        text, pauli = spelled(*run), ((2, *X), (2, 4, 0, 0), (12, *I))[place % 3]
        for judged, log in (((2, *X), bytes(17)), ((257, *I), b"")):
            lines.ask(judge_line(text, log, judged), f"refused {told}")
        room = 20 * (place % 2)
        lines.ask(log_line(text, pauli, room), untouched(told, room))
        lines.ask(damaged_line(text, pauli, 1), f"refused {told}")
    lines.say("A refused step behind others; nothing of the log is written before it.")
    late = whole(starting(1), rotating(Z), rotating(Z), correcting((4, 0, 0)))
    lines.ask(log_line(late, (1, *X), 40), untouched("3 at 78", 40))
    for log in (b"\1\1" + ending("X"), b"\1" + ending("X"), ending("X"), b""):
        lines.ask(judge_line(late, log, (1, *X)), "refused 3 at 78")
    lines.say("No Pauli, 3; not on the start qubits, 4; each before 24 and before 16.")
    good = whole(starting(2), rotating(of("ZI")))
    right = b"\1" + ending("XI")
    for row, paulis in ((3, NONE), (4, OTHERS)):
        for place, pauli in enumerate(paulis):
            for log in (right, (right[:-1], right + b"\0", b"", right[1:])[place % 4]):
                lines.ask(judge_line(good, log, pauli), f"refused {row}")
            lines.ask(log_line(good, pauli, 17), untouched(row, 17))
            last = log_line(good, pauli, 18), judge_line(good, b"", pauli), damaged_line(good, pauli, 1)
            lines.ask(on_emulator(last[place % 3]), untouched(row, 18) if place % 3 == 0 else f"refused {row}")
    lines.say("Widths 0 to 24 on a run from 12: 4, but on its own.")
    run = whole(starting(12), rotating(Z))
    for n in range(25):
        lines.ask(judge_line(run, b"\1" + ending("X"), (n, *X) if n else (n, *I)), "yes" if n == 12 else "refused 4")
    lines.say("The start's qubits count, not the last: a run that ends on one more, and on one less.")
    for run, wrong in ((whole(starting(2), promoting(), rotating()), 3), (whole(starting(2), projecting(), rotating()), 1)):
        lines.ask(judge_line(run, b"\0" + ending("X"), (wrong, *X)), "refused 4")
        lines.ask(log_line(run, (wrong, *X), 20), untouched("4", 20))


def emulated(lines):
    lines.say("The emulator: 21 in the place of a start over 6 and of a promotion at 6, before 3, 4, 24 and 16.")
    for n in (5, 6, 7, 12, 13, 255):
        run, log = whole(starting(n), rotating(Z)), b"\1" + ending("X")
        lines.ask(judge_line(run, log, (n, *X)), "yes" if n <= 12 else "refused 14 at 0")
        lines.ask(on_emulator(judge_line(run, log, (n, *X))), "yes" if n <= 6 else "refused 21 at 0")
        if n > 6:
            for pauli, other in (((n, 4, 0, 0), log), ((2, *X), log), ((n, *X), b"")):
                lines.ask(on_emulator(judge_line(run, other, pauli)), "refused 21 at 0")
            lines.ask(on_emulator(log_line(run, (n, *X), 3)), untouched("21 at 0", 3))
    six, log = whole(starting(6), rotating(Z), promoting(), rotating((0, 64, 0))), bytes([1, 0]) + ending("X")
    lines.ask(judge_line(six, log, (6, *X)), "yes")
    for pauli, other in (((6, *X), log), ((6, *X), b""), ((7, *X), log), ((6, 4, 0, 0), log)):
        lines.ask(on_emulator(judge_line(six, other, pauli)), "refused 21 at 41")
    lines.ask(on_emulator(log_line(six, (6, *X), 0)), untouched("21 at 41", 0))
    lines.ask(on_emulator(damaged_line(six, (6, *X), 1)), "refused 21 at 41")
    five, log = whole(starting(5), promoting(), rotating((0, 0, 33))), b"\1" + ending("X")
    for line in (judge_line(five, log, (5, *X)), on_emulator(judge_line(five, log, (5, *X)))):
        lines.ask(line, "yes")
    lines.say("8 of a promotion at 6 is before 21; 15 is the service's, 21 the emulator's.")
    lines.ask(on_emulator(judge_line(whole(starting(6), promoting(NAN)), bytes(17), (6, *X))), "refused 8 at 4")
    over = whole(starting(0), (13, promoting()))
    lines.ask(judge_line(over, bytes(17), (0, *I)), "refused 15 at 232")
    lines.ask(on_emulator(judge_line(over, bytes(17), (0, *I))), "refused 21 at 118")
    lines.say("Other rows alike, on both.")
    for run, told in REFUSED_RUNS:
        if not run or run[0][0] != 1 or run[0][3] <= 2:
            lines.ask(on_emulator(judge_line(spelled(*run), b"", (2, *X))), f"refused {told}")


# --------------------------------------------------------------- the longest runs


def longest(lines):
    lines.say("1,771 rotations, each flipped: on both. One byte of the log changed, and lengths around it.")
    run, end = whole(starting(1), (1771, rotating(Z))), ending("X")
    assert length(run) == 65534
    right = judge_line(run, [(1771, b"\1"), end], (1, *X))
    lines.ask(right, "yes")
    lines.ask(on_emulator(right), "yes")
    lines.ask(judge_line(run, [(1771, b"\0"), end], (1, *X)), "no")
    lines.ask(judge_line(run, [(1771, b"\0"), ending("Z")], (1, *Z)), "yes")
    for at in (0, 1, 7, 8, 63, 64, 255, 256, 257, 885, 1023, 1024, 1769, 1770):
        line = judge_line(run, [(at, b"\1"), b"\0", (1770 - at, b"\1"), end], (1, *X))
        lines.ask(line, "no")
        if at in (0, 256, 1770):
            lines.ask(on_emulator(line), "no")
    for size in (0, 1, 17, 256, 1770, 1772, 1788, 3542, 65534 - 17):
        lines.ask(judge_line(run, [(size, b"\1"), end], (1, *X)), "refused 24")
    for room in (1787, 1788, 1789):
        lines.ask(log_line(run, (1, *X), room))
        lines.ask(on_emulator(log_line(run, (1, *X), room)))
    lines.say("The most flags that a run has, 1,773: twelve projections, then rotations on no qubits.")
    run = whole(starting(12), (12, projecting(Z, 0, 1)), (1761, rotating(I, 1)))
    assert LONGEST - 30 < length(run) <= LONGEST
    # X on the first qubit turns the first branch; each Z above is met in its turn, and branch 1 changes the sign: eleven times.
    start = 12, 0, 1, 0xFFE
    lines.ask(judge_line(run, [b"\0", (1772, b"\1"), ending("-")], start), "yes")
    lines.ask(judge_line(run, [b"\0", (1772, b"\1"), ending("")], start), "no")
    lines.ask(judge_line(run, [(1773, b"\1"), ending("-")], start), "no")
    lines.ask(judge_line(run, [b"\0", (1771, b"\1"), ending("-")], start), "refused 24")
    lines.ask(log_line(run, start, 1790))
    lines.ask(log_line(run, start, HELD))
    lines.say("Promotions and projections in turn, 1,337 flags; the same with quarter turns, 949.")
    run = whole(starting(1), (1337, promoting() + projecting((0, 0, 2), 1, 1)))
    lines.ask(judge_line(run, [(1337, b"\1"), ending("Y")], (1, *Y)), "yes")
    lines.ask(judge_line(run, [(1337, b"\0"), ending("Y")], (1, *Y)), "no")
    run = whole(starting(1), (949, promoting() + turning((0, 2, 1)) + projecting((0, 0, 2), 1, 1)))
    # X becomes YX, which flips the branch to 0, and Y is left; Y becomes -XX, and -X is left; and so on, round in four.
    lines.ask(judge_line(run, [(949, b"\0"), ending("Y")], (1, *X)), "yes")
    lines.ask(judge_line(run, [(949, b"\0"), ending("-Y")], (1, *X)), "no")
    lines.ask(judge_line(run, [(949, b"\0"), ending("-Y")], (1, 2, 1, 0)), "yes")
    lines.say("3,277 steps without a flag, and 3,276: 17 bytes.")
    for count, end in ((3266, "X"), (3265, "-X")):
        run = whole(starting(1), (11, promoting()), (count, correcting(of("Z" + "I" * 11))))
        assert length(run) == LONGEST - 20 * (3266 - count)
        lines.ask(judge_line(run, ending(end), (1, *X)), "yes")
        lines.ask(judge_line(run, ending("-X" if end == "X" else "X"), (1, *X)), "no")
        lines.ask(log_line(run, (1, *X), 17), logged(ending(end), 17))
    lines.ask(damaged_line(run, (1, *X), 2), all_told(17))
    lines.say("65,536 bytes with 17 flags; one byte more is 14 at 0, before 3, 4, 24 and 16.")
    run = whole(starting(1), (17, rotating(Z)), (3245, correcting()))
    assert length(run) == LONGEST
    lines.ask(judge_line(run, [(17, b"\1"), ending("X")], (1, *X)), "yes")
    lines.ask(damaged_line(run, (1, *X), 1), all_told(34))
    over = whole(starting(1), (10, rotating(Z)), (3258, correcting()))
    assert length(over) == LONGEST + 1
    for text in (over, spelled(starting(1), END, (HELD - 7, bytes(1)))):
        for pauli, log in (((1, *X), [(10, b"\1"), ending("X")]), ((1, 4, 0, 0), ending("X")), ((2, *X), b"")):
            lines.ask(judge_line(text, log, pauli), "refused 14 at 0")
        lines.ask(log_line(text, (1, *X), 27), untouched("14 at 0", 27))
        lines.ask(damaged_line(text, (1, *X), 1), "refused 14 at 0")
    lines.say("A thousand flags, of every kind of step: each byte of the log damaged.")
    turns = turning(Z) + rotating(X, 1) + promoting() + rotating((0, 2, 0)) + correcting((0, 2, 0)) + projecting((0, 0, 2), 1, 1) + rotating(Z)
    run = whole(starting(1), (250, turns))
    assert length(run) <= LONGEST
    for pauli, xor in (((1, *X), 1), ((1, 3, 1, 1), 255), ((1, *Z), 0)):
        lines.ask(damaged_line(run, pauli, xor), all_told(1017, "n" if xor else "y"))
        lines.ask(log_line(run, pauli, 1017))
    lines.ask(on_emulator(damaged_line(run, (1, *X), 2)), all_told(1017))
    lines.say("Flags that come in no order: the right log, and two of its bytes exchanged.")
    rng = random.Random(10)
    pieces = [rotating(rng.choice([X, Y, Z]), rng.randrange(2)) for _ in range(24)]
    run, pauli = whole(starting(1), *[piece + turning(rng.choice([X, Z])) for piece in pieces]), (1, *Y)
    log = right_log(bytes_of(run), SERVICE, Pauli(*pauli))
    lines.ask(judge_line(run, log, pauli), "yes")
    at = next(at for at in counted_from(10) if log[at] != log[at + 1])
    lines.ask(judge_line(run, log[:at] + log[at : at + 2][::-1] + log[at + 2 :], pauli), "no")
    lines.ask(damaged_line(run, pauli, 1), all_told(41))


def not_read(lines):
    lines.say("Not read: another count of numbers, no log, a longer run, log or room, an xor over 255, no call.")
    run, log = whole(starting(1)), ending("X").hex()
    for line in (
        f"log {run}", f"log {run} 1 0 0x1 0x0", f"log {run} 1 0 0x1 0x0 17 17", f"judge {run}", f"judge {run} {log}", f"judge {run} {log} 1 0 0x1",
        f"judge {run} {log} 1 0 0x1 0x0 0", f"judge {run}  1 0 0x1 0x0", f"judge  {log} 1 0 0x1 0x0", f"damaged {run} 1 0 0x1 0x0", f"damaged {run} 1 0 0x1 0x0 1 1",
        f"emulated-log {run} 1 0 0x1 0x0", f"emulated-judge {run} {log} 1 0 0x1", f"emulated-damaged {run} 1 0 0x1 0x0", f"judged {run} {log} 1 0 0x1 0x0",
        f"logs {run} 1 0 0x1 0x0 17", f"emulated-emulated-log {run} 1 0 0x1 0x0 17", f"damage {run} 1 0 0x1 0x0 1", "log", "judge", "damaged", "emulated-judge",
        log_line(run, (1, *X), WIDEST_TEXT + 1), log_line(run, (1, *X), MOST), damaged_line(run, (1, *X), 256), damaged_line(run, (1, *X), MOST),
        judge_line(spelled(starting(1), END, (HELD - 6, bytes(1))), bytes(17), (1, *X)), judge_line(run, [(HELD + 1, bytes(1))], (1, *X)),
        log_line(spelled(starting(1), END, (HELD - 6, bytes(1))), (1, *X), 17),
    ):
        lines.ask(line, "unread")
    lines.say("Read, though long: a log of 66,000 bytes is 24.")
    lines.ask(judge_line(run, [(HELD, bytes(1))], (1, *X)), "refused 24")


# ---------------------------------------------------------------------- at random


def wrong_writers(lines):
    """For each wrong writer some runs for which its log is another than the right one."""
    lines.say("Logs written by other rules: a no, or 24 where the length is another.")
    rng, found = random.Random(24), Counter()
    while min(found[name] for name in WRITERS) < 3:
        n = rng.choice([1, 2, 2, 3, 4])
        run = random_run(rng, n, rng.choice([2, 3, 3, 4]), 5)
        pauli = n, *random_phased(rng, n)
        whole_run, text = b"".join(run), spelled(*run)
        right = right_log(whole_run, SERVICE, Pauli(*pauli))
        asked = {right}
        for name, written in WRITERS.items():
            if found[name] >= 3:
                continue
            log = written(whole_run, SERVICE, Pauli(*pauli))
            found[name] += log != right
            if log not in asked:
                lines.ask(judge_line(text, log, pauli), "no" if len(log) == len(right) else "refused 24")
                asked.add(log)
        if len(asked) > 1:
            lines.ask(judge_line(text, right, pauli), "yes")


def at_random(lines):
    rng, counts = random.Random(17), Counter()
    lines.say("Random runs from 0 to 6 qubits: their logs, and whether they are told from logs with one bit changed.")
    for place in range(90):
        n = rng.choice([0, 1, 1, 2, 2, 3, 3, 4, 5, 6])
        run = random_run(rng, n, rng.choice([1, 2, 3, 3, 4]), 6)
        pauli = n, *random_phased(rng, n)
        text, log = spelled(*run), right_log(b"".join(run), SERVICE, Pauli(*pauli))
        count_log(counts, b"".join(run), Pauli(*pauli))
        line = (log_line(text, pauli, len(log)), damaged_line(text, pauli, 1 << place % 8), judge_line(text, log, pauli))[place % 3]
        lines.ask(on_emulator(line) if place % 4 == 0 else line)
    wanted = [("flag", kind, own, left) for kind in ("rotation", "projection") for own in (0, 1) for left in (0, 1)]
    wanted += [("phase", k) for k in range(4)] + ["promotion", "correction", "quarter-turn", ("flags", 0), ("flags", 1), ("flags", 2), ("flags", 3)]
    assert all(counts[what] > 4 for what in wanted), counts
    lines.say("Ten to twelve qubits, the ends' masks in two bytes.")
    for place in range(15):
        n = rng.choice([10, 11, 12])
        run = random_run(rng, n, rng.randrange(1, 4), 12)
        pauli = n, *random_phased(rng, n)
        text, log = spelled(*run), right_log(b"".join(run), SERVICE, Pauli(*pauli))
        lines.ask((log_line(text, pauli, len(log)), damaged_line(text, pauli, 255), judge_line(text, log, pauli))[place % 3])
    lines.say("Any call, logs near the right one and damaged runs among them.")
    for _ in range(80):
        lines.ask(random_line(rng))


def count_log(counts, run, pauli):
    """The flags by their kinds and what carrying makes of them, the other steps, the phase of the end."""
    flags, end = carried(run, SERVICE, pauli)
    flag = iter(flags)
    for _, step in walk(run, SERVICE)[1]:
        counts[("flag", step[0], flag_of(step), next(flag)) if flagged(step) else step[0]] += 1
    counts["phase", end.k] += 1
    counts["flags", min(len(flags), 3)] += 1


def near(rng, log):
    """A log with something wrong in it, or another."""
    kind, at = rng.randrange(9), rng.randrange(len(log))
    if kind == 0:
        return with_byte(log, at, rng.choice([0, 1, 2, 3, 4, 255, rng.randrange(256)]))
    if kind == 1:
        other = rng.randrange(len(log))
        return with_byte(with_byte(log, at, log[other]), other, log[at])
    if kind in (2, 3):
        return with_byte(log, at, log[at] ^ 1 << rng.randrange(8))
    if kind == 4:
        return with_byte(log, -PAULI_BYTES % len(log), (log[-PAULI_BYTES] + rng.choice([1, 2, 3, 4, 252])) % 256)
    if kind == 5:
        return rng.choice([log[:-1], log[1:], log[:at], log[at:], log[:at] + log[at + 1 :]])
    if kind == 6:
        return log[:at] + bytes(rng.choice([0, 1, rng.randrange(256)]) for _ in range(rng.choice([1, 1, 2, 17]))) + log[at:]
    if kind == 7:
        return bytes(rng.randrange(2) for _ in log[:-PAULI_BYTES]) + log[len(log) - PAULI_BYTES :]
    return bytes(rng.choice([0, 1, rng.randrange(256)]) for _ in range(rng.choice([len(log), len(log), 0, 16, 17, 18, rng.randrange(40)])))


def random_log(rng, run, caller, pauli):
    """The right log, one near it, one by another rule; for what is refused any bytes."""
    try:
        log = right_log(run, caller, pauli)
    except (Refused, RefusedAt):
        return bytes(rng.randrange(2) for _ in range(rng.choice([0, 17, 18, rng.randrange(30)])))
    kind = rng.randrange(8)
    if kind < 3:
        return log
    return WRITERS[rng.choice(list(WRITERS))](run, caller, pauli) if kind == 3 else near(rng, log)


def random_line(rng):
    call = rng.choices(["log", "judge", "damaged"], [5, 12, 4])[0]
    caller = EMULATOR if rng.randrange(3) == 0 else SERVICE
    few, many = [(2, 6), (4, 7), (5, 7), (6, 6), (6, 7), (7, 8)], [(0, 3), (1, 2), (2, 4), (3, 3), (3, 6), (5, 7), (11, 12), (12, 12)]
    n, widest = rng.choice(few if caller == EMULATOR else many)
    text, run = random_accepted(rng, n, widest) if rng.randrange(4) else random_text(rng, n, widest)
    pauli = any_pauli(rng, n) if rng.randrange(2) else (n, *random_phased(rng, n))
    if call == "judge":
        line = judge_line(text, random_log(rng, run, caller, Pauli(*pauli)), pauli)
    elif call == "damaged":
        line = damaged_line(text, pauli, rng.choice([1 << rng.randrange(8)] * 4 + [0, 255, rng.randrange(256)]))
    else:
        try:
            size = len(right_log(run, caller, Pauli(*pauli)))
        except (Refused, RefusedAt):
            size = 17
        line = log_line(text, pauli, random_size(rng, bytes(size)))
    line = on_emulator(line) if caller == EMULATOR else line
    return line if rng.randrange(60) else rng.choice([line + " 0", line.rpartition(" ")[0]])


def kind_of(asked, told):
    """The call and what sort of answer it has."""
    call, words = asked.split(" ")[0], told.split(" ")
    return f"{call} {' '.join(words[:2]) if words[0] == 'refused' else words[0]}"


def fuzz(program, seed, count):
    return reports.fuzz(program, seed, count, random_line, answer, kind_of)


# ------------------------------------------------------------------ telling apart


def tell_apart(lines):
    """Each wrong judge and each wrong writer is caught by some of these lines. One that is refused is not looked at."""
    caught = Counter()
    for line in lines:
        asked = None if line.startswith("#") else parsed(line)
        if asked is None or asked[1] == "damaged":
            continue
        caller, name, (run, *log), words = asked
        pauli = Pauli(*words[:4])
        try:
            flags, end = carried(run, caller, pauli)
        except (Refused, RefusedAt):
            continue
        right = flags + pauli_bytes(end)
        if name == "log" and words[4] >= len(right):
            caught.update(name for name, written in WRITERS.items() if written(run, caller, pauli) != right)
        elif name == "judge" and len(log[0]) == len(right):
            caught.update(name for name, verdict in JUDGES.items() if bool(verdict(flags, end, log[0])) != (log[0] == right))
    missed = [name for name in [*WRITERS, *JUDGES] if caught[name] < 3]
    assert not missed, missed


def all_lines():
    lines = runs.Lines(answer)
    for part in (logs_by_hand, ends_of_phases, of_no_flag, lengths_of_logs, room_for_logs, wrong_flags, wrong_ends, last_width):
        part(lines)
    for part in (rows, emulated, longest, not_read, wrong_writers, at_random):
        part(lines)
    tell_apart(lines.lines)
    return lines.lines


if __name__ == "__main__":
    command, *rest = sys.argv[1:]
    if command == "fuzz":
        sys.exit(not fuzz(rest[0], int(rest[1]), int(rest[2])))
    else:
        for asked_line in sys.stdin:
            print(answer(asked_line.rstrip("\n")))
