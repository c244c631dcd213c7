#!/usr/bin/env python3
"""A second opinion on the kernel calls: reads calls, writes answers, a line each.

    model.py < stdin > stdout

Written from the scope's text alone (document 01), which the comments quote; it
shares nothing with the Rattle or the Rust. Python's floats are IEEE 754
binary64, each operation rounded by itself.

A call is its name and words: numbers in decimal, masks and floats in
hexadecimal after 0x. The lent buffers follow, a bar before each; their words
are floats, 16 hexadecimal digits each. A Pauli is its width, k, x and z. An
answer is `done` or a value, or `refused` and the number; then come all buffers
as they are after the call. Any NaN is written as 7ff8000000000000.
"""

import struct
import sys

H = struct.unpack(">d", bytes.fromhex("3FE6A09E667F3BCD"))[0]


class Refused(Exception):
    """A call that a row of the table refuses: its number."""


def refuse(number, when):
    if when:
        raise Refused(number)


# ------------------------------------------------------------------- numbers


def number(bits):
    return struct.unpack(">d", struct.pack(">Q", bits))[0]


def shown(x):
    return "7ff8000000000000" if x != x else struct.pack(">d", x).hex()


def parity(word):
    """Parity is the count of ones modulo 2."""
    return bin(word).count("1") % 2


def opened(p, index):
    """Opening bit p keeps the bits below p and moves the others up one."""
    low = index % 2**p
    return (index - low) * 2 + low


def drop_bit(p, mask):
    """The bit dropped, those above it moving down one."""
    return mask >> (p + 1) << p | mask % 2**p


def highest(mask):
    return mask.bit_length() - 1


def times(x, y):
    """Complex product: (ac - bd, ad + bc), each operation rounded."""
    (a, b), (c, d) = x, y
    return (a * c - b * d, a * d + b * c)


def negated(x):
    return (-x[0], -x[1])


def power(k):
    """i^k is (1, 0), (0, 1), (-1, 0) or (0, -1), its zero +0."""
    return ((1.0, 0.0), (0.0, 1.0), (-1.0, 0.0), (0.0, -1.0))[k]


# ----------------------------------------------------------------- the table


class Pauli:
    def __init__(self, n, k, x, z):
        self.n, self.k, self.x, self.z = n, k, x, z

    def fits(self):
        """No: phase over 3, width over 256, or mask bit at or above the width."""
        return self.k <= 3 and self.n <= 256 and (self.x | self.z) < 2**self.n

    def hermitian(self):
        """k minus the number of Y (both masks set) is even."""
        return (self.k - bin(self.x & self.z).count("1")) % 2 == 0

    def shown(self):
        return f"{self.n} {self.k} {self.x:#x} {self.z:#x}"


def check_pauli(p, widest):
    refuse(3, not p.fits())
    refuse(6, p.n > widest)


def check_hermitian(p, widest):
    check_pauli(p, widest)
    refuse(7, not p.hermitian())


def check_units(*values):
    refuse(8, not all(-1 <= v <= 1 for v in values))


def check_pivot(p, pivot):
    refuse(9, p.n == 0)
    refuse(10, pivot >= p.n)
    refuse(11, p.x == 0 and p.z == 0)
    refuse(12, not (p.x or p.z) >> pivot & 1)


def check_room(n, *buffers):
    refuse(13, any(len(buffer) < 2**n for buffer in buffers))


# -------------------------------------------------- Paulis of one word a mask


def is_pauli(p):
    return str(int(p.fits()))


def is_hermitian(p):
    refuse(3, not p.fits())
    return str(int(p.hermitian()))


def mul(a, b):
    """A product A·B xors the masks; its phase is kA + kB + 2 × parity(A.z and B.x)."""
    refuse(3, not (a.fits() and b.fits()))
    refuse(4, a.n != b.n)
    k = (a.k + b.k + 2 * parity(a.z & b.x)) % 4
    return "done " + Pauli(a.n, k, a.x ^ b.x, a.z ^ b.z).shown()


def anticommutes(a, b):
    """When parity(A.x and B.z) differs from parity(A.z and B.x)."""
    refuse(3, not (a.fits() and b.fits()))
    refuse(4, a.n != b.n)
    return str(int(parity(a.x & b.z) != parity(a.z & b.x)))


def raised(p, exponent):
    refuse(3, not p.fits())
    return "done " + Pauli(p.n, (p.k + exponent) % 4, p.x, p.z).shown()


def dropped(p, q):
    refuse(3, not p.fits())
    refuse(5, q >= p.n)
    return "done " + Pauli(p.n - 1, p.k, drop_bit(q, p.x), drop_bit(q, p.z)).shown()


def x_bit(p, q):
    refuse(3, not p.fits())
    refuse(5, q >= p.n)
    return str(p.x >> q & 1)


def z_bit(p, q):
    refuse(3, not p.fits())
    refuse(5, q >= p.n)
    return str(p.z >> q & 1)


# ------------------------------------------------------------------- kernels


def fields(p):
    """Width, masks, i^k and its negative, and whether the masks share oddly many bits."""
    even = power(p.k)
    floats = [*even, *negated(even)]
    return [p.n, f"{p.x:#x}", f"{p.z:#x}", *map(shown, floats), parity(p.x & p.z)]


def done(*words):
    return " ".join(["done", *map(str, words)])


def action(p):
    """A Pauli becomes an action at width 62 or less."""
    check_hermitian(p, 62)
    return done(*fields(p))


def coefficient_m(p, s):
    """m = (+0, -s) × i^k."""
    return times((0.0, -s), power(p.k))


def coefficient_w(p):
    """conj(i^k), each part × h; conjugation negates the second part."""
    re, im = power(p.k)
    return (re * H, -im * H)


def rotation_kernel(p, c, s):
    """Diagonal, uniform (z = 0, x not 0), the highest bit of x or 0, c, s, m."""
    check_hermitian(p, 61)
    check_units(c, s)
    diagonal = p.x == 0
    uniform = p.x != 0 and p.z == 0
    top = 0 if diagonal else highest(p.x)
    floats = [c, s, *coefficient_m(p, s)]
    return done(*fields(p), int(diagonal), int(uniform), top, *map(shown, floats))


def with_pivot(p, pivot):
    """Pivot, diagonal, whether x = 0 and k = 2, 2^(n-1), w."""
    check_hermitian(p, 61)
    check_pivot(p, pivot)
    diagonal = p.x == 0
    minus = int(diagonal and p.k == 2)
    w = map(shown, coefficient_w(p))
    return done(*fields(p), pivot, int(diagonal), minus, 2 ** (p.n - 1), *w)


def from_pauli(p):
    """The pivot, if not given, is the highest bit of x, or of z where x is 0."""
    # Without x and z there is none; 11 is the row then, or a lower one.
    return with_pivot(p, max(highest(p.x or p.z), 0))


# ---------------------------------------------------------------- amplitudes


def rotate(p, sign, c, s, re, im):
    check_hermitian(p, 61)
    check_units(c, s)
    check_room(p.n, re, im)
    m = coefficient_m(p, s)
    old_re, old_im = re[:], im[:]
    for b in range(2**p.n):
        partner = b ^ p.x
        r, i = old_re[b], old_im[b]
        r1, i1 = old_re[partner], old_im[partner]
        if p.x == 0:
            # t = m or -m, negated when sign differs from parity(b and z);
            # f = c + t.re; re = f×r - t.im×i, im = f×i + t.im×r.
            t = negated(m) if sign != parity(b & p.z) else m
            f = c + t[0]
            re[b] = f * r - t[1] * i
            im[b] = f * i + t[1] * r
        elif p.z == 0:
            # t as above with parity 0; re = c×r - t.im×i', im = c×i + t.im×r'.
            t = negated(m) if sign else m
            re[b] = c * r - t[1] * i1
            im[b] = c * i + t[1] * r1
        else:
            # d is -1 where sign differs from parity(partner and z), else 1; u = d×m;
            # re = c×r + u.re×r' - u.im×i', im = c×i + u.re×i' + u.im×r'.
            d = -1.0 if sign != parity(partner & p.z) else 1.0
            u = (d * m[0], d * m[1])
            re[b] = c * r + u[0] * r1 - u[1] * i1
            im[b] = c * i + u[0] * i1 + u[1] * r1
    return "done"


def promote(n, c, q, re, im):
    refuse(3, n > 256)
    refuse(6, n > 60)
    check_units(c, q)
    check_room(n + 1, re, im)
    for b in range(2**n):
        # Low half: c×r, c×i. High half: re = (-q)×i, im = q×r.
        r, i = re[b], im[b]
        re[b], im[b] = c * r, c * i
        re[b + 2**n], im[b + 2**n] = (-q) * i, q * r
    return "done"


def source(p, pivot, branch, j):
    """The basis whose bits without the pivot are j and whose parity with z is
    (k = 2) xor branch."""
    b = opened(pivot, j)
    return b if parity(b & p.z) == (p.k == 2) ^ branch else b | 1 << pivot


def mixed(p, pivot, branch, j, re, im):
    """b is j opened at the pivot, b' = b xor x; a before invnorm."""
    b = opened(pivot, j)
    partner = b ^ p.x
    # w, times -1 where branch differs from parity(b and z), else 1.
    d = -1.0 if branch != parity(b & p.z) else 1.0
    w = tuple(d * part for part in coefficient_w(p))
    # a.re = h×r + w.re×r' - w.im×i', a.im = h×i + w.re×i' + w.im×r'.
    r, i, r1, i1 = re[b], im[b], re[partner], im[partner]
    return (H * r + w[0] * r1 - w[1] * i1, H * i + w[0] * i1 + w[1] * r1)


def project(p, pivot, branch, invnorm, re, im, scratch_re, scratch_im):
    check_hermitian(p, 61)
    refuse(8, not abs(invnorm) < float("inf"))
    check_pivot(p, pivot)
    check_room(p.n, re, im)
    if p.x == 0:
        # Each part × invnorm, j rising, in place.
        for j in range(2 ** (p.n - 1)):
            b = source(p, pivot, branch, j)
            re[j], im[j] = re[b] * invnorm, im[b] * invnorm
        return "done"
    check_room(p.n - 1, scratch_re, scratch_im)
    # The result is written to both scratch buffers and copied to the low half.
    for j in range(2 ** (p.n - 1)):
        a = mixed(p, pivot, branch, j, re, im)
        scratch_re[j], scratch_im[j] = a[0] * invnorm, a[1] * invnorm
    half = 2 ** (p.n - 1)
    re[:half], im[:half] = scratch_re[:half], scratch_im[:half]
    return "done"


def probability(p, pivot, branch, re, im):
    check_hermitian(p, 61)
    check_pivot(p, pivot)
    check_room(p.n, re, im)
    # From 0, j rising, add (re×re + im×im) of the basis read, or of a before invnorm.
    total = 0.0
    for j in range(2 ** (p.n - 1)):
        b = source(p, pivot, branch, j)
        a = (re[b], im[b]) if p.x == 0 else mixed(p, pivot, branch, j, re, im)
        total += a[0] * a[0] + a[1] * a[1]
    # Below 0 gives 0, above 1 gives 1, NaN stays.
    return shown(0.0 if total < 0 else 1.0 if total > 1 else total)


def correct(p, re, im):
    check_pauli(p, 61)
    check_room(p.n, re, im)
    old_re, old_im = re[:], im[:]
    for b in range(2**p.n):
        # Moves to b xor x and becomes, for exponent k + 2 × parity(b and z) modulo 4:
        # 0 (r, i), 1 (-i, r), 2 (-r, -i), 3 (i, -r).
        r, i = old_re[b], old_im[b]
        turns = ((r, i), (-i, r), (-r, -i), (i, -r))
        re[b ^ p.x], im[b ^ p.x] = turns[(p.k + 2 * parity(b & p.z)) % 4]
    return "done"


# ------------------------------------------------------------------- the text

# The words of each call: a Pauli of one word a mask, a Pauli of four, a number,
# a sign or branch, a float; and how many buffers are lent.
CALLS = {
    "is_pauli": (is_pauli, "p", 0),
    "is_hermitian": (is_hermitian, "p", 0),
    "mul": (mul, "pp", 0),
    "anticommutes": (anticommutes, "pp", 0),
    "raised": (raised, "pn", 0),
    "dropped": (dropped, "pn", 0),
    "x_bit": (x_bit, "pn", 0),
    "z_bit": (z_bit, "pn", 0),
    "action": (action, "P", 0),
    "rotation_kernel": (rotation_kernel, "pff", 0),
    "with_pivot": (with_pivot, "pn", 0),
    "from_pauli": (from_pauli, "p", 0),
    "rotate": (rotate, "pbff", 2),
    "promote": (promote, "nff", 2),
    "project": (project, "pnbf", 4),
    "probability": (probability, "pnb", 2),
    "correct": (correct, "p", 2),
}


def packed(words):
    return sum(word << 64 * place for place, word in enumerate(words))


def arguments(kinds, words):
    """The arguments that the words are, in order."""
    words = iter([int(word, 0) for word in words])
    for kind in kinds:
        first = next(words)
        if kind == "p":
            yield Pauli(first, next(words), next(words), next(words))
        elif kind == "P":
            k, *masks = [next(words) for _ in range(9)]
            yield Pauli(first, k, packed(masks[:4]), packed(masks[4:]))
        else:
            yield number(first) if kind == "f" else first


def answer(line):
    if line.startswith("#"):
        return line
    head, *parts = line.split("|")
    name, *words = head.split()
    call, kinds, lent = CALLS[name]
    buffers = [[number(int(word, 16)) for word in part.split()] for part in parts]
    assert len(buffers) == lent
    try:
        outcome = call(*arguments(kinds, words), *buffers)
    except Refused as refusal:
        outcome = f"refused {refusal}"
    for buffer in buffers:
        outcome += " |" + "".join(" " + shown(x) for x in buffer)
    return outcome


if __name__ == "__main__":
    for line in sys.stdin:
        print(answer(line.rstrip("\n")))
