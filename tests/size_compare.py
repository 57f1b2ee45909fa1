#!/usr/bin/env python3
"""Compares jondwave_norm with the size of a complex number found in whole numbers, bit by bit; all NaNs count as one.

    python3 tests/size_compare.py LIBRARY [COUNT [SEED]]     LIBRARY: a shared library that has jondwave_norm and jondwave_norm_with

Pairs are bit patterns: of the special cases, at every distance of exponents from 0 to 60, subnormal, where the size passes
the largest f64, at ties and one unit from them, close to a midpoint, and at random. Each pair is also given to
jondwave_norm_with, with a guess at the size that is wrong.
"""
import ctypes
import math
import random
import struct
import sys

SIGN, TOP, LEADING = 1 << 63, 0x7FF << 52, 1 << 52
LARGEST, NAN = TOP - 1, TOP | LEADING >> 1
# re, im, size
TIES = [
    (0x433A7AA3F5230901, 0x43338B25E6519F28, 0x4340748651AB5110),  # down
    (0x433B67756BA69BCF, 0x43333BEB038432FC, 0x4340BD7CEC9E7C34),  # up
    (0x43453AAD5B003E1A, 0x426A079EE2CBA000, 0x43453AAD5BFF91D2),  # parts of unlike exponents
]
# just above a midpoint: the digits that decide stand below the first 108 of the exact square
ABOVE = [
    (0x3ECB36BB136349CB, 0x3E9F4AD881D55BF7, 0x3ECB7E53C83BCFB7),
    (0x3EAFAD0BB05B9079, 0x3E95697DB1FC49D1, 0x3EB0B7D86DAE6BD3),
    (0x3EBF1DA4E4EEBA07, 0x3E9EC123CDD214BF, 0x3EC0069C2250F023),
]
CASES = [
    *TIES,
    *ABOVE,
    (LARGEST, 0x7E46A09E667F3BCC, LARGEST),
    (LARGEST, 0x7E46A09E667F3BCD, TOP),
    (0x7FE6A09E667F3BCE, 0x7FE6A09E667F3BCE, TOP),  # where the next pattern would be a NaN's
    (2, 2, 3),
    (0xC008 << 48, 0, 0x4008 << 48),
]


def units(pattern):
    """How many times 2^-1074 a value is that is not negative. For the infinity's pattern it is 2^1024."""
    field, digits = pattern >> 52, pattern % LEADING
    return (digits | LEADING) << field - 1 if field else digits


def pattern_of(n):
    """The pattern of n * 2^-1074, cut to 53 binary digits."""
    drop = max(n.bit_length() - 53, 0)
    return (drop << 52) + (n >> drop)


def rounded(square):
    """The pattern nearest the root of a square in units of 2^-2148, ties to even; and whether it is a tie."""
    low = pattern_of(math.isqrt(square))
    if low >= TOP:
        return TOP, False
    above = 4 * square - (units(low) + units(low + 1)) ** 2  # the midpoint is half of that sum
    return low + (above > 0 or (above == 0 and low % 2)), above == 0


def size(re, im):
    re, im = re % SIGN, im % SIGN
    if TOP in (re, im):
        return TOP, False
    if max(re, im) > TOP:
        return NAN, False
    return rounded(units(re) ** 2 + units(im) ** 2)


def special():
    parts = [s | p for p in (0, 1, LARGEST, TOP, TOP + 1, NAN, NAN + 1, 0x4008 << 48, 0x4010 << 48) for s in (0, SIGN)]
    return [(a, b) for a in parts for b in parts]


class Pairs(random.Random):
    def at_distance(self, k):
        field = self.choice([0, 1, self.randrange(60), self.randrange(2047 - k)])
        return field + k << 52 | self.getrandbits(52), field << 52 | self.getrandbits(52)

    def subnormal(self):
        return self.getrandbits(self.randrange(1, 54)), self.getrandbits(self.randrange(1, 54))

    def near_overflow(self):
        if self.getrandbits(1):
            return LARGEST - self.randrange(3), 0x7E46A09E667F3BCC + self.randrange(-2, 5)
        angle, length = self.uniform(0, math.pi / 2), units(LARGEST) + self.randrange(-4, 5) * 2**2043
        return tuple(pattern_of(length * int(f(angle) * 2**60) >> 60) for f in (math.cos, math.sin))

    def tie(self):
        """The sides of a triple whose hypotenuse is odd and has 54 digits, a midpoint."""
        while True:
            factor = self.choice([1, 1, 3, 5, 7, 11, 15, 21, 2 * self.randrange(1, 5000) + 1])
            reach = math.isqrt(2**54 // factor)
            m = self.randrange(reach // 2, reach)
            n = self.randrange(1, self.choice([m, m, m // 100 + 2, m // 10**5 + 2, m // 10**6 + 2]))
            a, b, c = (factor * x for x in (m * m - n * n, 2 * m * n, m * m + n * n))
            if c % 2 and 2**53 < c < 2**54 and all(x < 2**53 or x % 2 == 0 for x in (a, b)):
                return a, b

    def close(self):
        """A side, and the other of 53 digits that makes the hypotenuse a midpoint, cut or one unit more."""
        middle = 2 * self.randrange(2**52, 2**53) + 1
        gap = 2 * self.getrandbits(self.choice([0, 0, 1, 2, self.randrange(53)])) + 1
        square = gap * (2 * middle - gap)
        more = max(53 - (square.bit_length() + 1) // 2, 0)
        return middle - gap << more, math.isqrt(square << 2 * more) + self.getrandbits(1)

    def scaled(self, sides):
        shift = self.choice([0, 1, self.randrange(60), self.randrange(2098 - max(sides).bit_length())])
        return [pattern_of(x << shift) for x in sides]

    def magnitudes(self, k):
        kind = k % 8
        if kind < 3:
            return self.at_distance(k // 8 % 61)
        if kind == 3:
            return self.subnormal()
        if kind == 4:
            return self.near_overflow()
        if kind == 5:
            return [max(p + self.choice([-1, 0, 0, 1]), 0) for p in self.scaled(self.tie())]
        if kind == 6:
            return self.scaled(self.close())
        return self.getrandbits(63), self.getrandbits(63)

    def drawn(self, k):
        parts = [p | self.getrandbits(1) << 63 for p in self.magnitudes(k)]
        self.shuffle(parts)
        return tuple(parts)

    def wrong(self, size):
        """The pattern of a guess: the size some units off, with another exponent or sign, a special value, anything."""
        off = self.choice([0, 1, -1, 1, -1, 2, -2, LEADING, -LEADING, SIGN])
        return self.choice([(size + off) % (1 << 64), (size + off) % (1 << 64), 0, TOP, NAN, self.getrandbits(64)])


def called(function, *parts):
    """The pattern of what the function gives."""
    x = function(*struct.unpack(f"<{len(parts)}d", struct.pack(f"<{len(parts)}Q", *parts)))
    return NAN if x != x else struct.unpack("<Q", struct.pack("<d", x))[0]


def main():
    if not 2 <= len(sys.argv) <= 4:
        sys.exit(__doc__)
    library, count, seed = sys.argv[1:] + ["100000", "1"][len(sys.argv) - 2 :]
    norm, norm_with = (getattr(ctypes.CDLL(library), name) for name in ("jondwave_norm", "jondwave_norm_with"))
    norm.argtypes, norm_with.argtypes = [ctypes.c_double] * 2, [ctypes.c_double] * 3
    norm.restype = norm_with.restype = ctypes.c_double
    faults = [f"{re:016X} {im:016X}: the whole numbers do not give {want:016X}" for re, im, want in CASES if size(re, im)[0] != want]
    first, drawn, ties = [(re, im) for re, im, _ in CASES] + special(), Pairs(int(seed)), 0
    for k in range(int(count)):
        re, im = first[k] if k < len(first) else drawn.drawn(k)
        want, tie = size(re, im)
        guess = drawn.wrong(want)
        ties += tie
        for got in (called(norm, re, im), called(norm_with, re, im, guess)):
            if got != want:
                faults.append(f"{re:016X} {im:016X}, guess {guess:016X}: {got:016X}, and not {want:016X}")
    print(*faults[:10], sep="\n", end="\n" if faults else "")
    print(f"size: {count} pairs, {ties} of them ties, each with a guess handed in too, {len(faults)} differences")
    sys.exit(1 if faults else 0)


if __name__ == "__main__":
    main()
