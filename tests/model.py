#!/usr/bin/env python3
"""An independent model of the filter, written from the equations and from nothing else of this repository: ports as plain
objects, exact fractions, Python's whole numbers. It prints the sheet's numbers for the door line.

usage: model.py < samples
"""
import sys
from fractions import Fraction

LARGEST = 262143


def shorten(x):
    """Without its fraction, and held within the largest wave; and whether that changed it."""
    x = Fraction(x)
    n = abs(x.numerator) // x.denominator
    n = min(n, LARGEST)
    y = -n if x < 0 else n
    return y, int(y != x)


class Store:
    def __init__(self, weight, sign):
        self.ratio, self.weight, self.sign, self.state = Fraction(weight), weight, sign, 0

    def rising(self):
        return self.sign * self.state

    def stored(self):
        return self.weight * self.state ** 2

    def take(self, f):
        self.state = f
        return 0, 0, 0

    def clear(self):
        e = self.stored()
        self.state = 0
        return e


class Resistor:
    def __init__(self, weight, ear):
        self.ratio, self.weight, self.ear = Fraction(weight), weight, ear

    def rising(self):
        return 0

    def stored(self):
        return 0

    def take(self, f):
        return self.weight * f * f, 0, f if self.ear else 0

    def clear(self):
        return 0


class Pair:
    def __init__(self, a, b, series):
        self.a, self.b, self.series = a, b, series
        g1, g2 = a.ratio, b.ratio
        self.ratio = g1 * g2 / (g1 + g2) if series else g1 + g2
        self.s1, self.s2 = g1 / (g1 + g2), g2 / (g1 + g2)

    def exact_rising(self):
        r1, r2 = self.a.rising(), self.b.rising()
        return Fraction(r1 + r2) if self.series else self.s1 * r1 + self.s2 * r2

    def rising(self):
        return shorten(self.exact_rising())[0]

    def stored(self):
        return self.a.stored() + self.b.stored()

    def take(self, f):
        r1, r2, y = self.a.rising(), self.b.rising(), self.exact_rising()
        if self.series:
            x1, x2 = r1 + self.s2 * (f - y), r2 + self.s1 * (f - y)
        else:
            x1, x2 = y + f - r1, y + f - r2
        (f1, c1), (f2, c2), (_, c0) = shorten(x1), shorten(x2), shorten(y)
        a1, k1, h1 = self.a.take(f1)
        a2, k2, h2 = self.b.take(f2)
        return a1 + a2, k1 + k2 + c0 + c1 + c2, h1 + h2

    def clear(self):
        return self.a.clear() + self.b.clear()


def source(port, weight, e):
    g = port.ratio
    return shorten((2 * weight * e + (g - weight) * port.rising()) / (g + weight))[0]


def main():
    line = Pair(Store(31, -1), Pair(Store(320, 1), Resistor(166, True), False), True)
    raw = sys.stdin.buffer.read()
    entries = absorbed = dropped = shortened = swing = 0

    def feed(e):
        nonlocal entries, absorbed, shortened, swing
        r = line.rising()
        f = source(line, 166, e)
        a, c, _ = line.take(f)
        entries, absorbed, shortened, swing = entries + 1, absorbed + a, shortened + c, swing + f * f - r * r
        return a + c > 0

    def sides():
        n, d = line.ratio.numerator, line.ratio.denominator
        return [entries, line.stored(), absorbed, dropped, shortened, swing,
                d * (line.stored() + absorbed + dropped), n * swing]

    for i in range(0, len(raw) - 1, 2):
        feed(4 * int.from_bytes(raw[i:i + 2], "little", signed=True))
    first = sides()
    rounds = busy = idle = 0
    while rounds < 1000000 and idle < 256:
        rounds += 1
        if feed(0):
            busy, idle = busy + 1, 0
        else:
            idle += 1
    dropped += line.clear()
    entries += 1
    print(f"{line.ratio}")
    for a, b in zip(first, sides()):
        print(a, b)
    print(rounds, rounds - idle, busy, first[1])


main()
