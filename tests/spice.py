#!/usr/bin/env python3
"""An outside check, no part of the gate: Debian's ngspice and the filter program on the same circuit.

The door listing is given to ngspice as an ordinary circuit (the source of weight 166 is 166 units of 10,000 nanosiemens behind it), and AC analysis
tells its gain. The filter is fed with sines, and its gain is measured by correlation. A wave digital filter has the circuit's gain at the frequency
that the bilinear rule warps to: f' = rate/pi * tan(pi f/rate). A heard wave is twice the voltage at the resistor, so the filter's gain is 2 v/V.

usage: tests/spice.py        (after 'tools/build.sh filter'; needs ngspice: apt-get install ngspice)
Prints the two gains side by side, writes docs/spice.svg, and ends with status 1 where they differ by more than 0.2 dB from 50 Hz to 7 kHz.
"""
import cmath
import math
import os
import struct
import subprocess
import sys
import tempfile

ROOT = os.path.dirname(os.path.dirname(os.path.abspath(__file__)))
RATE, UNIT, SOURCE = 16000, 10_000e-9, 166
SECONDS, SETTLE = 1.0, 0.25
POINTS = 25
LIMIT = 0.2


def amplitude(f):
    """As loud as the line takes without a wave being held: at low frequencies the coil's waves are more than five times the sample's."""
    return 12000 if f < 2000 else 24000


def warped(f):
    return RATE / math.pi * math.tan(math.pi * f / RATE)


def spice(frequencies):
    """The gain of the circuit in ngspice, at the warped frequencies, in decibels."""
    lines = ["door line", "V1 in 0 AC 1", f"RS in 1 {1 / (SOURCE * UNIT):.6f}", "L1 1 2 100m", "C1 2 0 100n", "R1 2 0 600", ".control"]
    for f in frequencies:
        lines += [f"ac lin 1 {warped(f):.9g} {warped(f):.9g}", "print vdb(2)"]
    lines += [".endc", ".end"]
    with tempfile.NamedTemporaryFile("w", suffix=".cir", delete=False) as f:
        f.write("\n".join(lines) + "\n")
    out = subprocess.run(["ngspice", "-b", f.name], capture_output=True, text=True).stdout
    os.unlink(f.name)
    found = [float(l.split("=")[1]) for l in out.splitlines() if l.strip().startswith("vdb(2) =")]
    if len(found) != len(frequencies):
        sys.exit(f"ngspice answered {len(found)} of {len(frequencies)} frequencies")
    return [g + 20 * math.log10(2) for g in found]


def filtered(f):
    """The gain of the filter program, in decibels."""
    n, skip = int(RATE * SECONDS), int(RATE * SETTLE)
    wave = [round(amplitude(f) * math.sin(2 * math.pi * f * k / RATE)) for k in range(n)]
    raw = struct.pack(f"<{n}h", *wave)
    out = subprocess.run([os.path.join(ROOT, "target/bin/filter")], input=raw, capture_output=True, cwd=os.path.join(ROOT, "examples")).stdout
    heard = struct.unpack(f"<{n}h", out)
    window = [0.5 - 0.5 * math.cos(2 * math.pi * (k - skip) / (n - skip)) for k in range(skip, n)]

    def size(xs):
        return abs(sum(w * xs[k] * cmath.exp(-2j * math.pi * f * k / RATE) for w, k in zip(window, range(skip, n))))

    return 20 * math.log10(size(heard) / size(wave))


def picture(frequencies, circuit, ours, path):
    width, height, left, top = 720, 360, 60, 20
    low, high, floor, roof = math.log10(40), math.log10(8000), -60.0, 10.0

    def x(f):
        return left + (math.log10(f) - low) / (high - low) * (width - left - 20)

    def y(g):
        return top + (roof - g) / (roof - floor) * (height - top - 40)

    s = [f'<svg xmlns="http://www.w3.org/2000/svg" width="{width}" height="{height}" font-family="sans-serif" font-size="12">',
         f'<rect width="{width}" height="{height}" fill="white"/>']
    for g in range(-60, 11, 10):
        s.append(f'<line x1="{left}" y1="{y(g):.1f}" x2="{width - 20}" y2="{y(g):.1f}" stroke="#ddd"/><text x="{left - 8}" y="{y(g) + 4:.1f}" text-anchor="end">{g} dB</text>')
    for f in (50, 100, 200, 500, 1000, 2000, 5000, 7000):
        s.append(f'<line x1="{x(f):.1f}" y1="{top}" x2="{x(f):.1f}" y2="{height - 40}" stroke="#eee"/><text x="{x(f):.1f}" y="{height - 24}" text-anchor="middle">{f}</text>')
    s.append('<polyline fill="none" stroke="#888" stroke-width="5" points="' + " ".join(f"{x(f):.1f},{y(g):.1f}" for f, g in zip(frequencies, circuit)) + '"/>')
    s += [f'<circle cx="{x(f):.1f}" cy="{y(g):.1f}" r="3.5" fill="#c02020"/>' for f, g in zip(frequencies, ours)]
    s.append(f'<text x="{left + 10}" y="{height - 90}" fill="#666">grey: the circuit in ngspice, frequencies warped by the bilinear rule</text>')
    s.append(f'<text x="{left + 10}" y="{height - 72}" fill="#c02020">red: the filter program, fed with sines</text>')
    s.append(f'<text x="{width / 2:.0f}" y="{height - 6}" text-anchor="middle">hertz</text></svg>')
    with open(path, "w") as f:
        f.write("\n".join(s) + "\n")


def main():
    frequencies = [50 * (7000 / 50) ** (i / (POINTS - 1)) for i in range(POINTS)]
    circuit = spice(frequencies)
    ours = [filtered(f) for f in frequencies]
    worst = 0.0
    print("   hertz   ngspice    filter    apart")
    for f, a, b in zip(frequencies, circuit, ours):
        worst = max(worst, abs(a - b))
        print(f"{f:8.1f} {a:8.3f} dB {b:8.3f} dB {b - a:+.3f}")
    picture(frequencies, circuit, ours, os.path.join(ROOT, "docs", "spice.svg"))
    print(f"worst {worst:.3f} dB, limit {LIMIT} dB")
    return 1 if worst > LIMIT else 0


sys.exit(main())
