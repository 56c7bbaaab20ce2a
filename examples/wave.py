#!/usr/bin/env python3
"""Waves of a simulation: reads the lines that `racelog sim` writes, and draws them.

    racelog sim race.v 12 4 6 | python3 examples/wave.py a=4 b=6
    racelog sim race.v 12 4 6 | python3 examples/wave.py a=4 b=6 --vcd race.vcd --svg race.svg

A word NAME=TIME adds the wave of an input, above the outputs: it rises in that cycle, or never. Without --vcd and --svg the
waves are printed as text. --vcd FILE writes them for a viewer such as gtkwave, with the clock; a cycle lasts 10 ns. --svg FILE
writes a small picture. The cycles are as many as the first line has digits.
"""
import argparse
import sys
from xml.sax.saxutils import escape


def read_levels(lines):
    """The waves of some lines: each a name and a text of the digits 0 and 1."""
    waves = []
    for number, line in enumerate(lines, 1):
        words = line.split()
        if len(words) != 2 or set(words[1]) - set("01"):
            sys.exit("wave.py: line %d is no line of racelog sim" % number)
        waves.append((words[0], words[1]))
    if not waves:
        sys.exit("wave.py: no lines")
    return waves


def input_wave(word, cycles):
    """The wave of an input, from a word NAME=TIME."""
    name, _, time = word.partition("=")
    if time != "never" and not time.isdecimal():
        sys.exit("wave.py: %s is not of the form NAME=TIME" % word)
    rise = cycles if time == "never" else min(int(time), cycles)
    return name, "0" * rise + "1" * (cycles - rise)


def first_rise(digits):
    """The cycle of the first 1, as a text, or never."""
    return str(digits.index("1")) if "1" in digits else "never"


def steps(digits):
    """For each cycle whether the wave is low, rises, is high, or falls."""
    before = "0"
    for digit in digits:
        yield before + digit
        before = digit


def as_text(waves):
    """The waves as lines of text, three columns for each cycle."""
    width = max(len(name) for name, _ in waves + [("cycle", "")]) + 2
    shapes = {"00": "___", "01": "/‾‾", "11": "‾‾‾", "10": "\\__"}
    cycles = len(waves[0][1])
    lines = [("cycle".ljust(width) + "".join(str(t).ljust(3) for t in range(cycles))).rstrip()]
    for name, digits in waves:
        lines.append(name.ljust(width) + "".join(shapes[step] for step in steps(digits)) + "  " + first_rise(digits))
    return "\n".join(lines) + "\n"


def as_vcd(waves):
    """The waves as a value change dump: 10 ns a cycle, the clock high in the first half of each."""
    codes = [chr(34 + k) if k < 90 else "".join(chr(34 + d) for d in divmod(k, 90)) for k in range(len(waves))]
    lines = ["$timescale 1ns $end", "$scope module race $end", "$var wire 1 ! clk $end"]
    lines += ["$var wire 1 %s %s $end" % (code, name) for code, (name, _) in zip(codes, waves)]
    lines += ["$upscope $end", "$enddefinitions $end"]
    cycles = len(waves[0][1])
    for t in range(cycles):
        changed = [digits[t] + code for code, (_, digits) in zip(codes, waves) if t == 0 or digits[t] != digits[t - 1]]
        lines += ["#%d" % (10 * t), "1!"] + changed + ["#%d" % (10 * t + 5), "0!"]
    lines.append("#%d" % (10 * cycles))
    return "\n".join(lines) + "\n"


def as_svg(waves):
    """The waves as a picture, with a grid of the cycles."""
    step, high, row, left = 32, 20, 34, 24 + 8 * max(len(name) for name, _ in waves)
    cycles = len(waves[0][1])
    width, height = left + step * cycles + 60, 30 + row * len(waves)
    parts = ['<svg xmlns="http://www.w3.org/2000/svg" width="%d" height="%d" viewBox="0 0 %d %d" '
             'font-family="monospace" font-size="13">' % (width, height, width, height),
             '<rect width="%d" height="%d" fill="white"/>' % (width, height)]
    for t in range(cycles):
        x = left + step * t
        parts.append('<path d="M%d 24V%d" stroke="#ddd"/><text x="%d" y="18" fill="#666">%d</text>' % (x, height - 6, x, t))
    for k, (name, digits) in enumerate(waves):
        low = 30 + row * k + high
        path, level = "M%d %d" % (left, low), "0"
        for t, digit in enumerate(digits):
            if digit != level:
                path += "H%dV%d" % (left + step * t, low - high if digit == "1" else low)
            level = digit
        path += "H%d" % (left + step * cycles)
        parts.append('<text x="12" y="%d">%s</text>' % (low - 4, escape(name)))
        parts.append('<path d="%s" fill="none" stroke="#0b62a4" stroke-width="2"/>' % path)
        parts.append('<text x="%d" y="%d" fill="#666">%s</text>' % (left + step * cycles + 8, low - 4, first_rise(digits)))
    return "\n".join(parts + ["</svg>"]) + "\n"


def main():
    words = argparse.ArgumentParser(description=__doc__, formatter_class=argparse.RawDescriptionHelpFormatter)
    words.add_argument("inputs", nargs="*", metavar="NAME=TIME")
    words.add_argument("--vcd", metavar="FILE")
    words.add_argument("--svg", metavar="FILE")
    given = words.parse_args()
    outputs = read_levels(sys.stdin)
    cycles = len(outputs[0][1])
    if any(len(digits) != cycles for _, digits in outputs):
        sys.exit("wave.py: lines of different lengths")
    waves = [input_wave(word, cycles) for word in given.inputs] + outputs
    for path, draw in ((given.vcd, as_vcd), (given.svg, as_svg)):
        if path:
            with open(path, "w", encoding="utf-8") as to:
                to.write(draw(waves))
    if not given.vcd and not given.svg:
        sys.stdout.buffer.write(as_text(waves).encode("utf-8"))


if __name__ == "__main__":
    main()
