#!/usr/bin/env python3
"""Runs `regtrace` and the reference on generated traces, and reports where they differ.

Usage: differential.py REGTRACE [--cases N] [--seed S] [--show K]
The traces are valid ones, ones at every limit, and damaged ones; the same seed gives the same traces.
Ends with status 0 if every case agrees in bytes and status, and 1 otherwise.
"""
import argparse
import collections
import random
import subprocess
import sys

import reference

NAMES = (b"key cost", b"cost key")
SLOTS = (b"0", b"1", b"2", b"3", b"4", b"8", b"0002", b"1023", b"1024")
BAD_SLOTS = (b"", b" ", b"1025", b"9999", b"00001", b"10240", b"A", b"-1", b"1 1", b" 1", b"1 ", b"1\r", b"+1")
BAD_KEYS = (b"", b"a", b"G", b"000000000", b"100000000", b"0x1", b"-1", b"A\t", b"\xff", b"AbCD", b"@", b":", b"/")
BAD_COSTS = (b"", b"0", b"00", b"00000", b"65281", b"99999", b"000001", b"100000", b"A", b"-1", b"1.5", b":", b"/")
EDGE_KEYS = (0, 1, 9, 10, 15, 16, 2**31, 2**32 - 1)
EDGE_COSTS = (1, 2, 255, 256, 257, 65279, 65280)
BYTES = b"\n \r\t0123456789ABCDEFGabcfkeyost@:/\x00\x7f\xff"


def key_text(rng, key):
    text = b"%X" % key
    return text.rjust(rng.randint(len(text), 8), b"0") if rng.random() < 0.2 else text


def cost_text(rng, cost):
    text = b"%d" % cost
    return text.rjust(rng.randint(len(text), 5), b"0") if rng.random() < 0.2 else text


def rows_of(rng, count):
    keys = [rng.choice(EDGE_KEYS) if rng.random() < 0.2 else rng.randrange(2**32) for _ in range(rng.randint(1, 12))]
    highest = rng.choice((1, 3, 10, 1000, 65280))
    fixed = {key: rng.randint(1, highest) for key in keys} if rng.random() < 0.5 else None
    for _ in range(count):
        key = rng.choice(keys)
        cost = fixed[key] if fixed else rng.choice(EDGE_COSTS) if rng.random() < 0.1 else rng.randint(1, highest)
        yield key_text(rng, key), cost_text(rng, cost)


def lines_in(rng, count):
    names = rng.choice(NAMES)
    lines = [b"slots", rng.choice(SLOTS), names]
    for key, cost in rows_of(rng, count):
        lines.append(b" ".join((key, cost) if names == NAMES[0] else (cost, key)))
    return lines


def text_of(lines):
    return b"".join(line + b"\n" for line in lines)


def valid(rng):
    return text_of(lines_in(rng, rng.randint(0, 60)))


def wide(rng):
    """More keys than slots, and slots up to the most."""
    count = rng.randint(0, 2048)
    spread = rng.choice((10, 1000, 1100, 1500, 3000))
    lines = [b"slots", b"%d" % rng.choice((1, 10, 1000, 1023, 1024)), b"key cost"]
    lines += [b"%X %d" % (rng.randrange(spread), rng.choice((1, 2, 3, 300, 65280))) for _ in range(count)]
    return text_of(lines)


def at_limit(rng):
    """Rows at the most and one past it, the last of them sound or not."""
    lines = [b"slots", rng.choice(SLOTS[1:]), b"key cost"] + [b"A 1"] * rng.choice((2047, 2048, 2049, 2050))
    if rng.random() < 0.6:
        lines[-1] = rng.choice((b"a 1", b"A 0", b"A", b"A 1 1", b"A" * 81, b"A " + b"1" * 78, b"00000001 00001"))
    text = text_of(lines)
    return text[:-1] if rng.random() < 0.2 else text


def long_line(rng):
    lines = lines_in(rng, rng.randint(0, 4))
    at = rng.randrange(len(lines))
    lines[at] = rng.choice((b"0", b"A", b"x", lines[at][:1] or b"0")) * rng.choice((79, 80, 81, 82, 200))
    if rng.random() < 0.3:
        lines[at] = lines[at][:3] + b" " + lines[at][4:]
    return text_of(lines)


def bad_value(rng):
    lines = lines_in(rng, rng.randint(1, 8))
    if rng.random() < 0.2:
        lines[1] = rng.choice(BAD_SLOTS)
        return text_of(lines)
    at = rng.randrange(3, len(lines))
    key = rng.choice(BAD_KEYS) if rng.random() < 0.6 else b"A"
    cost = rng.choice(BAD_COSTS) if rng.random() < 0.6 else b"1"
    lines[at] = b" ".join((key, cost) if lines[2] == NAMES[0] else (cost, key))
    return text_of(lines)


def bad_lines(rng):
    lines = lines_in(rng, rng.randint(0, 6))
    for _ in range(rng.randint(1, 2)):
        at = rng.randrange(len(lines))
        change = rng.randrange(6)
        if change == 0:
            del lines[at]
        elif change == 1:
            lines.insert(at, lines[at])
        elif change == 2:
            lines.insert(at, b"")
        elif change == 3:
            lines[at] = rng.choice((lines[at] + b" ", b" " + lines[at], lines[at].replace(b" ", b"  "), lines[at] + b"\r"))
        elif change == 4:
            lines[at] = rng.choice((b"slots", b"key cost", b"cost key", b"key", b"cost", b"Slots", b"key  cost", b"key cost paid", b"1", b"A 1"))
        else:
            other = rng.randrange(len(lines))
            lines[at], lines[other] = lines[other], lines[at]
        if not lines:
            break
    return text_of(lines)


def damaged(rng):
    text = bytearray(valid(rng) if rng.random() < 0.7 else bad_value(rng))
    for _ in range(rng.randint(1, 3)):
        at = rng.randrange(len(text) + 1)
        change = rng.randrange(4)
        if change == 0:
            text[at:at] = bytes((rng.choice(BYTES),))
        elif change == 1:
            del text[at : at + rng.randint(1, 3)]
        elif change == 2 and at < len(text):
            text[at] = rng.choice(BYTES)
        else:
            del text[at:]
    return bytes(text)


def huge(rng):
    """Past what is read at all."""
    line = rng.choice((b"A 1\n", b"A 1 1\n", b"A" * 100 + b"\n"))
    return b"slots\n2\nkey cost\n" + line * (70000 // len(line)) + rng.choice((b"", b"A"))


def small(rng):
    return bytes(rng.choice(BYTES) for _ in range(rng.randint(0, 12)))


MAKERS = ((valid, 30), (bad_value, 18), (bad_lines, 18), (damaged, 18), (long_line, 8), (small, 4), (at_limit, 2), (wide, 1), (huge, 1))


def answer(program, text):
    done = subprocess.run([program], input=text, stdout=subprocess.PIPE, stderr=subprocess.DEVNULL, check=False)
    return done.stdout, done.returncode


def main():
    parser = argparse.ArgumentParser(description=__doc__, formatter_class=argparse.RawDescriptionHelpFormatter)
    parser.add_argument("regtrace")
    parser.add_argument("--cases", type=int, default=5000)
    parser.add_argument("--seed", type=int, default=20481024)
    parser.add_argument("--show", type=int, default=5)
    args = parser.parse_args()
    rng = random.Random(args.seed)
    makers, weights = zip(*MAKERS)
    seen = collections.Counter()
    wrong = 0
    for number in range(args.cases):
        maker = rng.choices(makers, weights)[0]
        text = maker(rng)
        out, status = reference.printed(text)
        seen["report" if status == 0 else "fault " + out.split("\n")[1].split(" ")[0]] += 1
        if answer(args.regtrace, text) != (out.encode(), status):
            wrong += 1
            if wrong <= args.show:
                print(f"case {number} ({maker.__name__}): {text[:200]!r}\n  reference: {out!r} {status}\n  regtrace:  {answer(args.regtrace, text)!r}")
    print(f"{args.cases} cases, seed {args.seed}: " + ", ".join(f"{kind} {count}" for kind, count in sorted(seen.items())))
    print(f"{wrong} mismatches")
    return 1 if wrong else 0


if __name__ == "__main__":
    sys.exit(main())
