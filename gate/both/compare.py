#!/usr/bin/env python3
"""Compares two compilations of the proved programs, `rebuild` and `wenc`, by the kit and by rustc.
Both get the same inputs, which are made from a seed, and have to write the same bytes to both
outputs and end with the same status.

    compare.py REBUILD WENC REBUILD WENC [SEED [NUMBER]]

The kit's programs come first; `gate/both/run` makes all of them, and calls this. `rebuild` gets the
components that upstream's own builder wrote, which it has to write again before the names, and
NUMBER others; `wenc` gets that many scripts, and `wenc list` that many components. An input with
two different results is kept beside rustc's program.
"""
import os
import random
import re
import subprocess
import sys
from collections import Counter
from concurrent.futures import ThreadPoolExecutor
from pathlib import Path

ROOT = Path(__file__).resolve().parents[2]
# The number of differences of a kind that are printed.
TOLD = 5
# Components that upstream's builder wrote. Together they have each kind of item, type and builtin.
UPSTREAM = [*map(bytes.fromhex, (ROOT / "gate/both/upstream.txt").read_text().split())]
HEADER = UPSTREAM[0][:8]
# A start section of function 0 with as many results as there may be values, and imports of a
# function, a value, which is one too many, and a function.
TOO_MANY_VALUES = bytes.fromhex("09070000ffffffff0f 0a1003000166010000017602000001670100")
# Numbers at which the encoding of an unsigned number gets another byte, and the greatest.
EDGES = [2**bits - less for bits in (7, 14, 21, 28, 32) for less in (2, 1, 0)][:-1] + [2**31 - 1]
KINDS = ["module", "func", "value", "type", "instance", "component"]
# The characters of names.
LETTERS = ["a", "b", "run", "-", ":", "/", "@1", "Z", "é", "€", "𝄞", "\t"]
OTHER_WORDS = [[], ["lists"], ["list", "list"], [""], ["-h"]]


class Random(random.Random):
    """Random numbers that are determined by their seed."""

    def one_in(self, number):
        return self.randrange(number) == 0

    def length(self, powers):
        """Returns a length below `2^powers`, with each power of two equally likely."""
        power = 1 << self.randrange(powers)
        return power + self.randrange(power) - 1

    def number(self):
        """Returns a number of 32 bits, mostly a small one, and sometimes after zeros."""
        large = [self.choice(EDGES), self.getrandbits(32)]
        number = (large + 6 * [self.randrange(12)])[self.randrange(8)]
        return "0" * (self.randrange(4) if self.one_in(8) else 0) + str(number)


# ---- Components, some of them damaged.

def sections(component):
    """Yields the sections of a component, each an id, a size and that many bytes."""
    rest = component[len(HEADER):]
    while rest:
        groups = re.match(rb"[\x80-\xff]*[\0-\x7f]", rest[1:])[0]
        size = sum((byte & 127) << 7 * n for n, byte in enumerate(groups))
        end = 1 + len(groups) + size
        yield rest[:end]
        rest = rest[end:]


CORPUS = [path.read_bytes() for path in sorted((ROOT / "tests/real/corpus/wasm").iterdir())]
SECTIONS = [section for component in UPSTREAM + CORPUS for section in sections(component)]


def component(given, damaged):
    """Returns a component of any of the sections, and often of one section several times; one in
    `damaged` has bytes changed, mostly, or removed or inserted, or is truncated."""
    made = bytearray(HEADER + (TOO_MANY_VALUES if given.one_in(10) else b""))
    for _ in range(given.length(5)):
        made += given.choice(SECTIONS) * (1 + given.randrange(3) if given.one_in(4) else 1)
    for _ in range(given.randint(1, 3) if given.one_in(damaged) else 0):
        at, byte = given.randrange(len(made) + 1), given.randbytes(1)
        changes = [(at + 1, b""), (len(made), b""), (at, byte)] + 9 * [(at + 1, byte)]
        end, put = given.choice(changes)
        made[at:end] = put
    return bytes(made)


def to_rebuild(given):
    return [], component(given, 3)


def listing(given):
    """Returns the arguments of `wenc list`, and a component's digits, sometimes with another
    character."""
    digits = component(given, 2).hex()
    digits = digits.upper() if given.one_in(4) else digits
    if given.one_in(20):
        place = given.randrange(len(digits) + 1)
        digits = digits[:place] + given.choice("g -\n0") + digits[place:]
    words = given.choice(OTHER_WORDS) if given.one_in(50) else ["list"]
    return words, (digits + ("\n" if given.one_in(2) else "")).encode()


# ---- Scripts, whose format docs/SCRIPTS.md describes.

def functions():
    """Returns the builtins of the tests, each with operands: a number above 1 is an index, another
    one a flag."""
    vectors = (ROOT / "tests/proved/program/vectors/words.rs").read_text()
    script = re.search(r'b"(.*?)"', re.sub(r"\\\n\s*", "", vectors))[1]
    return [line.split() for line in script.split("\\n") if "." in line]


FUNCTIONS = functions()


def builtin(given):
    if given.one_in(100):
        # Their operands can't be given as words.
        return f"{given.choice(['task.return', 'future.read'])} {given.number()}"
    verb, *operands = given.choice(FUNCTIONS)
    is_flag = {"0", "1"}.__contains__
    return " ".join([verb, *(str(given.randrange(2)) if is_flag(it) else given.number()
                             for it in operands)])


def name(given):
    letters = given.length(10) if given.one_in(50) else given.randrange(6)
    return "".join(given.choices(LETTERS, k=letters + 1))


def digits(given):
    """Returns hexadecimal digits of either case, or the word for none."""
    cases = [str.lower, str.upper]
    pairs = (given.choice(cases)(given.randbytes(1).hex()) for _ in range(given.length(6) + 1))
    return "-" if given.one_in(8) else "".join(pairs)


def line(given):
    number, kind = given.number, given.choice(KINDS)
    lines = {
        0: lambda: f"import {name(given)} {kind} {number()}",
        1: lambda: f"export {name(given)} {kind} {number()}",
        2: lambda: f"alias-export {number()} {kind} {name(given)}",
        3: lambda: f"core-module {digits(given)}",
        4: lambda: " ".join(["start", *(number() for _ in range(2 + given.randrange(4)))]),
        5: lambda: "append-names",
        6: lambda: builtin(given),
    }
    return lines[given.choice([0, 0, 1, 1, 2, 3, 4, 5, 6, 6])]()


def spoiled(given, line):
    """Usually makes a line a bad one."""
    place = given.randrange(len(line))
    before, behind = line[:place], line[place:]
    return given.choice([before, before + b" " + behind, line[:1].upper() + line[1:],
                         before + b"\xff" + behind, line + b" 4294967296", line + b"\r",
                         line + b" +1", line + b" more"])


def script(given):
    """Returns a script, some of whose lines may be bad."""
    lines = [line(given).encode() for _ in range(given.length(6))]
    bad = given.randrange(len(lines) + 1) if given.one_in(3) else len(lines)
    lines[bad:bad + 1] = [spoiled(given, one) for one in lines[bad:bad + 1]]
    whole = b"".join(one + given.choice([b"\n", b"\n", b"\n", b"\n\n"]) for one in lines)
    return [], whole[:-1] if given.one_in(4) else whole


# ---- Comparing: what ends so, by the status, counts as this.

REBUILDS = {0: "built again", "refused": "with a refused command", 3: "not listed"}
SCRIPTS = {0: "accepted", 1: "with a bad line", 2: "with a refused command"}
LISTINGS = {0: "listed", 3: "refused as no component", 1: "refused as no digits or for other words"}


def ended(program, words, given):
    # A mutant's tests hand an open file down.
    return subprocess.run([program, *words], input=given, capture_output=True, close_fds=False)


def compared(programs, counts, is_front, words, given):
    """Returns as what the results on an input count, and what is wrong with them, if anything."""
    kit, rustc = (ended(program, words, given) for program in programs)
    status = kit.returncode or ("refused" if re.search(b"^refused ", kit.stdout, re.M) else 0)
    wrong = None if status in counts else f"in nothing, but both end with {status}"
    if is_front and not kit.stdout.split(b"\n")[-2:][0].startswith(given.hex().encode()):
        wrong = "stdout, from what upstream wrote"
    for stream in ("stderr", "stdout"):
        pair = getattr(kit, stream), getattr(rustc, stream)
        if pair[0] != pair[1]:
            wrong = f"{stream}, from byte {len(os.path.commonprefix(pair))} on"
    if kit.returncode != rustc.returncode:
        wrong = f"the kit's status {kit.returncode}, rustc's {rustc.returncode}"
    return counts.get(status), wrong


def is_same(kind, programs, counts, inputs):
    """Returns whether the results on inputs of a kind are equal, and each of `counts` has some.
    Prints how they compared."""
    def work(given):
        return compared(programs, counts, kind == "upstream", *given)

    with ThreadPoolExecutor(os.cpu_count()) as pool:
        results = [*pool.map(work, inputs)]
    sums = Counter(counted for counted, _ in results)
    different = [(at, wrong) for at, (_, wrong) in enumerate(results) if wrong]
    for at, wrong in different[:TOLD]:
        words, given = inputs[at]
        kept = Path(programs[1]).with_name(f"differs-{kind}-{at}")
        kept.write_bytes(given)
        print(f"{kind}: input {at} differs: {wrong}\n    it is in {kept}; words {words}")
    told = ", ".join(f"{sums[what]} {what}" for what in counts.values())
    print(f"{kind}: {len(inputs)} inputs, {len(different)} differences; {told}", flush=True)
    is_idle = not all(sums[what] for what in counts.values())
    if is_idle:
        print(f"{kind}: where one of these is 0 little is compared")
    return not different and not is_idle


def main(kit_rebuild, kit_wenc, rebuild, wenc, seed="1", number="1000"):
    rebuilds, wencs = (kit_rebuild, rebuild), (kit_wenc, wenc)
    results = [is_same("upstream", rebuilds, {0: "built again"}, [([], it) for it in UPSTREAM])]
    print(f"seed {seed}")
    for kind, programs, counts, make in [("components", rebuilds, REBUILDS, to_rebuild),
                                         ("scripts", wencs, SCRIPTS, script),
                                         ("listings", wencs, LISTINGS, listing)]:
        inputs = [make(Random(f"{seed} {kind} {at}")) for at in range(int(number))]
        results.append(is_same(kind, programs, counts, inputs))
    print(f"{sum(results)} passed, {len(results) - sum(results)} failed")
    return 0 if all(results) else 1


if __name__ == "__main__":
    sys.exit(main(*sys.argv[1:]))
