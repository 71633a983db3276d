#!/usr/bin/env python3
"""Times dtool's commands on names that were made to have hashes alike, or to end alike, beside as many random names, and `check` on many
small names.

    python3 bench/hostile.py crates/dtool/out/dtool

Tables of names hash behind a seed that comes of all inputs of a call. The names here are made for the hash without a seed, and
those of an object also for the seed of the base alone, which who makes an object may know: each of them begins its search in the
same few places of a table, so that a table would be walked for each further name. They are made for either way in which a table hashes
its names: byte by byte, or at once. A C compiler makes the search, which takes a minute or two; it is left out where an argument
`--without-search` asks for the other kinds alone."""
import base64
import os
import random
import struct
import subprocess
import sys
import tempfile
import time

from check import Blob
from measuring import timed

RUNS = 3
MOST_SECONDS = 120
MASK = (1 << 64) - 1
MULTIPLIER = 0x9E3779B97F4A7C15
NO_SEED = 0x243F6A8885A308D3

SEARCH = r"""
#include <stdint.h>
#include <stdio.h>
#include <stdlib.h>
#include <string.h>
static const char LETTERS[] = "abcdefghijklmnopqrstuvwxyz012345";
static const uint64_t M = 0x9e3779b97f4a7c15ull;
static inline uint64_t folded(uint64_t a, uint64_t b) {
    unsigned __int128 p = (unsigned __int128)a * b;
    return (uint64_t)p ^ (uint64_t)(p >> 64);
}
static inline uint64_t with_byte(uint64_t state, uint64_t b) { return folded(state ^ (b | b << 8 | b << 16), M ^ 2); }
static inline uint64_t with_name(uint64_t state, const char *name) {
    uint64_t word;
    memcpy(&word, name, 8);
    return folded(state ^ word, M ^ 16);
}
/* the first state, how many names, which bits of the hash have to be 0, and whether names are hashed at once */
int main(int argc, char **argv) {
    const uint64_t start = strtoull(argv[1], 0, 10), mask = strtoull(argv[3], 0, 10);
    const int at_once = atoi(argv[4]);
    long left = atol(argv[2]);
    uint64_t first = folded(start ^ 8, M ^ 16);
    first = with_byte(first, 'n');
    for (uint64_t front = 0; left > 0; front++) {
        char name[9] = "n";
        uint64_t state = first;
        for (int i = 0; i < 5; i++) {
            name[1 + i] = LETTERS[front >> 5 * i & 31];
            state = with_byte(state, (uint64_t)name[1 + i]);
        }
        for (int i = 0; i < 32 && left > 0; i++) {
            name[6] = LETTERS[i];
            uint64_t inner = with_byte(state, (uint64_t)name[6]);
            for (int j = 0; j < 32 && left > 0; j++) {
                name[7] = LETTERS[j];
                uint64_t hash = at_once ? with_name(start, name) : with_byte(inner, (uint64_t)LETTERS[j]);
                if ((hash ^ hash >> 32) & mask) continue;
                puts(name);
                left--;
            }
        }
    }
    return 0;
}
"""


def folded(a, b):
    product = a * b
    return (product & MASK) ^ (product >> 64)


def turned(x, by):
    return (x << by | x >> (64 - by)) & MASK


def siphash(parts):
    """SipHash-1-3 with both keys 0 of all parts, as one write behind the other."""
    data = b"".join(parts)
    v = [0x736F6D6570736575, 0x646F72616E646F6D, 0x6C7967656E657261, 0x7465646279746573]

    def a_round():
        v[0] = (v[0] + v[1]) & MASK
        v[2] = (v[2] + v[3]) & MASK
        v[1] = turned(v[1], 13) ^ v[0]
        v[3] = turned(v[3], 16) ^ v[2]
        v[0] = turned(v[0], 32)
        v[2] = (v[2] + v[1]) & MASK
        v[0] = (v[0] + v[3]) & MASK
        v[1] = turned(v[1], 17) ^ v[2]
        v[3] = turned(v[3], 21) ^ v[0]
        v[2] = turned(v[2], 32)

    whole = len(data) // 8 * 8
    tail = data[whole:] + bytes(7 - len(data) % 8) + bytes([len(data) & 255])
    for (word,) in struct.iter_unpack("<Q", data[:whole] + tail):
        v[3] ^= word
        a_round()
        v[0] ^= word
    v[2] ^= 0xFF
    for _ in range(3):
        a_round()
    return v[0] ^ v[1] ^ v[2] ^ v[3]


def seed_of(blob):
    """The first state of the hash behind the seed of a blob, which comes of its structure block and its strings block."""
    _, _, structure, strings = struct.unpack(">4I", blob[:16])
    strings_size, structure_size = struct.unpack(">2I", blob[32:40])
    number = siphash([blob[structure : structure + structure_size], blob[strings : strings + strings_size]])
    return folded(NO_SEED ^ number, MULTIPLIER ^ 16)


def behind(state, owner):
    """The first state of the hash of a name behind the number of its owner."""
    return folded(state ^ owner, MULTIPLIER ^ 16)


class Search:
    def __init__(self, folder):
        source, self.program = os.path.join(folder, "search.c"), os.path.join(folder, "search")
        with open(source, "w") as to:
            to.write(SEARCH)
        subprocess.run(["cc", "-O3", "-march=native", "-o", self.program, source], check=True)

    def names(self, state, count, at_once):
        # A table of 12 places to a group and 65,000 keys has 8,192 groups, and a key's search begins in that of its hash's last bits; a
        # larger one has few groups more that these names begin in.
        words = [self.program, str(state), str(count), str(8_191), str(int(at_once))]
        return subprocess.run(words, stdout=subprocess.PIPE, text=True, check=True).stdout.split()


def scattered(count):
    letters = "abcdefghijklmnopqrstuvwxyz0123456789"
    made = random.Random(1)
    names = {}
    while len(names) < count:
        names["n" + "".join(made.choices(letters, k=7))] = None
    return list(names)


# ---- inputs, by names


def siblings(names):
    return "/dts-v1/; / { %s };" % " ".join(f"{name} {{ }};" for name in names)


def properties(names):
    return "/dts-v1/; / { %s };" % " ".join(f"{name};" for name in names)


def labels(names):
    return "/dts-v1/; / { %s };" % " ".join(f"{name}: c{i} {{ }};" for i, name in enumerate(names))


def spread(names):
    """Properties of many nodes."""
    nodes = [names[at : at + 64] for at in range(0, len(names), 64)]
    return "/dts-v1/; / { %s };" % " ".join(f"c{i} {{ %s }};" % " ".join(f"{name};" for name in own) for i, own in enumerate(nodes))


def overlay(source):
    """An overlay that brings to the base's root what a source has there."""
    return "/dts-v1/; /plugin/; &{/}" + source.removeprefix("/dts-v1/; /")


BASE = "/dts-v1/; / { a: a { }; };"


class Timer:
    def __init__(self, tool, folder):
        self.tool, self.folder = tool, folder

    def file(self, name, content):
        path = os.path.join(self.folder, name)
        with open(path, "wb") as to:
            to.write(content if isinstance(content, bytes) else content.encode())
        return path

    def output(self, *words):
        return subprocess.run([self.tool, *words], stdout=subprocess.PIPE, check=True, timeout=MOST_SECONDS).stdout

    def seconds(self, *words):
        """The least of some runs, or None where one was stopped."""
        least = float("inf")
        for _ in range(RUNS):
            status, took = timed([self.tool, *words], subprocess.DEVNULL, None, MOST_SECONDS)
            if status < 0:
                return None
            if status:
                sys.exit(f"{' '.join(words)}: status {status}")
            least = min(least, took)
        return least


def ways(timer, title, source):
    """The time of each command on a source, on its blob, and on its overlay."""
    base, text = timer.file("base.dts", BASE), timer.file(f"{title}.dts", source)
    over = timer.file(f"{title}.dtso", overlay(source))
    took = {"compile": timer.seconds("compile", text), "build": timer.seconds("build", base, over)}
    if None in took.values():
        return took
    blob = timer.file(f"{title}.dtb", timer.output("compile", text))
    small = timer.file("base.dtb", timer.output("compile", base))
    thing = timer.file(f"{title}.dtbo", timer.output("compile", over))
    nothing = timer.file("nothing.dtbo", timer.output("compile", timer.file("nothing.dtso", "/dts-v1/; /plugin/; &{/} { };")))
    took["apply, as base"] = timer.seconds("apply", blob, nothing)
    took["apply, as object"] = timer.seconds("apply", small, thing)
    for command in ("check", "print", "regs", "irqs"):
        took[command] = timer.seconds(command, blob)
    return took


def told(seconds):
    return "stopped" if seconds is None else f"{seconds * 1000:.0f} ms"


def compare(timer, title, make, plain, made):
    """Prints each command's time on random names, and on names that were made, and answers the worst ratio."""
    ordinary, worst = ways(timer, "random", make(plain)), 0
    for kind, names in made.items():
        for command, took in ways(timer, "made", make(names)).items():
            ratio = float("inf") if took is None else took / ordinary[command]
            worst = max(worst, ratio)
            print(f"{title}, {kind}: {command}: {told(ordinary[command])} random, {told(took)} made: {ratio:.2f}", flush=True)
    return worst


def hashed(timer, folder):
    search, worst = Search(folder), 0
    known = seed_of(timer.output("compile", timer.file("base.dts", BASE)))
    for title, make, count in [
        ("65,000 siblings", siblings, 65_000),
        ("300,000 properties of a node", properties, 300_000),
        ("65,000 labels", labels, 65_000),
        ("65,000 names of properties", spread, 65_000),
    ]:
        start = time.perf_counter()
        made = {
            f"made for {seed}, hashed {way}": search.names(state, count, at_once)
            for seed, state in (("no seed", NO_SEED), ("no seed, behind an owner", behind(NO_SEED, 0)), ("the base's seed", known))
            for way, at_once in (("byte by byte", False), ("at once", True))
        }
        print(f"the search for {title} took {time.perf_counter() - start:.1f} s", flush=True)
        worst = max(worst, compare(timer, title, make, scattered(count), made))
    print(f"at most {worst:.2f} times the time of random names")


# ---- names that end alike


def random_name(made, length, number):
    """A random name that ends with a number in four digits, so that no other has it."""
    digits = "0123456789abcdefghijklmnopqrstuvwxyz"
    own = "".join(digits[number // 36**place % 36] for place in range(4))
    return base64.b32encode(made.randbytes(160)).decode()[: length - 4] + own


def ending_alike(timer):
    """`compile` on names that are ends of each other, or differ in their first bytes alone, beside random names of the same lengths."""
    worst = 0
    chains = [f"{'a' * more}x{family:03x}" for family in range(500) for more in range(251)]
    fronts = [f"{number:05x}{'a' * 250}" for number in range(65_000)]
    made = random.Random(2)
    for title, names in (("chains of ends", chains), ("one end of 250 bytes", fronts)):
        while sum(len(name) + 14 for name in names) > (1 << 24) - 4096:
            names = names[: len(names) * 99 // 100]
        plain = [random_name(made, len(name), number) for number, name in enumerate(names)]
        for make in (properties, spread):
            took = [timer.seconds("compile", timer.file(f"{kind}.dts", make(which))) for kind, which in (("random", plain), ("alike", names))]
            ratio = float("inf") if took[1] is None else took[1] / took[0]
            worst = max(worst, ratio)
            print(f"{len(names)} names, {title}, {make.__name__}: {told(took[0])} random, {told(took[1])} made: {ratio:.2f}", flush=True)
    print(f"names that end alike take at most {worst:.2f} times the time of random names")


# ---- many small names


def small(counts):
    """A blob of nodes that have so many properties each, with names of a few bytes that lie in each other."""
    b = Blob()
    most = max(counts)
    digits = "0123456789abcdefghijklmnopqrstuvwxyz"
    names = [digits[i // 46656 % 36] + digits[i // 1296 % 36] + digits[i // 36 % 36] + digits[i % 36] for i in range(most)]
    b.begin()
    for k, count in enumerate(counts):
        if k:
            b.begin(f"n{k}")
        for name in names[:count]:
            b.prop(name)
        if k:
            b.close()
    b.close()
    return b.bytes()


def checks(timer):
    for title, counts in [
        ("32,768 properties of each of 40 nodes", [0] + [32_768] * 40),
        ("17 properties of each of 65,000 nodes", [0] + [17] * 65_000),
        ("600,000 properties of a node", [600_000]),
    ]:
        blob = small(counts)
        path = timer.file("small.dtb", blob)
        print(f"check, {title}, {len(blob) / (1 << 20):.1f} MiB: {told(timer.seconds('check', path))}", flush=True)


def main():
    tool = sys.argv[1]
    with tempfile.TemporaryDirectory() as folder:
        timer = Timer(tool, folder)
        checks(timer)
        ending_alike(timer)
        if "--without-search" not in sys.argv:
            hashed(timer, folder)


if __name__ == "__main__":
    main()
