#!/usr/bin/env python3
"""Times `dtool check` on a blob whose sibling names were made to have hashes alike, beside one of as many random names.

    python3 bench/collisions.py crates/dtool/out/dtool

The names are made against a table of 2^20 bits that is filled by the standard library's FoldHasher of a name's owner, its sort and its
bytes, as a reader without a seed would: all fall in one class of two, and set bits below 2^17 only. The table is soon full there, and
many further names have to be compared with all before them. A C compiler makes the search, which takes some seconds."""
import os
import random
import subprocess
import sys
import tempfile
import time

from check import Blob

COUNT = 65_535
MOST_SECONDS = 900

SEARCH = r"""
#include <stdint.h>
#include <stdio.h>
#include <stdlib.h>
#include <string.h>
static const char LETTERS[] = "abcdefghijklmnopqrstuvwxyzABCDEFGHIJKLMNOPQRSTUVWXYZ0123456789._";
static const uint64_t MULTIPLIER = 0x9e3779b97f4a7c15;
/* up to eight bytes, as one number */
static inline uint64_t with_bytes(uint64_t state, uint64_t bytes, uint64_t count) {
    unsigned __int128 product = (unsigned __int128)(state ^ bytes) * (MULTIPLIER ^ 2 * count);
    return (uint64_t)product ^ (uint64_t)(product >> 64);
}
/* the class is hash % 2; 20 bits of the hash each give the five bits, from each tenth on */
static const uint64_t FIXED = 1 | 7ull << 17 | 7ull << 27 | 7ull << 37 | 7ull << 47 | 7ull << 57;
int main(int argc, char **argv) {
    long left = atol(argv[1]);
    uint64_t state = with_bytes(0x243f6a8885a308d3, atol(argv[2]), 8); /* the owner: the root's place */
    state = with_bytes(state, 0, 8);                                   /* the sort: a child */
    for (uint64_t front = 0; left > 0; front++) {
        char name[8] = "n";
        for (int i = 0; i < 4; i++) name[1 + i] = LETTERS[front >> 6 * i & 63];
        for (int i = 0; i < 4096 && left > 0; i++) {
            name[5] = LETTERS[i >> 6];
            name[6] = LETTERS[i & 63];
            uint32_t first, last;
            memcpy(&first, name, 4);
            memcpy(&last, name + 3, 4);
            if (with_bytes(state, first | (uint64_t)last << 32, 7) & FIXED) continue;
            puts(name);
            left--;
        }
    }
    return 0;
}
"""


def collided(folder, count, root):
    """Names whose hashes are alike, for children of the root at a place."""
    source, search = os.path.join(folder, "search.c"), os.path.join(folder, "search")
    with open(source, "w") as to:
        to.write(SEARCH)
    subprocess.run(["cc", "-O3", "-march=native", "-o", search, source], check=True)
    return subprocess.run([search, str(count), str(root)], stdout=subprocess.PIPE, text=True, check=True).stdout.split()


def scattered(count):
    letters = "abcdefghijklmnopqrstuvwxyz0123456789"
    made = random.Random(1)
    names = {}
    while len(names) < count:
        names["n" + "".join(made.choices(letters, k=6))] = None
    return list(names)


def siblings(names):
    b = Blob()
    b.begin()
    for name in names:
        b.begin(name)
        b.close()
    b.close()
    return b.bytes()


def main():
    tool = sys.argv[1]
    with tempfile.TemporaryDirectory() as folder:
        start = time.perf_counter()
        # The structure block stands behind the header and the end of the reservations.
        names = collided(folder, COUNT, 56)
        print(f"the search for {COUNT} names took {time.perf_counter() - start:.1f} s")
        for title, given in [("random names", scattered(COUNT)), ("names with hashes alike", names)]:
            path = os.path.join(folder, "blob.dtb")
            with open(path, "wb") as to:
                to.write(siblings(given))
            start = time.perf_counter()
            try:
                line = subprocess.run([tool, "check", path], stdout=subprocess.PIPE, check=True, timeout=MOST_SECONDS).stdout.decode().strip()
            except subprocess.TimeoutExpired:
                line = "stopped"
            print(f"{COUNT} {title}: {line}: {(time.perf_counter() - start) * 1000:.0f} ms")


if __name__ == "__main__":
    main()
