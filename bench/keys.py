#!/usr/bin/env python3
"""keys.py PROGRAM: sees that ids of messages are looked up by the keys that the system gives.

A library that is loaded before the C library's own gives chosen keys in place of random ones. Under the one pair of
keys the ids of a session collide: their hashes agree in the bits by which the map of the kit looks for an id, so each
look-up compares it with all that came before. Under the other keys they don't. So the first run has to take far more
instructions, which `callgrind` counts, and both have to write the same; if the keys were asked for and not used, both
would take the same time. Under the other keys the chosen ids have to take as many as ids that nobody chose. The status
is 1 if that isn't so. It needs gcc and valgrind."""
import ctypes
import os
import random
import subprocess
import sys
import tempfile

import instructions

KEYS, OTHERS = (0x0706050403020100, 0x0F0E0D0C0B0A0908), (0x9E3779B97F4A7C15, 0xC2B2AE3D27D4EB4F)
IDS, ID_BYTES = 300, 8
RATIO = 1.2  # how many times the instructions the ids that collide take at least
MARGIN = 0.02  # which part of the instructions chosen ids may take more than others, under keys they aren't chosen for
DOCUMENT = ('{"processes":[{"name":"a","vars":{"x":0}},{"name":"b","vars":{}}],'
            '"predicates":[{"name":"first","text":"a.x == 0"}]}')
LIBRARY = r"""
#include <stdint.h>
#include <stdio.h>
#include <stdlib.h>
#include <string.h>

/* Gives the keys that stand in the surroundings. */
int getentropy(void *to, size_t size) {
    uint64_t keys[2] = {0, 0};
    const char *given = getenv("KEYS");
    if (given) sscanf(given, "%lx %lx", &keys[0], &keys[1]);
    for (size_t i = 0; i < size; i++) ((char *)to)[i] = ((char *)keys)[i % sizeof keys];
    return 0;
}

/* The hash of an id of 8 bytes, of two words of 32 bits: the upper half of a sum of products, modulo 2^64. Its
   keys are the two in turn: the first for the first word and the start, the second for the other word and the length. */
static uint32_t hash_of(const uint64_t *keys, uint64_t id) {
    return (keys[0] + 8 * keys[1] + (id & 0xffffffff) * keys[0] + (id >> 32) * keys[1]) >> 32;
}

/* Puts the first ids whose hashes agree in their lowest 8 bits, by which a group is found, and in their highest 8,
   which are compared before the ids are: this many. */
void find_ids(uint64_t key, uint64_t other, uint64_t count, char *to) {
    const uint64_t keys[2] = {key, other};
    for (uint64_t number = 0, found = 0; found < count; number++) {
        uint64_t id = 0;
        for (int i = 0; i < 8; i++) id = id << 8 | ('a' + (number >> 4 * i & 15));
        if (!(hash_of(keys, id) & 0xff0000ff)) memcpy(to + 8 * found++, &id, 8);
    }
}
"""


def make_library(folder):
    """Compiles the library into the folder, and gives its path."""
    source, path = os.path.join(folder, "keys.c"), os.path.join(folder, "keys.so")
    with open(source, "w", encoding="ascii") as out:
        out.write(LIBRARY)
    subprocess.run(["gcc", "-O2", "-shared", "-fPIC", "-o", path, source], check=True)
    return path


def colliding_ids(library):
    found = ctypes.create_string_buffer(IDS * ID_BYTES)
    ctypes.CDLL(library).find_ids(*map(ctypes.c_uint64, KEYS), ctypes.c_uint64(IDS), found)
    return [found.raw[place:place + ID_BYTES].decode() for place in range(0, IDS * ID_BYTES, ID_BYTES)]


def write_session(path, ids):
    """A bundle in which the one process sends all these messages and the other receives them."""
    with open(path, "w", encoding="ascii") as out:
        for lines in ([DOCUMENT], ['---', '{"process":"a"}', *(f'{{"send":"{one}"}}' for one in ids), '{"end":true}'],
                      ['---', '{"process":"b"}', *(f'{{"recv":"{one}"}}' for one in ids), '{"end":true}']):
            out.writelines(line + "\n" for line in lines)


def other_ids():
    """As many ids of as many letters, which nobody chose."""
    rng = random.Random(1)
    return ["".join(rng.choices("abcdefghijklmnop", k=ID_BYTES)) for _ in range(IDS)]


def run(program, keys, ids, folder):
    """The instructions of a run under these keys on a session with these ids, and its report."""
    bundle = os.path.join(folder, "bundle")
    write_session(bundle, ids)
    os.environ["KEYS"] = "%x %x" % keys
    with open(bundle, "rb") as given:
        report = subprocess.run([program], stdin=given, capture_output=True, check=False).stdout
    return instructions.count(program, [], bundle, folder)[0], report


def main():
    program = os.path.abspath(sys.argv[1])
    with tempfile.TemporaryDirectory() as folder:
        library = make_library(folder)
        chosen = colliding_ids(library)
        os.environ["LD_PRELOAD"] = library
        runs = [run(program, *given, folder) for given in ((KEYS, chosen), (OTHERS, chosen), (OTHERS, other_ids()))]
    counts, reports = zip(*runs)
    begins = f"session 2 processes {2 * IDS} events {IDS} messages\n".encode()
    right = counts[0] > RATIO * counts[1] and counts[1] <= (1 + MARGIN) * counts[2]
    right = right and len(set(reports)) == 1 and reports[0].startswith(begins)
    print(f"keys: {IDS} ids take {counts[0]:,} instructions if they collide, and {counts[1]:,} if they don't; others "
          f"take {counts[2]:,}{'' if right else ': WRONG'}")
    sys.exit(0 if right else 1)


if __name__ == "__main__":
    main()
