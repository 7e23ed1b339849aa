#!/usr/bin/env python3
"""hardening.py [PROGRAM]: reads the headers of the program, and compares them with the table in SECURITY.md.

PROGRAM is crates/monitor/out/monitor if it isn't given. Each row of the table is a property of an ELF file of 64 bits
for x86-64, and what the program has of it. A row that is missing or other is printed; the status is 1 if there is any.
With --show the rows are printed, and compared with nothing."""
import os
import re
import struct
import sys

ROOT = os.path.dirname(os.path.dirname(os.path.abspath(__file__)))
PAGE = os.path.join(ROOT, "SECURITY.md")
DEFAULT = os.path.join(ROOT, "crates", "monitor", "out", "monitor")
# Types of segments, of entries of the dynamic section, and flags of both.
LOAD, DYNAMIC, INTERPRETER, STACK, RELRO, PROPERTY = 1, 2, 3, 0x6474e551, 0x6474e552, 0x6474e553
NEEDED, STRINGS, STRING_SIZE, RPATH, BIND_NOW, RUNPATH, FLAGS, FLAGS_1 = 1, 5, 10, 15, 24, 29, 30, 0x6ffffffb
EXECUTABLE, WRITABLE = 1, 2
SHARED, NOW = 3, 8
NOW_1, PIE_1 = 1, 0x08000000
X86_FEATURES, IBT, SHADOW_STACK = 0xc0000002, 1, 2
ROW = re.compile(r"^\| ([^|]+?) \| ([^|]+?) \| ([^|]+?) \|$", re.M)


class Program:
    """What the headers of an ELF file say."""

    def __init__(self, path):
        with open(path, "rb") as file:
            self.data = file.read()
        if self.data[:6] != b"\x7fELF\x02\x01":
            sys.exit(f"hardening: {path} is no ELF file of 64 bits")
        self.kind, = struct.unpack_from("<H", self.data, 16)
        first, = struct.unpack_from("<Q", self.data, 32)
        size, count = struct.unpack_from("<HH", self.data, 54)
        # Of each segment the type, the flags, the place in the file and in memory, and the size in the file.
        self.segments = [(*(row := struct.unpack_from("<IIQQQQQQ", self.data, first + number * size))[:4], row[5])
                         for number in range(count)]
        self.entries = list(self.dynamic())

    def of_type(self, kind):
        return [segment for segment in self.segments if segment[0] == kind]

    def dynamic(self):
        """The entries of the dynamic section."""
        for _, _, start, _, size in self.of_type(DYNAMIC):
            for at in range(start, start + size, 16):
                tag, value = struct.unpack_from("<QQ", self.data, at)
                if not tag:
                    return
                yield tag, value

    def value(self, tag):
        return next((value for name, value in self.entries if name == tag), 0)

    def strings(self):
        """The names of symbols and libraries, as bytes with a NUL after each."""
        place = self.value(STRINGS)
        for _, _, start, address, size in self.of_type(LOAD):
            if address <= place < address + size:
                return self.data[start + place - address:][:self.value(STRING_SIZE)]
        return b""

    def name(self, place):
        return self.strings()[place:].split(b"\0", 1)[0].decode()

    def x86_features(self):
        for _, _, start, _, size in self.of_type(PROPERTY):
            at = start + 16
            while at + 8 <= start + size:
                kind, length = struct.unpack_from("<II", self.data, at)
                if kind == X86_FEATURES:
                    return struct.unpack_from("<I", self.data, at + 8)[0]
                at += 8 + (length + 7) // 8 * 8
        return 0


def yes(truth):
    return "yes" if truth else "no"


def properties(program):
    """Each property, and what the program has of it."""
    names = program.strings().split(b"\0")
    is_bound = program.value(FLAGS) & NOW or program.value(FLAGS_1) & NOW_1 or any(
        tag == BIND_NOW for tag, _ in program.entries)
    features = program.x86_features()
    libraries = [program.name(value) for tag, value in program.entries if tag == NEEDED]
    return {
        "loaded at any address (PIE)": yes(program.kind == SHARED and program.of_type(INTERPRETER)
                                           and program.value(FLAGS_1) & PIE_1),
        "stack not executable (NX)": yes(all(not flags & EXECUTABLE for _, flags, *_ in program.of_type(STACK))
                                         and program.of_type(STACK)),
        "no memory both writable and executable": yes(all(
            flags & (WRITABLE | EXECUTABLE) != WRITABLE | EXECUTABLE for _, flags, *_ in program.of_type(LOAD))),
        "relocations read-only (RELRO)": yes(program.of_type(RELRO)),
        "all symbols bound at the start (`-z now`)": yes(is_bound),
        "stack protector": yes(b"__stack_chk_fail" in names),
        "calls with bounds (FORTIFY)": yes(any(name.endswith(b"_chk") for name in names)),
        "marked targets of jumps, shadow stack (CET)": yes(features & (IBT | SHADOW_STACK) == IBT | SHADOW_STACK),
        "libraries": ", ".join(f"`{name}`" for name in libraries) or "none",
        "places to look for libraries (RPATH)": yes(any(tag in (RPATH, RUNPATH) for tag, _ in program.entries))}


def main():
    words = [word for word in sys.argv[1:] if word != "--show"]
    found = properties(Program(words[0] if words else DEFAULT))
    if "--show" in sys.argv:
        print("".join(f"| {name} | {value} |\n" for name, value in found.items()), end="")
        return 0
    with open(PAGE, encoding="utf-8") as file:
        said = {name: value for name, value, _ in ROW.findall(file.read())}
    wrong = [f"{name}: the program has {value}, and SECURITY.md says {said.get(name, 'nothing')}"
             for name, value in found.items() if said.get(name) != value]
    print("".join(f"hardening: {line}\n" for line in wrong), end="")
    print(f"hardening: {len(found)} properties, {len(wrong)} wrong")
    return 1 if wrong else 0


if __name__ == "__main__":
    sys.exit(main())
