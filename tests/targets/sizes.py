"""The size of an archive's code and constants, and what it wants from the linker: python3 -m tests.targets.sizes ARCHIVE.

Prints 'CODE CONSTANTS WANTS..' in octets and names. Objects are ELF (little-endian, 32 or 64 bits) or WebAssembly; tables for unwinding
are no constants of the program.
"""

import struct
import sys

AR, ELF, WASM = b"!<arch>\n", b"\x7fELF", b"\0asm"
WRITE, ALLOC, EXECUTE = 1, 2, 4
SYMBOLS = 2
UNWINDING = (".eh_frame", ".ARM.exidx")
IMPORTS, CODE, DATA = 2, 10, 11


def members(octets):
    """The contents of each file in a System V archive, its tables of names left out."""
    at = len(AR)
    while at < len(octets):
        name, length = octets[at:at + 16].rstrip(), int(octets[at + 48:at + 58])
        if name not in (b"/", b"//", b"/SYM64/"):
            yield octets[at + 60:at + 60 + length]
        at += 60 + length + length % 2


def text(octets, at):
    return octets[at:octets.index(b"\0", at)].decode()


def elf(octets):
    wide = octets[4] == 2
    start, = struct.unpack_from("<Q" if wide else "<I", octets, 40 if wide else 32)
    size, count, names_at = struct.unpack_from("<3H", octets, 58 if wide else 46)
    head = struct.Struct("<IIQQQQIIQQ" if wide else "<10I")
    sections = [head.unpack_from(octets, start + i * size) for i in range(count)]
    names = sections[names_at][4]
    code = constants = 0
    wants = []
    for name, kind, flags, _, at, length, link, _, _, entry in sections:
        if flags & EXECUTE:
            code += length
        elif flags & ALLOC and not flags & WRITE and not text(octets, names + name).startswith(UNWINDING):
            constants += length
        if kind == SYMBOLS:
            for symbol in range(at + entry, at + length, entry):
                where, = struct.unpack_from("<H", octets, symbol + (6 if wide else 14))
                if where == 0:
                    wants.append(text(octets, sections[link][4] + struct.unpack_from("<I", octets, symbol)[0]))
    return code, constants, wants


def leb(octets, at):
    """A number of WebAssembly, and where the next thing begins."""
    value = shift = 0
    while True:
        octet = octets[at]
        value |= (octet & 127) << shift
        at, shift = at + 1, shift + 7
        if octet < 128:
            return value, at


def imports(octets, at):
    """The functions that a section of imports names; the last kind of import is told by its octet."""
    count, at = leb(octets, at)
    for _ in range(count):
        names = []
        for _ in range(2):
            length, at = leb(octets, at)
            names.append(octets[at:at + length].decode())
            at += length
        kind, at = octets[at], at + 1
        if kind == 0:
            yield names[1]
        if kind in (0, 3):  # a function, or a global with its two octets
            at = leb(octets, at)[1] + (kind == 3)
        else:  # a table or a memory, with its limits
            at += kind == 1
            limits, at = leb(octets, at)
            for _ in range(1 + limits % 2):
                at = leb(octets, at)[1]


def wasm(octets):
    at, sizes, wants = 8, {CODE: 0, DATA: 0}, []
    while at < len(octets):
        section = octets[at]
        length, at = leb(octets, at + 1)
        if section in sizes:
            sizes[section] = length
        if section == IMPORTS:
            wants = list(imports(octets, at))
        at += length
    return sizes[CODE], sizes[DATA], wants


def main(path):
    with open(path, "rb") as file:
        octets = file.read()
    if not octets.startswith(AR):
        sys.exit(f"sizes: '{path}' is no archive")
    code = constants = 0
    wants = []
    for member in members(octets):
        more = wasm(member) if member.startswith(WASM) else elf(member)
        code, constants, wants = code + more[0], constants + more[1], wants + more[2]
    print(code, constants, *sorted(set(filter(None, wants))))


if __name__ == "__main__":
    if len(sys.argv) != 2:
        sys.exit("sizes: one archive is wanted")
    main(sys.argv[1])
