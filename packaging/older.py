#!/usr/bin/env python3
"""Lets a program or library that was linked over a newer C library start over one as old as Debian 11's.

    packaging/older.py FROM TO [LIBRARY]

Writes TO, a copy of FROM in which each symbol of the C library is asked for in the version that the older one has:
since 2.34 the functions of threads and the start of programs carry a new version, though the older one is still there
and does the same. What runs before `main` is run by the loader, since the older start of a program leaves it to code
that a newer link doesn't hold. A newer symbol that may be missing (a weak one) is asked for without a version. So is
one that older.c gives, and the program then names LIBRARY, which is built of it and is found from TO's folder on:
`../lib/clsim/libclsim_older.so`. Only tables for the loader change; no byte of code or data does. Where a symbol is
asked for that the older C library hasn't, and that LIBRARY doesn't give, nothing is written. Status 0, or 2 with a line
on standard error.
"""
import os
import re
import struct
import sys

# The C library of Debian 11.
OLDEST = (2, 31)
# What has a newer version besides the one of the first release, and does the same in both.
THREAD_CALLS = """attr_getguardsize attr_getstack attr_getstacksize attr_setguardsize attr_setstack attr_setstacksize
create detach getspecific join key_create key_delete kill mutex_trylock mutexattr_destroy mutexattr_init
mutexattr_settype once rwlock_destroy rwlock_init rwlock_rdlock rwlock_tryrdlock rwlock_trywrlock rwlock_unlock
rwlock_wrlock setspecific"""
RENAMED = {"__libc_start_main", *(f"pthread_{it}" for it in THREAD_CALLS.split())}
# What older.c gives.
GIVEN = {"__x86_get_cpuid_feature_leaf"}
FIRST = "GLIBC_2.2.5"
THREADS = "libpthread.so.0"
NULL, NEEDED, HASH, STRTAB, STRSZ, SONAME, RPATH, RUNPATH, GNU_HASH = 0, 1, 4, 5, 10, 14, 15, 29, 0x6FFFFEF5
# What the start of a program runs before `main`, and what the loader runs in its place.
BEFORE_MAIN = {25: 32, 27: 33}
PROGBITS, DYNAMIC, DYNSYM, VERSYM, VERNEED = 1, 6, 11, 0x6FFFFFFF, 0x6FFFFFFE
WEAK, UNVERSIONED = 2, 1


def fail(text):
    print(f"packaging/older.py: {text}", file=sys.stderr)
    sys.exit(2)


def hash_of(name):
    """The hash of a version's name, as ELF has it."""
    value = 0
    for byte in name.encode():
        value = (value << 4) + byte
        value = (value ^ (value & 0xF0000000) >> 24) & 0x0FFFFFFF
    return value


class Section:
    """A section: where its header and its bytes stand in the file."""

    def __init__(self, at, fields):
        self.at = at
        _, self.kind, _, self.address, self.offset, self.size, self.link, _, _, self.each = fields


class Symbol:
    """A symbol of the loader's table: where it and its version's number stand in the file, its name, whether it may be
    missing, and the number of its version."""

    def __init__(self, at, version_at, name, weak, number):
        self.at, self.version_at, self.name, self.weak, self.number = at, version_at, name, weak, number


class Version:
    """A version that is needed: where it stands in the file, its number and its name."""

    def __init__(self, at, number, name):
        self.at, self.number, self.name, self.symbols = at, number, name, []

    def lacking(self):
        """The symbols that the older C library hasn't in any version."""
        return sorted(it.name for it in self.symbols if not it.weak and it.name not in RENAMED)

    def is_open(self, symbol):
        """Whether the loader may take any version of a symbol, or none."""
        return symbol.weak or symbol.name in GIVEN

    def is_newer(self):
        found = re.fullmatch(r"GLIBC_(\d+)\.(\d+)(?:\.\d+)?", self.name)
        return bool(found) and (int(found[1]), int(found[2])) > OLDEST


class File:
    """A file of ELF for x86-64, with the tables that a loader reads."""

    def __init__(self, path):
        with open(path, "rb") as file:
            self.bytes = bytearray(file.read())
        if self.bytes[:6] != b"\x7fELF\x02\x01" or self.at("<H", 18)[0] != 62:
            fail(f"{path} is no program or library for x86-64")
        first, each, count = self.at("<Q", 40)[0], *self.at("<HH", 58)
        self.all = [Section(it, self.at("<IIQQQQIIQQ", it)) for it in range(first, first + count * each, each)]
        self.kinds = {it.kind: it for it in self.all}
        missing = [it for it in (DYNAMIC, DYNSYM, VERSYM, VERNEED) if it not in self.kinds]
        if missing:
            fail(f"{path} has no section of kind {missing[0]}: is it linked over the C library?")
        self.names = self.all[self.kinds[DYNSYM].link]

    def at(self, form, offset):
        return struct.unpack_from(form, self.bytes, offset)

    def put(self, form, offset, *values):
        struct.pack_into(form, self.bytes, offset, *values)

    def name(self, offset):
        begin = self.names.offset + offset
        return self.bytes[begin : self.bytes.index(0, begin)].decode()

    def symbols(self):
        table, versions = self.kinds[DYNSYM], self.kinds[VERSYM]
        for number in range(table.size // table.each):
            at, version_at = table.offset + number * table.each, versions.offset + 2 * number
            name, about = self.at("<IB", at)
            yield Symbol(at, version_at, self.name(name), about >> 4 == WEAK, self.at("<H", version_at)[0] & 0x7FFF)

    def each_needed(self):
        """The table of needed versions: where each library's entry stands, and where those of its versions do."""
        at, more = self.kinds[VERNEED].offset, True
        while more:
            _, count, _, first, after = self.at("<HHIII", at)
            inner, found = at + first, []
            for _ in range(count):
                found.append(inner)
                inner += self.at("<IHHII", inner)[4]
            yield at, found
            at, more = at + after, after != 0

    def versions(self):
        found = {}
        for _, inner in self.each_needed():
            for at in inner:
                _, _, number, name, _ = self.at("<IHHII", at)
                found[number] = Version(at, number, self.name(name))
        for symbol in self.symbols():
            if symbol.number in found:
                found[symbol.number].symbols.append(symbol)
        return found.values()

    def entries(self):
        """The entries of the dynamic section: where each stands, its tag and its value."""
        table = self.kinds[DYNAMIC]
        for at in range(table.offset, table.offset + table.size, 16):
            tag, value = self.at("<QQ", at)
            if tag == NULL:
                return
            yield at, tag, value

    def need(self, library):
        """Names one library more, in the room of the table of hashes that no loader reads where GNU's is there."""
        entries = {tag: (at, value) for at, tag, value in self.entries()}
        added = b"\0" + library.encode()
        hashes = next((it for it in self.all if it.address and it.address == entries.get(HASH, (0, 0))[1]), None)
        if hashes is None or GNU_HASH not in entries or hashes.offset + hashes.size + 7 < self.names.offset \
                or hashes.size < len(added):
            fail(f"there is no room to name {library}: link with -Wl,--hash-style=both, or with this library")
        self.shift(len(added))
        self.names.offset -= len(added)
        self.bytes[self.names.offset : self.names.offset + len(added)] = added
        self.put("<QQ", entries[STRTAB][0], STRTAB, entries[STRTAB][1] - len(added))
        self.put("<QQ", entries[STRSZ][0], STRSZ, entries[STRSZ][1] + len(added))
        self.put("<QQ", entries[HASH][0], NEEDED, 1)
        size = self.names.size + len(added)
        self.put("<QQQ", self.names.at + 16, self.names.address - len(added), self.names.offset, size)
        self.put("<I", hashes.at + 4, PROGBITS)
        self.put("<Q", hashes.at + 32, max(0, self.names.offset - hashes.offset))

    def shift(self, by):
        """Moves what is said of names, which will stand so far behind the begin of their table."""
        for at, tag, value in self.entries():
            if tag in (NEEDED, SONAME, RPATH, RUNPATH):
                self.put("<QQ", at, tag, value + by)
        for symbol in list(self.symbols()):
            name = self.at("<I", symbol.at)[0]
            self.put("<I", symbol.at, name + by if name else 0)
        for at, inner in self.each_needed():
            self.put("<I", at + 4, self.at("<I", at + 4)[0] + by)
            for it in inner:
                self.put("<I", it + 8, self.at("<I", it + 8)[0] + by)


def rename(file, version, first):
    """Has the symbols of a newer version ask for the first one, and open ones for none."""
    for symbol in version.symbols:
        file.put("<H", symbol.version_at, UNVERSIONED if version.is_open(symbol) else first.number)
    file.put("<I", version.at, hash_of(FIRST))
    file.put("<I", version.at + 8, file.at("<I", first.at + 8)[0])


def make_older(file, library):
    """Asks for the older versions, by the older library of threads, and has the loader run what runs before `main`. The
    library that gives what the older C library lacks names that of threads itself."""
    versions = list(file.versions())
    first = next((it for it in versions if it.name == FIRST), None) or fail(f"it asks for no symbol of {FIRST}")
    newer = [it for it in versions if it.is_newer()]
    for version in newer:
        for name in version.lacking():
            if not library or name not in GIVEN:
                fail(f"it needs {name} of {version.name}, which a C library of {OLDEST[0]}.{OLDEST[1]} hasn't")
        rename(file, version, first)
    names = {it.name for version in newer for it in version.symbols}
    if "__libc_start_main" in names:
        for at, tag, value in list(file.entries()):
            file.put("<QQ", at, BEFORE_MAIN.get(tag, tag), value)
    needed = [file.name(value) for _, tag, value in file.entries() if tag == NEEDED]
    if names & GIVEN:
        file.need(f"$ORIGIN/{library}")
    elif any(it.startswith("pthread_") for it in names) and THREADS not in needed:
        file.need(THREADS)


def main():
    if len(sys.argv) not in (3, 4):
        fail("usage: packaging/older.py FROM TO [LIBRARY]")
    try:
        file = File(sys.argv[1])
        make_older(file, sys.argv[3] if len(sys.argv) == 4 else None)
        with open(sys.argv[2], "wb") as made:
            made.write(file.bytes)
        os.chmod(sys.argv[2], 0o755)
    except OSError as fault:
        fail(f"{fault.filename}: {fault.strerror}")
    except (struct.error, ValueError) as fault:
        fail(f"{sys.argv[1]} can't be read: {fault}")
    return 0


if __name__ == "__main__":
    sys.exit(main())
