#!/usr/bin/env python3
"""Writes of a core file of ompdi an ELF core file that gdb takes for one of Linux on x86-64:
core_for_gdb.py CORE ELF.

It has what `ompdi elf` writes, which ompdi reads, and besides a machine, and for each native id a
note NT_PRSTATUS, so that gdb lists the threads by their ids. A core has no registers: gdb shows each
of them as 0."""

import struct
import sys

MAGIC, VERSION, LOWEST_FIRST, MOST_SEGMENTS = b'OMPDCOR1', 1, 0, 64
ET_CORE, EM_X86_64, PT_LOAD, PT_NOTE, NT_PRSTATUS, READ_WRITE = 4, 62, 1, 4, 1, 6
HEADER, PROGRAM_HEADER, MOST_ID = 64, 56, 2 ** 31 - 1
STATUS_BYTES, STATUS_ID = 336, 32  # struct elf_prstatus of x86-64, and where pr_pid stands in it


class NoCore(Exception):
    """Why a file is no core that can be written so."""


def core_of(data):
    """The native ids of a core file, and of each segment its address and bytes."""
    try:
        magic, version, order, contexts, count = struct.unpack_from('<8sBBHI', data)
        if (magic, version) != (MAGIC, VERSION):
            raise NoCore('no core file of ompdi')
        if order != LOWEST_FIRST:
            raise NoCore('the highest byte of its words comes first, and on x86-64 the lowest does:'
                         ' `ompdi recode 0` turns them')
        ids = struct.unpack_from(f'<{contexts}Q', data, 16)
        at, segments = 16 + 8 * contexts, []
        for _ in range(count if count <= MOST_SEGMENTS else 0):
            start, words = struct.unpack_from('<QQ', data, at)
            at += 16 + 8 * words
            segments.append((start, data[at - 8 * words:at]))
    except struct.error:
        raise NoCore('the file is too short') from None
    if at != len(data) or not segments:
        raise NoCore('its segments are not those that it counts')
    if max(ids, default=0) > MOST_ID:
        raise NoCore('a native id is greater than those of Linux')
    return ids, segments


def note(name, kind, description):
    name += b'\0'
    padded = name.ljust((len(name) + 3) // 4 * 4, b'\0')
    return struct.pack('<III', len(name), len(description), kind) + padded + description


def status(native):
    """A thread's status, which has its id and else zeros."""
    return struct.pack(f'<{STATUS_ID}xI{STATUS_BYTES - STATUS_ID - 4}x', native)


def elf_of(ids, segments):
    notes = note(b'OMPD', 1, struct.pack(f'<{len(ids)}Q', *ids))
    notes += b''.join(note(b'CORE', NT_PRSTATUS, status(native)) for native in ids)
    identification = b'\x7fELF\x02\x01\x01'.ljust(16, b'\0')
    count = 1 + len(segments)
    header = identification + struct.pack('<HHIQQQIHHHHHH', ET_CORE, EM_X86_64, 1, 0, HEADER, 0, 0,
                                          HEADER, PROGRAM_HEADER, count, 0, 0, 0)
    place = HEADER + PROGRAM_HEADER * count
    headers = [struct.pack('<IIQQQQQQ', PT_NOTE, 0, place, 0, 0, len(notes), 0, 4)]
    place += len(notes)
    for start, words in segments:
        headers.append(struct.pack('<IIQQQQQQ', PT_LOAD, READ_WRITE, place, start, 0, len(words),
                                   len(words), 8))
        place += len(words)
    return header + b''.join(headers) + notes + b''.join(words for _, words in segments)


def main():
    if len(sys.argv) != 3:
        sys.exit(f'usage: {sys.argv[0]} CORE ELF')
    try:
        with open(sys.argv[1], 'rb') as file:
            elf = elf_of(*core_of(file.read()))
        with open(sys.argv[2], 'wb') as file:
            file.write(elf)
    except (NoCore, OSError) as failure:
        sys.exit(f'{sys.argv[1]}: {failure}')


main()
