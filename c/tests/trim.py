"""Writes a small core for the tests from one that a run left: trim.py CORE SMALL [ORDER].

It keeps the symbols and the layout table, the records of the runtime and of all threads, and the records
of regions and tasks that were ever used. ORDER 1 stores each word with its highest byte first. The cores in
data/ are those of

    stop 848 examples/nested.omp    nested.core
    stop 948 examples/nested.omp    later.core
    stop 618 data/tasks.omp --layout 7    tasks.core, of order 1
    stop 1 data/untracked.omp --layout 2    untracked.core
    stop 700 examples/sixty_four.omp    sixty_four.core
    stop 1675 data/reuse.omp --layout 12    reuse.core
    stop 1650 data/reuse.omp    groups.core, of order 1

and the reports beside them what `ompdi show` prints of them."""
import struct
import sys

BASE = 0x10000


def read(path):
    """The contexts and the words of a core that has one segment."""
    data = open(path, 'rb').read()
    order, contexts, segments = struct.unpack_from('<BHI', data, 9)
    start, count = struct.unpack_from('<QQ', data, 16 + 8 * contexts)
    assert (order, segments, start) == (0, 1, BASE), 'no core of a whole image'
    return data[16:16 + 8 * contexts], struct.unpack_from(f'<{count}Q', data, 32 + 8 * contexts)


def table_at(words):
    """The number of the layout table's first word."""
    for symbol in range(1, 1 + 5 * words[0], 5):
        if struct.pack('<4Q', *words[symbol:symbol + 4]).rstrip(b'\0') == b'omi_layout':
            return (words[symbol + 4] - BASE) // 8


def kept(words):
    """The pieces that are kept, each from the number of a word to that behind it."""
    at = table_at(words)
    table = words[at:at + 56]
    threads = table[5]
    yield 0, at + 56
    for place, size, count, life in ((1, 2, 1, None), (3, 4, threads, None), (6, 7, threads * table[8], 13),
                                     (9, 10, threads * table[11], 25)):
        first = (table[place] - BASE) // 8
        for record in range(first, first + table[size] * count, table[size]):
            if life is None or words[record + table[11 + life]]:
                yield record, record + table[size]


def joined(pieces):
    runs = []
    for first, behind in sorted(pieces):
        if runs and runs[-1][1] == first:
            runs[-1][1] = behind
        else:
            runs.append([first, behind])
    return runs


def write(path, ids, words, runs, order):
    with open(path, 'wb') as core:
        core.write(struct.pack('<8sBBHI', b'OMPDCOR1', 1, order, len(ids) // 8, len(runs)) + ids)
        for first, behind in runs:
            core.write(struct.pack('<QQ', BASE + 8 * first, behind - first))
            core.write(struct.pack(f'{"<>"[order]}{behind - first}Q', *words[first:behind]))


ids, words = read(sys.argv[1])
write(sys.argv[2], ids, words, joined(kept(words)), int(sys.argv[3]) if len(sys.argv) > 3 else 0)
