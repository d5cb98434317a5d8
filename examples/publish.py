#!/usr/bin/env python3
"""Writes a core as a runtime of one's own would leave it: a layout table, and the records of a program that is stopped.

    publish.py CORE          then `ompdi show CORE` prints the report, and `ompdi audit CORE` judges the words
    publish.py CORE early    the same, with a mistake: a thread names a task whose life word is not stored yet

The program: thread 0 forked a team of three. Its member 0 began a task group and made task `first` in it, which thread 2 executes
and which made task `second`; thread 0 executes that one while it waits for the group. Member 1, on thread 1, forked a team of two,
whose member 1, on thread 3, waits for a lock.

All that is used here stands in docs/MEMORY_LAYOUT.md and docs/CORE_FILE.md. The order of the fields, the gaps between them, the
sizes of the records and the places of the arenas are this script's own, as a runtime may choose them.
"""

import struct
import sys

THREADS = 4
TABLES = 0x10000
# The arenas in an order of this script's own: of each kind its fields in their order of number, with a width where it isn't one
# word; how many records a thread has (of the runtime there is one in all); and the word of the layout table for its place.
KINDS = {
    "task": ("life implicit region thread number generating scheduling func exit enter dyn nthn sched device final tool children "
             "refs nth:4 slots:10", 5, 9),
    "region": (f"life func enclosing encounter size levels active released arrived pending left team:{THREADS}", 2, 6),
    "thread": ("life native cur state claim assign", 1, 3),
    "rt": ("version threads procs debug maxact locks:8", 1, 1),
}
WORK_PARALLEL, WAIT_CRITICAL = 0x001, 0x042
FUNCTIONS = [0x400000 + 16 * number for number in range(5)]


def fields_of(kind):
    """The fields of a kind of records in their order of number, each with its width in words."""
    return [(name, int(width or 1)) for name, _, width in (it.partition(":") for it in KINDS[kind][0].split())]


def place_all():
    """Chooses the offset of each field, by name and behind a gap of one word; each record's size; and each arena's place."""
    offsets, sizes, places, place = {}, {}, {}, 0x20000
    for kind, (_, count, _) in KINDS.items():
        offset = 1
        for name, width in sorted(fields_of(kind)):
            offsets[kind, name] = offset
            offset += width
        sizes[kind] = offset
        places[kind] = place
        place += 8 * sizes[kind] * count * (1 if kind == "rt" else THREADS)
    return offsets, sizes, places, place


OFFSETS, SIZES, PLACES, END = place_all()
memory = {address: 0 for address in range(PLACES["task"], END, 8)}


def store(kind, record, **values):
    """Stores words into the record at an address, in this order: a list from place 0 of its field on, a number at place 0."""
    for name, value in values.items():
        for at, word in enumerate(value if isinstance(value, list) else [value]):
            memory[record + 8 * (OFFSETS[kind, name] + at)] = word


def record_of(kind, thread, slot=0):
    """The address of the record in this slot of this thread."""
    return PLACES[kind] + 8 * SIZES[kind] * (thread * KINDS[kind][1] + slot)


def fill_region(region, func, enclosing, encounter, levels, team):
    store("region", region, life=1, func=func, enclosing=enclosing, encounter=encounter, size=len(team), levels=levels,
          active=levels, team=team)


def fill_task(task, thread, depth, in_runtime, generation=0, **values):
    """Fills a task's record: `depth` tasks are on its thread's chain, and `in_runtime` says that not its own code runs now."""
    exit_frame = 0x7F0000000000 + 0x100000 * (thread + 1) - 64 * depth
    store("task", task, life=2 * generation + 1, thread=record_of("thread", thread), exit=exit_frame,
          enter=exit_frame - 32 if in_runtime else 0, sched=4 * 8 + 2, **values)


def publish(early):
    """Stores the records, in the order in which a runtime may: what a word leads to is filled before the word is stored."""
    initial, outer, inner = record_of("region", 0, 0), record_of("region", 0, 1), record_of("region", 1, 0)
    root, *outer_team = [record_of("task", 0, slot) for slot in range(4)]
    inner_team = [record_of("task", 1, slot) for slot in range(2)]
    first, second = record_of("task", 0, 4), record_of("task", 2, 0)

    store("rt", PLACES["rt"], version=201811, threads=THREADS, procs=8, debug=1, maxact=3)
    fill_region(initial, FUNCTIONS[0], 0, 0, 0, [root])
    fill_task(root, 0, 1, True, implicit=1, region=initial, func=FUNCTIONS[0], nthn=2, nth=[3, 2])

    fill_region(outer, FUNCTIONS[1], initial, root, 1, outer_team)
    for number, task in enumerate(outer_team):
        # Behind the task of member 0 stands the initial task, which thread 0 left for it. Place 5 of `slots` counts open groups.
        fill_task(task, number, 1 if number else 2, True, implicit=1, region=outer, number=number, generating=root,
                  scheduling=0 if number else root, func=FUNCTIONS[1], nthn=1, nth=[2], slots=[0] * 5 + [0 if number else 1])
    fill_region(inner, FUNCTIONS[2], outer, outer_team[1], 2, inner_team)
    for number, task in enumerate(inner_team):
        fill_task(task, (1, 3)[number], (2, 1)[number], number == 1, implicit=1, region=inner, number=number,
                  generating=outer_team[1], scheduling=0 if number else outer_team[1], func=FUNCTIONS[2], nthn=1, nth=[2])

    # Both explicit tasks are in that group: place 4 of `slots` is its owner's address plus its index. Their slots were used before.
    explicit = {"region": outer, "nthn": 1, "nth": [2], "slots": [0] * 4 + [outer_team[0] + 0]}
    fill_task(first, 2, 2, False, generation=2, number=2, generating=outer_team[0], scheduling=outer_team[2], func=FUNCTIONS[4],
              **explicit)
    fill_task(second, 0, 3, False, generation=1, number=0, generating=first, scheduling=outer_team[0], func=FUNCTIONS[3], **explicit)
    if early:
        store("task", second, life=2)  # as the task before it in this slot left it

    states = [WORK_PARALLEL, WORK_PARALLEL, WORK_PARALLEL, WAIT_CRITICAL + (1 << 16)]  # the wait id of lock 0 is 1
    for thread, current in enumerate([second, inner_team[0], first, inner_team[1]]):
        store("thread", record_of("thread", thread), native=1000 + thread, state=states[thread], life=1, cur=current)


def words_of_tables():
    """The symbol table, with the one symbol `omi_layout`, and behind it the layout table."""
    symbols = [1, *struct.unpack("<4Q", b"omi_layout".ljust(32, b"\0")), TABLES + 8 * 6]
    table = [2] + [0] * 11
    for kind, (_, count, at) in KINDS.items():
        table[at:at + 2] = PLACES[kind], SIZES[kind]
        if kind != "rt":
            table[at + 2] = THREADS if kind == "thread" else count
    return symbols + table + [OFFSETS[kind, name] for kind in ("rt", "thread", "region", "task") for name, _ in fields_of(kind)]


def core_of(segments):
    """The bytes of a core with the words of each segment, the lowest byte of a word first."""
    parts = [b"OMPDCOR1", struct.pack("<BBHI", 1, 0, THREADS, len(segments)), struct.pack("<4Q", *range(1000, 1000 + THREADS))]
    for start, words in segments:
        parts.append(struct.pack(f"<{2 + len(words)}Q", start, len(words), *words))
    return b"".join(parts)


def main():
    if len(sys.argv) < 2 or sys.argv[2:] not in ([], ["early"]):
        sys.exit(__doc__)
    publish(early=len(sys.argv) == 3)
    records = [memory[address] for address in sorted(memory)]
    with open(sys.argv[1], "wb") as file:
        file.write(core_of([(TABLES, words_of_tables()), (PLACES["task"], records)]))


main()
