"""gdb's target as an OMPD library sees it: the callbacks, and the native ids of the threads."""

import contextlib
import ctypes
import mmap
import re
import struct

import gdb

import omi_library as ompd

SYMBOL_TABLE = 0x10000  # a count, and for each symbol four words of the name and its address
MOST_SYMBOLS, WORD, LONGEST_NAME, MOST_LIBRARIES = 16, 8, 4096, 64
RUNTIME_IDS = range(1000, 1064)  # thread i of this project's runtime has the id 1000 + i
NO_MACHINE = 0
ID_KINDS, ID_TYPES = (0, 1), {4: ctypes.c_uint32, 8: ctypes.c_uint64}


def core_name():
    """The name of the core file that gdb has open, or None."""
    found = re.search(r"core dump file:\s+`(.*)', file type",
                      gdb.execute('info files', to_string=True))
    return found and found[1]


@contextlib.contextmanager
def expressions_in_c():
    """Lets gdb read expressions as C's, whatever language the program is in."""
    language = gdb.parameter('language')
    gdb.execute('set language c', to_string=True)
    try:
        yield
    finally:
        gdb.execute(f'set language {language}', to_string=True)


@contextlib.contextmanager
def thread_selected(number):
    """Lets gdb look at a thread by its native id, which 0 leaves as it is."""
    selected = gdb.selected_thread()
    for thread in gdb.selected_inferior().threads():
        if number and number in thread.ptid:
            thread.switch()
    try:
        yield
    finally:
        if selected is not None and selected.is_valid():
            selected.switch()


class CoreFile:
    """What an ELF64 core file says that gdb doesn't tell: its machine, and its note of ids."""

    def __init__(self, name):
        self.machine, self.ids = None, []
        with open(name, 'rb') as file, mmap.mmap(file.fileno(), 0, access=mmap.ACCESS_READ) as data:
            if data[:5] == b'\x7fELF\x02':
                self.read(data, '<' if data[5] == 1 else '>')

    def read(self, data, order):
        self.machine, = struct.unpack_from(order + 'H', data, 18)
        headers, = struct.unpack_from(order + 'Q', data, 32)
        size, count = struct.unpack_from(order + 'HH', data, 54)
        for header in range(headers, headers + size * count, size):
            kind, _, place, _, _, length = struct.unpack_from(order + 'IIQQQQ', data, header)
            if kind == 4 and not self.ids:
                self.ids = list(noted(data[place:place + length], order))


def noted(notes, order):
    """The ids of the first note `OMPD` of type 1 among the notes of a segment."""
    at = 0
    while at + 12 <= len(notes):
        name, size, kind = struct.unpack_from(order + '3I', notes, at)
        ids_at = at + 12 + (name + 3) // 4 * 4
        if kind == 1 and notes[at + 12:at + 12 + name] == b'OMPD\0':
            return struct.unpack_from(f'{order}{size // 8}Q', notes, ids_at)
        at = ids_at + (size + 3) // 4 * 4
    return ()


class Target:
    """The callbacks over the inferior that is selected."""

    def __init__(self):
        self.identity = identity()
        self.inferior = gdb.selected_inferior()
        core = core_name()
        if not self.inferior.pid and not core:
            raise gdb.GdbError('no target: run a program, attach to a process or open a core file')
        self.core = core and CoreFile(core)
        self.architecture = self.inferior.architecture()
        low_first = int(gdb.Value(b'\1\0', self.integer(2))) == 1
        self.order = 'little' if low_first else 'big'

    def integer(self, size):
        """gdb's type of the integers of so many bytes, which each language has by another name."""
        return self.architecture.integer_type(8 * size, True)

    def read(self, address, count):
        """Bytes of the target; refused where one of them isn't mapped."""
        try:
            return bytes(self.inferior.read_memory(address, count)) if count else b''
        except gdb.MemoryError:
            ompd.refuse('unavailable')

    def word(self, address):
        return int.from_bytes(self.read(address, WORD), self.order)

    def text(self, address):
        """The bytes in front of the first zero byte."""
        text = bytearray()
        while len(text) < LONGEST_NAME:
            byte = self.read(address + len(text), 1)
            if byte == b'\0':
                return bytes(text)
            text += byte
        ompd.refuse('incomplete')

    def symbol(self, name):
        """The address of a symbol of gdb's, or else of the table among the target's words."""
        try:
            return int(gdb.parse_and_eval(f'&{name}'))
        except gdb.error:
            return self.symbol_of_table(name)

    def symbol_of_table(self, name):
        wanted = name.encode().ljust(4 * WORD, b'\0')
        count = self.word(SYMBOL_TABLE)
        for entry in range(count if count <= MOST_SYMBOLS else 0):
            *spelled, address = (self.word(SYMBOL_TABLE + WORD * (1 + 5 * entry + k))
                                 for k in range(5))
            if b''.join(word.to_bytes(WORD, 'little') for word in spelled) == wanted:
                return address
        ompd.refuse('unavailable')

    def libraries(self):
        """The names of OMPD libraries that the target's runtime gives; none where it gives none."""
        try:
            at = self.word(self.symbol('ompd_dll_locations'))
            names = []
            while at and len(names) < MOST_LIBRARIES and (name := self.word(at)):
                names.append(self.text(name).decode(errors='surrogateescape'))
                at += WORD
            return names
        except ompd.Refusal:
            return []

    def thread_ids(self):
        """The system's ids of the threads that gdb has, with gdb's own numbers for them."""
        return {thread.ptid[1]: thread.num for thread in
                sorted(self.inferior.threads(), key=lambda thread: thread.num) if thread.ptid[1]}

    def native_ids(self, session):
        """Whose ids these are, and the ids: of gdb's threads, where one is a thread of OpenMP; else
        of the core's note; else those that this project's runtime gives, as far as they are
        known."""
        ids = list(self.thread_ids())
        if any(not ompd.is_refused(ompd.ask(session.thread, native)) for native in ids):
            return "gdb's threads", ids
        if self.core and self.core.ids:
            return "the core's note", self.core.ids
        first, *_, last = RUNTIME_IDS
        return (f'the runtime, {first} to {last}; all that are not listed: ompd_rc_unavailable',
                [native for native in RUNTIME_IDS
                 if str(ompd.ask(session.thread, native)) != 'ompd_rc_unavailable'])

    # The callbacks, in the order of ompd_callbacks_t; those of memory for the library are `Blocks`.

    def print_string(self, text, category):
        gdb.write(text.decode(errors='backslashreplace'))

    def sizeof_type(self, context, sizes):
        """C's types, of which long has the size of a pointer."""
        pointer = self.pointer_size()
        for (field, _), size in zip(ompd.Sizes._fields_, (1, 2, 4, pointer, 8, pointer)):
            setattr(sizes[0], field, size)

    def pointer_size(self):
        if self.core and self.core.machine == NO_MACHINE:
            return WORD  # gdb takes a machine of its own for such a core
        return self.integer(1).pointer().sizeof

    def symbol_addr_lookup(self, context, thread, name, found, file):
        with thread_selected(thread):
            found[0] = ompd.Address(0, self.symbol(name.decode()))

    def read_memory(self, context, thread, place, count, buffer):
        if place[0].segment:
            ompd.refuse('unsupported')
        ctypes.memmove(buffer, self.read(place[0].address, count), count)

    def write_memory(self, context, thread, place, count, buffer):
        ompd.refuse('unsupported')  # the plugin changes no target

    def read_string(self, context, thread, place, count, buffer):
        for k in range(count):
            byte = self.read(place[0].address + k, 1)
            ctypes.memmove(buffer + k, byte, 1)
            if byte == b'\0':
                return
        ompd.refuse('incomplete')

    def device_to_host(self, context, given, size, count, to):
        units = ctypes.string_at(given, size * count)
        if self.order == 'big':
            units = b''.join(units[k:k + size][::-1] for k in range(0, len(units), size))
        ctypes.memmove(to, units, len(units))

    host_to_device = device_to_host

    def get_thread_context_for_thread_id(self, context, kind, size, thread_id, found):
        if kind not in ID_KINDS:
            ompd.refuse('unsupported')
        if size not in ID_TYPES:
            ompd.refuse('bad_input')
        native = ID_TYPES[size].from_address(thread_id).value
        if native not in self.thread_ids():
            ompd.refuse('unavailable')
        found[0] = native


def identity():
    """What tells one target from another."""
    inferior = gdb.selected_inferior()
    return inferior.num, inferior.pid, core_name()
