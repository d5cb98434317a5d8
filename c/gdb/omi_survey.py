"""What the threads of a target lead to: its regions and tasks, by names."""

import functools
from bisect import bisect_left

import gdb

import omi_library as ompd
from omi_library import PARALLEL, ask, is_refused


class Names:
    """Names of handles of one kind: one name for all handles of one object, in order of meeting."""

    def __init__(self, letter, session):
        self.letter, self.session = letter, session
        self.key = functools.cmp_to_key(session.order)
        self.sorted, self.handles = [], {}

    def name(self, handle):
        """The name of a handle; of a refusal its code."""
        if is_refused(handle):
            return str(handle)
        try:
            at = bisect_left(self.sorted, self.key(handle), key=lambda known: self.key(known[0]))
            if at < len(self.sorted) and self.session.order(self.sorted[at][0], handle) == 0:
                return self.sorted[at][1]
        except ompd.Refusal as refusal:
            return str(refusal)
        name = f'{self.letter}{len(self.handles) + 1}'
        self.sorted.insert(at, (handle, name))
        self.handles[name] = handle
        return name

    def chain(self, first, step):
        """The names from a handle on, and at last what ended them."""
        met, handle = [], first
        while True:
            name = self.name(handle)
            if name in met:
                return met + ['cycle', name]
            met.append(name)
            if name not in self.handles:
                return met
            handle = ask(step, handle)


class Survey:
    """What the threads lead to at this stop. All commands look so, and so use the same names."""

    def __init__(self, session):
        self.session = session
        target = session.library.target
        self.numbers = target.thread_ids()
        self.source, natives = target.native_ids(session)
        self.tasks, self.regions = Names('k', session), Names('r', session)
        self.threads = {native: ask(session.thread, native) for native in natives}
        self.variables = session.variables()
        self.states = session.states()
        found = {native: thread for native, thread in self.threads.items()
                 if not is_refused(thread)}
        self.scheduling = self.chains(self.tasks, found, session.current_task, session.scheduling)
        self.nesting = self.chains(self.regions, found, session.current_region, session.enclosing)
        self.generating = self.chains(self.tasks, found, session.current_task, session.generating)
        self.teams = {name: self.team(region) for name, region in self.regions.handles.items()}

    @staticmethod
    def chains(names, threads, first, step):
        return {native: names.chain(ask(first, thread), step)
                for native, thread in threads.items()}

    def team(self, region):
        """Of each member its thread's id and its task; where the size is refused, its code."""
        size = self.number(region, PARALLEL, 'team-size-var')
        return size if is_refused(size) else [
            (self.native(ask(self.session.member_thread, region, number)),
             self.tasks.name(ask(self.session.member_task, region, number)))
            for number in range(size)]

    def native(self, thread):
        return thread if is_refused(thread) else ask(self.session.native, thread)

    def selected(self):
        """The id of the thread that gdb has selected, where the ids are those of gdb's threads."""
        thread = gdb.selected_thread()
        return thread and thread.ptid[1] if self.source == "gdb's threads" else None

    def state(self, native):
        """The words of a thread's state, and of the id on which it waits."""
        thread = self.threads.get(native)
        if thread is None:
            return ''
        state = thread if is_refused(thread) else ask(self.session.state, thread)
        if is_refused(state):
            return f' state {state}'
        number, wait = state
        return f' state {self.states.get(number, hex(number))} wait {wait}'

    def variable(self, scope, wanted):
        for number, name, where in self.variables:
            if (where, name) == (scope, wanted):
                return number
        ompd.refuse('unsupported')

    def number(self, handle, scope, name):
        return ask(lambda: self.session.variable_number(
            handle.place, scope, self.variable(scope, name)))

    def value(self, handle, scope, name):
        return ask(lambda: self.session.variable_value(
            handle.place, scope, self.variable(scope, name)))

    def values(self, place, scope):
        """All control variables of an object, with their values."""
        return ' '.join(f'{name}={self.session.variable_value(place, scope, number)}'
                        for number, name, where in self.variables if where == scope)

    def region_words(self, name):
        """A region with its control variables, but for OMPD's second names of them."""
        place = self.regions.handles[name].place
        return ' '.join([f'region {name}', *(
            f'{variable}={self.session.variable_value(place, PARALLEL, number)}'
            for number, variable, where in self.variables
            if where == PARALLEL and not variable.startswith('ompd-'))])

    def place_of(self, task):
        """The function of a task by name, file and line, as far as gdb knows it, in parentheses."""
        entry = ask(self.session.function, task)
        place = '' if is_refused(entry) else code_at(entry)
        return f' ({place})' if place else ''


def code_at(address):
    """The function that has an address, and its file and line there, as far as gdb knows them."""
    block = gdb.block_for_pc(address)
    while block and not block.function:
        block = block.superblock
    if block:
        name = block.function.print_name
    else:
        symbol = gdb.execute(f'info symbol {address:#x}', to_string=True)
        name = '' if symbol.startswith('No symbol') else symbol.split(' in section ')[0]
    line = gdb.find_pc_line(address)
    return name + (f' at {line.symtab.filename}:{line.line}' if line.symtab else '')
