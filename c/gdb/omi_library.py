"""The calls of an OMPD library for the host, bound by ctypes. Nothing here asks gdb."""

import contextlib
import ctypes
import signal
from ctypes import (CFUNCTYPE, POINTER, byref, c_char_p, c_int, c_int64, c_size_t, c_uint8,
                    c_uint64, c_void_p)

API_VERSION = 201811
NATIVE_KIND = 1  # the kind of ids that are the system's, by Linux (LWP): of eight bytes
BEFORE_STATES, BEFORE_VARIABLES = 0x102, 0  # where the enumerations begin
ADDRESS_SPACE, THREAD, PARALLEL, TASK = 2, 3, 4, 6  # scopes

RETURN_CODES = ['ok', 'unavailable', 'stale_handle', 'bad_input', 'error', 'unsupported',
                'needs_state_tracking', 'incompatible', 'device_read_error', 'device_write_error',
                'nomem', 'incomplete', 'callback_error']
CODES = {name: code for code, name in enumerate(RETURN_CODES)}


class Refusal(Exception):
    """A return code that isn't ok, the call that answered it, and why, where that is known."""

    def __init__(self, code, call=''):
        super().__init__(code)
        self.code, self.call, self.reason = code, call, ''

    def __str__(self):
        known = 0 <= self.code < len(RETURN_CODES)
        return f'ompd_rc_{RETURN_CODES[self.code] if known else self.code}'

    def sentence(self):
        return f'{self.call}: {self}' + (f': {self.reason}' if self.reason else '')


def refuse(name):
    """Ends a callback with a return code."""
    raise Refusal(CODES[name])


def ask(call, *arguments):
    """What a call answers, or its refusal."""
    try:
        return call(*arguments)
    except Refusal as refusal:
        return refusal


def is_refused(answer):
    return isinstance(answer, Refusal)


@contextlib.contextmanager
def interrupts_held():
    """Lets an interrupt wait: one in front of a callback's first line would pass it by."""
    held = signal.pthread_sigmask(signal.SIG_BLOCK, {signal.SIGINT})
    try:
        yield
    finally:
        signal.pthread_sigmask(signal.SIG_SETMASK, held)


class Address(ctypes.Structure):
    _fields_ = [('segment', c_uint64), ('address', c_uint64)]


class Frame(ctypes.Structure):
    _fields_ = [('address', Address), ('flag', c_int64)]


class Sizes(ctypes.Structure):
    _fields_ = [(name, c_uint8)
                for name in ('char', 'short', 'int', 'long', 'long_long', 'pointer')]


def callback(*arguments):
    return CFUNCTYPE(c_int, *arguments)


MEMORY = callback(c_void_p, c_void_p, POINTER(Address), c_uint64, c_void_p)
CONVERSION = callback(c_void_p, c_void_p, c_uint64, c_uint64, c_void_p)


class Callbacks(ctypes.Structure):
    _fields_ = [
        ('alloc_memory', callback(c_uint64, POINTER(c_void_p))),
        ('free_memory', callback(c_void_p)),
        ('print_string', callback(c_char_p, c_int)),
        ('sizeof_type', callback(c_void_p, POINTER(Sizes))),
        ('symbol_addr_lookup',
         callback(c_void_p, c_void_p, c_char_p, POINTER(Address), c_char_p)),
        ('read_memory', MEMORY),
        ('write_memory', MEMORY),
        ('read_string', MEMORY),
        ('device_to_host', CONVERSION),
        ('host_to_device', CONVERSION),
        ('get_thread_context_for_thread_id',
         callback(c_void_p, c_uint64, c_uint64, c_void_p, POINTER(c_void_p))),
    ]


MADE, TEXT, NUMBER = POINTER(c_void_p), POINTER(c_void_p), POINTER(c_int64)
PART = (c_void_p, MADE)
MEMBER = (c_void_p, c_int, MADE)
ORDER = (c_void_p, c_void_p, POINTER(c_int))
CALLS = {
    'initialize': (c_int64, POINTER(Callbacks)),
    'finalize': (),
    'get_api_version': (NUMBER,),
    'get_version_string': (TEXT,),
    'process_initialize': PART,
    'rel_address_space_handle': (c_void_p,),
    'get_omp_version': (c_void_p, NUMBER),
    'get_omp_version_string': (c_void_p, TEXT),
    'get_thread_handle': (c_void_p, c_uint64, c_uint64, c_void_p, MADE),
    'get_thread_in_parallel': MEMBER,
    'get_thread_id': (c_void_p, c_uint64, c_uint64, c_void_p),
    'rel_thread_handle': (c_void_p,),
    'get_curr_parallel_handle': PART,
    'get_enclosing_parallel_handle': PART,
    'get_task_parallel_handle': PART,
    'rel_parallel_handle': (c_void_p,),
    'parallel_handle_compare': ORDER,
    'get_curr_task_handle': PART,
    'get_generating_task_handle': PART,
    'get_scheduling_task_handle': PART,
    'get_task_in_parallel': MEMBER,
    'get_task_function': (c_void_p, POINTER(Address)),
    'get_task_frame': (c_void_p, POINTER(Frame), POINTER(Frame)),
    'rel_task_handle': (c_void_p,),
    'task_handle_compare': ORDER,
    'enumerate_states': (c_void_p, c_int64, NUMBER, TEXT, NUMBER),
    'get_state': (c_void_p, NUMBER, POINTER(c_uint64)),
    'enumerate_icvs':
        (c_void_p, c_uint64, POINTER(c_uint64), TEXT, POINTER(c_int), POINTER(c_int)),
    'get_icv_from_scope': (c_void_p, c_int, c_uint64, NUMBER),
    'get_icv_string_from_scope': (c_void_p, c_int, c_uint64, TEXT),
    'get_tool_data': (c_void_p, c_int, NUMBER, POINTER(Address)),
}


class Blocks:
    """The memory that a library takes by its callbacks. Texts of it are the tool's to free."""

    def __init__(self):
        system = ctypes.CDLL(None)
        self.take, self.give = system.malloc, system.free
        self.take.argtypes, self.take.restype = (c_size_t,), c_void_p
        self.give.argtypes, self.give.restype = (c_void_p,), None
        self.held = set()

    def alloc_memory(self, count, block):
        block[0] = self.take(max(count, 1))
        if not block[0]:
            refuse('nomem')
        self.held.add(block[0])

    def free_memory(self, block):
        if block not in self.held:
            refuse('bad_input')
        self.held.remove(block)
        self.give(block)

    def text(self, place):
        """The text that a call left at a place, which is freed."""
        if not place.value:
            refuse('error')
        text = ctypes.string_at(place.value).decode(errors='backslashreplace')
        if place.value in self.held:
            self.free_memory(place.value)
        return text


class Library:
    """A library that is loaded over a target, whose methods are the callbacks."""

    def __init__(self, path, target, blocks):
        self.loaded, self.target, self.blocks = ctypes.CDLL(path), target, blocks
        for name, arguments in CALLS.items():
            call = getattr(self.loaded, f'ompd_{name}')
            call.argtypes, call.restype = arguments, c_int
        self.reasons = getattr(self.loaded, 'omi_reason', None)  # a call of this project's library
        if self.reasons:
            self.reasons.argtypes, self.reasons.restype = (), c_char_p
        self.failures = []
        self.callbacks = Callbacks(*(kind(self.guarded(name))
                                     for name, kind in Callbacks._fields_))

    def guarded(self, name):
        """A callback that lets no exception into C."""
        answer = getattr(self.blocks if hasattr(self.blocks, name) else self.target, name)

        def guard(*arguments):
            try:
                answer(*arguments)
                return CODES['ok']
            except Refusal as refusal:
                return refusal.code
            except BaseException as failure:
                self.failures.append(failure)
                return CODES['callback_error']
        return guard

    def call(self, name, *arguments, ending=False):
        """Calls a function of the library, and refuses by its return code. An interrupt is told
        before the call, unless it ends something: nothing that it made is lost so."""
        if not ending and signal.SIGINT in signal.sigpending():
            raise KeyboardInterrupt
        code = getattr(self.loaded, f'ompd_{name}')(*arguments)
        if code != CODES['ok']:
            raise Refusal(code, f'ompd_{name}')

    def reason(self):
        """Why the library opened no session, where it says so."""
        return self.reasons().decode() if self.reasons else ''

    def number(self, name, *arguments):
        number = c_int64()
        self.call(name, *arguments, byref(number))
        return number.value

    def text(self, name, *arguments):
        place = c_void_p()
        self.call(name, *arguments, byref(place))
        return self.blocks.text(place)


class Handle:
    """A handle of a kind: thread, parallel or task."""

    def __init__(self, kind, place):
        self.kind, self.place = kind, place


class Session:
    """An open library over a target: the calls, and the handles that were made and not released."""

    def __init__(self, library):
        self.library, self.made = library, []
        library.call('initialize', API_VERSION, byref(library.callbacks))
        try:
            self.space = c_void_p()
            library.call('process_initialize', c_void_p(1), byref(self.space))
        except BaseException as failure:
            if is_refused(failure):
                failure.reason = library.reason()
            self.end('finalize')
            raise

    def close(self):
        """Ends the session; the names of the calls that were refused, with their codes."""
        return [*self.release(), *self.end('rel_address_space_handle', self.space),
                *self.end('finalize')]

    def release(self):
        """Releases all handles, as `close` does the session."""
        refused = []
        while self.made:
            handle = self.made.pop()
            refused += self.end(f'rel_{handle.kind}_handle', handle.place)
        return refused

    def end(self, name, *arguments):
        """A call that ends something: none, or its name and code where it is refused."""
        try:
            self.library.call(name, *arguments, ending=True)
            return []
        except Refusal as refusal:
            return [f'{refusal.call}: {refusal}']

    def make(self, kind, name, *arguments):
        place = c_void_p()
        self.library.call(name, *arguments, byref(place))
        self.made.append(Handle(kind, place))
        return self.made[-1]

    def versions(self):
        """The library's version, that of its interface, and the target's as number and text."""
        library = self.library
        return (ask(library.text, 'get_version_string'), ask(library.number, 'get_api_version'),
                ask(library.number, 'get_omp_version', self.space),
                ask(library.text, 'get_omp_version_string', self.space))

    def order(self, one, other):
        """Negative, 0 or positive, as one handle is before, at or behind another of its kind."""
        order = c_int()
        self.library.call(f'{one.kind}_handle_compare', one.place, other.place, byref(order))
        return order.value

    def thread(self, native):
        return self.make('thread', 'get_thread_handle', self.space, NATIVE_KIND, 8,
                         byref(c_uint64(native)))

    def native(self, thread):
        native = c_uint64()
        self.library.call('get_thread_id', thread.place, NATIVE_KIND, 8, byref(native))
        return native.value

    def state(self, thread):
        """The number of the state, and the id on which the thread waits."""
        state, wait = c_int64(), c_uint64()
        self.library.call('get_state', thread.place, byref(state), byref(wait))
        return state.value, wait.value

    def current_region(self, thread):
        return self.make('parallel', 'get_curr_parallel_handle', thread.place)

    def enclosing(self, region):
        return self.make('parallel', 'get_enclosing_parallel_handle', region.place)

    def region(self, task):
        return self.make('parallel', 'get_task_parallel_handle', task.place)

    def member_thread(self, region, number):
        return self.make('thread', 'get_thread_in_parallel', region.place, number)

    def member_task(self, region, number):
        return self.make('task', 'get_task_in_parallel', region.place, number)

    def current_task(self, thread):
        return self.make('task', 'get_curr_task_handle', thread.place)

    def generating(self, task):
        return self.make('task', 'get_generating_task_handle', task.place)

    def scheduling(self, task):
        return self.make('task', 'get_scheduling_task_handle', task.place)

    def function(self, task):
        entry = Address()
        self.library.call('get_task_function', task.place, byref(entry))
        return entry.address

    def frames(self, task):
        """The exit frame and the enter frame, each as address and flag."""
        both = Frame(), Frame()
        self.library.call('get_task_frame', task.place, *map(byref, both))
        return [(frame.address.address, frame.flag) for frame in both]

    def tool_data(self, task):
        value, place = c_int64(), Address()
        self.library.call('get_tool_data', task.place, TASK, byref(value), byref(place))
        return value.value % (1 << 64)

    def states(self):
        """The names of the states by number."""
        names, state, more = {}, c_int64(BEFORE_STATES), c_int64(1)
        while more.value:
            place = c_void_p()
            self.library.call('enumerate_states', self.space, state.value, byref(state),
                              byref(place), byref(more))
            names[state.value] = self.library.blocks.text(place)
        return names

    def variables(self):
        """The control variables: of each its number, name and scope."""
        all_of_them, variable, more = [], c_uint64(BEFORE_VARIABLES), c_int(1)
        while more.value:
            place, scope = c_void_p(), c_int()
            self.library.call('enumerate_icvs', self.space, variable.value, byref(variable),
                              byref(place), byref(scope), byref(more))
            all_of_them.append((variable.value, self.library.blocks.text(place), scope.value))
        return all_of_them

    def variable_number(self, place, scope, variable):
        return self.library.number('get_icv_from_scope', place, scope, variable)

    def variable_text(self, place, scope, variable):
        return self.library.text('get_icv_string_from_scope', place, scope, variable)

    def variable_value(self, place, scope, variable):
        """The value as a text. Not every library has one of each variable: else as a number."""
        text = ask(self.variable_text, place, scope, variable)
        if not is_refused(text) or text.code in (CODES['unavailable'], CODES['stale_handle']):
            return text
        number = ask(self.variable_number, place, scope, variable)
        return text if is_refused(number) else str(number)
