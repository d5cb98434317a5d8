"""Adds the command `ompd` to gdb: threads, regions, tasks and control variables by OMPD."""

import atexit
import functools
import os
import shutil
import struct
import sys
import tempfile

import gdb

HERE = os.path.dirname(os.path.realpath(__file__))
if HERE not in sys.path:
    sys.path.insert(0, HERE)

import omi_library as ompd
from omi_lines import region_lines, task_lines, thread_lines, tree_lines, variable_lines
from omi_stack import stack_lines
from omi_survey import Survey
from omi_target import Target, core_name, expressions_in_c, identity

LIBRARY = os.path.join(os.path.dirname(HERE), 'out', 'libompd.so')
PUBLISHED = 'ompd_dll_locations_valid'  # where a runtime is once it has named its libraries


class Plugin:
    """The session that is open, if one is."""

    session = None

    def open(self, paths):
        """Opens a session with the first of these libraries that opens one, and tells why others
        did not."""
        self.close()
        target = Target()
        refusals = []
        for path in paths or dict.fromkeys([*target.libraries(), LIBRARY]):
            try:
                self.session = opened(path, target)
                break
            except ompd.Refusal as refusal:
                refusals.append(f'{path}: {refusal.sentence()}')
            except (OSError, AttributeError) as failure:
                refusals.append(f'{path}: {failure}')
        if self.session is None:
            raise gdb.GdbError('\n'.join(refusals))
        print_lines(refusals)

    def close(self):
        """Ends the session, and tells what it left."""
        if self.session is None:
            return
        session, self.session = self.session, None
        print_lines(session.close())
        left = len(session.library.blocks.held)
        if left:
            print(f'{left} blocks of memory are not released')

    def look(self, lines):
        """Prints lines of a survey, and releases all that it made."""
        if self.session is None:
            raise gdb.GdbError('no session: `ompd init` opens one')
        session = self.session
        if session.library.target.identity != identity():
            raise gdb.GdbError('another target than at `ompd init`: open a session anew')
        try:
            print_lines(lines(Survey(session)))
        finally:
            print_lines(session.release())
            self.tell_failures(session.library)

    @staticmethod
    def tell_failures(library):
        print_lines(f'callback: {failure!r}' for failure in library.failures)
        library.failures.clear()


def opened(path, target):
    """A session with a library. Where another tool has the library open, with a copy of it."""
    try:
        return session_of(path, target)
    except ompd.Refusal as refusal:
        if (refusal.call, str(refusal)) != ('ompd_initialize', 'ompd_rc_bad_input'):
            raise
    with tempfile.TemporaryDirectory() as folder:
        return session_of(shutil.copy(path, folder), target)


def session_of(path, target):
    library = ompd.Library(path, target, ompd.Blocks())
    try:
        return ompd.Session(library)
    finally:
        Plugin.tell_failures(library)


def print_lines(lines):
    for line in lines:
        print(line)


class Prefix(gdb.Command):
    """What an OMPD library says of the target's OpenMP threads, regions and tasks."""

    def __init__(self):
        super().__init__('ompd', gdb.COMMAND_STATUS, prefix=True)

    def invoke(self, text, from_tty):
        if text:
            raise gdb.GdbError(f'no command: ompd {text}')
        gdb.execute('help ompd')


class Command(gdb.Command):
    """A command under the prefix, made of a function of its words; and, where it has none, of
    another one that comes before and may let the program run."""

    def __init__(self, name, most, act, help_text, before=None):
        self.__doc__, self.most, self.act, self.before = help_text, most, act, before
        super().__init__(f'ompd {name}', gdb.COMMAND_STATUS,
                         gdb.COMPLETE_FILENAME if most else gdb.COMPLETE_NONE)

    def invoke(self, text, from_tty):
        words = gdb.string_to_argv(text)
        if len(words) > self.most:
            raise gdb.GdbError(f'too many words: {text}')
        try:
            if self.before and not words:
                self.before()
            with ompd.interrupts_held(), expressions_in_c():
                self.act(*words)
        except ompd.Refusal as refusal:
            raise gdb.GdbError(refusal.sentence())
        except (OSError, struct.error, gdb.error) as failure:
            raise gdb.GdbError(str(failure))


def wait_for_runtime():
    """Starts the program where it isn't, and lets it run until its runtime has named its libraries.
    A program without a runtime that does so is left as it is."""
    inferior = gdb.selected_inferior()
    if not inferior.pid and not core_name() and gdb.current_progspace().filename:
        gdb.execute('start')
    if not inferior.pid or names_libraries() is not False:
        return
    gdb.execute(f'info line {PUBLISHED}', to_string=True)  # an error where there is none
    valid = gdb.Breakpoint(PUBLISHED, internal=True, temporary=True)
    valid.silent = True
    gdb.execute('continue')
    if valid.is_valid():
        valid.delete()


def names_libraries():
    """Whether the runtime has named its libraries; None where there is no runtime that does."""
    with expressions_in_c():
        try:
            return bool(int(gdb.parse_and_eval('*(unsigned long *)&ompd_dll_locations')))
        except gdb.error:
            return None


def init(*paths):
    omi_plugin.open([os.path.abspath(os.path.expanduser(path)) for path in paths])
    version, interface, number, name = omi_plugin.session.versions()
    print(f'library {version}, interface {interface}, target {number} {name}')


def add_commands():
    Prefix()
    Command('init', 1, init, 'Open a session over the target: ompd init [LIBRARY].\n'
            "Where no library is named, it is one that the target's runtime names, or else\n"
            f'{LIBRARY}. Then a program that does not run is started,\n'
            'and runs until its runtime has named its libraries.', wait_for_runtime)
    Command('close', 0, omi_plugin.close, 'End the session.')
    for name, lines in (('threads', thread_lines), ('parallel', region_lines), ('task', task_lines),
                        ('icvs', variable_lines), ('tree', tree_lines), ('bt', stack_lines)):
        Command(name, 0, functools.partial(omi_plugin.look, lines), lines.__doc__)


if 'omi_plugin' in globals():  # the file was sourced before
    omi_plugin.close()
omi_plugin = Plugin()
atexit.register(omi_plugin.close)
add_commands()
