#!/usr/bin/env python3
"""Tests the gdb plugin over a live program in the state of a core (mapped.c): tests/plugin.py OUT.

Each test is a run of gdb, of which lines are wanted, in their order, and others are not. What it skips for want of gdb
or of another program it says, and ends with status 1 where a test fails."""

import os
import re
import shutil
import subprocess
import sys
import tempfile

C = os.path.dirname(os.path.dirname(os.path.realpath(__file__)))
OUT = os.path.realpath(sys.argv[1])
DATA, PLUGIN, LIBRARY = os.path.join(C, 'tests/data'), os.path.join(C, 'gdb/omi.py'), os.path.join(OUT, 'libompd.so')
AT_STOP = ('break stopped', 'run')
failed = []
tried = 0


def run(commands, program=(), plugin=PLUGIN):
    """What gdb prints of commands, the plugin being loaded first."""
    line = ['gdb', '-nx', '-batch', '-ex', 'set pagination off', '-ex', 'set width 0', '-ex', 'set confirm off']
    for command in [*([f'source {plugin}'] if plugin else []), *commands]:
        line += ['-ex', command]
    if program:
        line += ['--args', *program]
    return subprocess.run(line, stdout=subprocess.PIPE, stderr=subprocess.STDOUT, text=True, stdin=subprocess.DEVNULL,
                          timeout=120).stdout


def mapped(core, *library):
    return os.path.join(OUT, 'mapped'), DATA, core, *library


def test(name, commands, wanted, unwanted=(), program=mapped('nested.core', LIBRARY), plugin=PLUGIN):
    """Each of the wanted expressions is found behind the one before it, and none of the others is."""
    global tried
    tried += 1
    said = run(commands, program, plugin)
    at = 0
    for expression in wanted:
        found = re.compile(expression, re.MULTILINE).search(said, at)
        if not found:
            failed.append(f'{name}: not found: {expression}\n{said}')
            return
        at = found.end()
    for expression in ('Traceback', 'Python Exception', 'Error occurred', 'not released', 'callback:', *unwanted):
        if re.search(expression, said, re.MULTILINE):
            failed.append(f'{name}: found: {expression}\n{said}')
            return


def why_no_session():
    """`ompd init` says in a sentence why it fails, and so does each command without a session."""
    no_target = '^no target: run a program, attach to a process or open a core file$'
    test('no target', ('ompd init', f'ompd init {LIBRARY}'), (no_target, no_target), program=())
    for command in ('threads', 'parallel', 'task', 'icvs', 'tree', 'bt'):
        test(f'no session for {command}', (f'ompd {command}',), ('^no session: `ompd init` opens one$',), program=())
    test('no symbol', ('starti', 'ompd init'), ('ompd_rc_incompatible: the target has no symbol omi_layout',),
         program=('/bin/true',))
    test('not published', ('break main', 'run', f'ompd init {LIBRARY}'),
         ("ompd_rc_unavailable: the runtime hasn't published its",))
    for change, reason in (('omi_layout[0] = 3', 'ompd_rc_incompatible: the layout table is of a version'),
                           ('omi_layout[5] = 0', 'ompd_rc_error: the layout table is damaged')):
        test(change, (*AT_STOP, f'set var {change}', 'ompd init'), (reason,))
    test('no library', (*AT_STOP, 'ompd init /no/such.so', f'ompd init {PLUGIN}'),
         ('^/no/such.so: ', 'invalid ELF header'))
    with tempfile.TemporaryDirectory() as folder:
        program = shutil.copy(mapped('')[0], folder)
        os.chmod(program, 0o644)
        test('an error of gdb', ('ompd init',),
             ('^During startup program exited|^[^ ]+: Permission denied|cannot be run',), program=(program,))
    test('too many words', ('ompd init a b', 'ompd bt all'), ('^too many words: a b$', '^too many words: all$'))
    test('another target', (*AT_STOP, 'ompd init', 'kill', 'ompd threads'), ('^another target than at `ompd init`',))


def finding_the_library():
    """It is the one that the runtime names, which is waited for, or else this project's."""
    opened = '^library omi ompd 1, interface 201811, target 201811 OpenMP 5.0 host$'
    test('a program that does not run', ('ompd init', 'backtrace 1'), (opened, 'ompd_dll_locations_valid'))
    test('at its start', ('start', 'ompd init', 'backtrace 1'), (opened, 'ompd_dll_locations_valid'))
    test('behind it', (*AT_STOP, 'ompd init', 'backtrace 1'), (opened, 'stopped'))
    test('none is named', (*AT_STOP, 'ompd init'), (opened,), program=mapped('nested.core'))
    test('one that is no library', (*AT_STOP, 'ompd init'), ('^/no/such.so: ', opened),
         program=mapped('nested.core', '/no/such.so'))
    test('sessions', (*AT_STOP, 'ompd init', 'ompd init', 'ompd close', 'ompd close', 'ompd init'),
         (opened, opened, opened))


def languages():
    """In whatever language the program is, and it stays in it."""
    for language in ('fortran', 'ada', 'modula-2', 'pascal', 'rust', 'd', 'go', 'opencl', 'objective-c', 'c++',
                     'asm', 'minimal'):
        test(language, (*AT_STOP, f'set language {language}', 'ompd init', 'ompd threads', 'ompd tree',
                        'show language'),
             ('^library omi', r'^\* thread \d+ gdb 1 state', '^region',
              f'source language is "{re.escape(language)}"'))
    test('auto', (*AT_STOP, 'ompd init', 'show language'), ('^library omi', '"auto; currently c"'))


def what_is_told():
    """gdb's numbers of threads, the selected one, functions with their lines, states beside members, the tree."""
    test('threads', (*AT_STOP, 'ompd init', 'ompd threads', 'thread 2', 'ompd threads'),
         ("^ids of gdb's threads$", r'^\* thread \d+ gdb 1 state', r'^  thread \d+ gdb 2 ', r'^  thread \d+ gdb 3 ',
          r'^  thread \d+ gdb 4 ',
          r'^  thread \d+ gdb 1 ', r'^\* thread \d+ gdb 2 ', r'^  thread \d+ gdb 3 '))
    test('members', (*AT_STOP, 'ompd init', 'ompd parallel'),
         (r'^region r1 levels-var=2 active-levels-var=2 team-size-var=2 enclosing r2$',
          r'^  member 0 thread \d+ task k1 state wait_barrier_implicit_parallel wait 0$',
          r'^  member 1 thread \d+ task k\d state idle wait 0$'))
    test('functions', (*AT_STOP, 'ompd init', 'ompd task'),
         (r'^task k1 .* \(program_a at .*mapped.c:\d+\)$', r'^task k2 .* \(program_b at ',
          r'^task k3 .* \(program_c at '))
    test('the tree', (*AT_STOP, 'ompd init', 'ompd tree'),
         (r'^region r3 levels-var=0 .*team-size-var=1$', r'^  task k3 member 0 thread \d+ gdb 1 \(program_c at ',
          r'^    region r2 levels-var=1',
          r'^      task k2 member 0 thread \d+ gdb 1 \(program_b', r'^        region r1 levels-var=2',
          r'^          task k1 member 0 thread \d+ gdb 1 current state wait_barrier_implicit_parallel wait 0 \(',
          r'^          task k\d member 1 thread \d+ gdb 3 \(program_a',
          r'^      task k\d member 1 thread \d+ gdb 2 \(program_b',
          r'^        region r4', r'^          task k\d member 0 thread \d+ gdb 2 current',
          r'^          task k\d member 1 thread \d+ gdb 4 '))
    test('a tree with an explicit task', (*AT_STOP, 'ompd init', 'ompd tree'),
         ('^region r2 ', r'^  task k3 member 0', '^    region r1 ',
          r'^      task k2 member 0 thread \d+ gdb 1 \(program_d',
          r'^        task k1 explicit thread \d+ gdb 1 current state work_parallel wait 0 \(program_b',
          r'^      task k\d member 1 thread \d+ gdb 2 current state wait_critical wait 4'),
          program=mapped('tasks.core', LIBRARY))


def stacks():
    """The frames of each task's own code, and none of the runtime's between them."""
    frames = (r'^thread \d+ gdb 1 state', r'^task k1 region r1 \(program_a', r'^#2 .* in program_a at ',
              r'^task k2 region r2 \(program_b',
              r'^#4 .* in program_b at ', r'^task k3 region r3 \(program_c', r'^#6 .* in program_c at ')
    test('the stack', (*AT_STOP, 'ompd init', 'ompd bt'), frames, ('in runtime_run', 'in runtime_begin', 'in main'))
    test('a waiting task', (*AT_STOP, 'ompd init', 'ompd bt'),
         (r'^task k1 region r1 \(program_b', r'^#\d .* in program_b at '),
         ('in runtime_wait', 'in stopped', 'in runtime_run'), program=mapped('later.core', LIBRARY))
    test('of another thread', (*AT_STOP, 'ompd init', 'thread 2', 'ompd bt'),
         (r'^thread \d+ gdb 2 state', r'^task k4 region r4 \(program_a', r'in program_a at ', r'^task k5 region r2',
          r'in program_b at '),
         ('in runtime_run', 'in start_thread'))
    test('of an idle thread', (*AT_STOP, 'ompd init', 'thread 3', 'ompd bt'), ('^it has no task',),
         ('^#0 .* in .* at .*\n#1',))
    test('of another stop', (*AT_STOP, 'ompd init', 'ompd bt', 'frame', 'up', 'ompd bt', 'frame'),
         (*frames, '^#0 ', *frames, '^#1 '))


def loading():
    """The file may be a link, be loaded twice, and beside LLVM's plugin, in either order."""
    opened = '^library omi'
    with tempfile.TemporaryDirectory() as folder:
        link = os.path.join(folder, 'omi.py')
        os.symlink(PLUGIN, link)
        test('through a link', (*AT_STOP, 'ompd init'), (opened,), plugin=link)
    test('twice', (*AT_STOP, 'ompd init', f'source {PLUGIN}', 'ompd threads', 'ompd init', 'ompd threads'),
         (opened, '^no session', opened, r'^\* thread'))
    test('alone', ('ompd', 'ompd nothing'),
         ('^List of ompd subcommands', '^ompd bt -- ', '^ompd tree -- ', '^no command: ompd nothing$'))
    llvm = os.path.join(OUT, 'libomp-22-dev/usr/lib/llvm-22/share/gdb/python/ompd/__init__.py')
    if not os.path.exists(llvm):
        print("plugin: not tried beside LLVM's, which examples/llvm_plugin gets")
        return
    theirs = ('ompd init', 'break stopped', 'continue', 'ompd threads')
    ours = ('ompd init', 'ompd threads', 'ompd tree', 'ompd close')
    test("behind LLVM's", (f'source {llvm}', *theirs, f'source {PLUGIN}', *ours),
         ('Loaded OMPD lib', 'is an OpenMP thread; state: wait', opened, r'^\* thread', '^region'), plugin=None)
    test("before LLVM's", (*AT_STOP, *ours, f'source {llvm}', 'ompd init', 'ompd icvs'),
         (opened, r'^\* thread', 'Loaded OMPD lib', '^team-size-var'))


def cores():
    """A core that core_for_gdb.py writes has its threads, without a warning; a file that is no core is refused."""
    global tried
    script = os.path.join(C, 'gdb/core_for_gdb.py')
    with tempfile.TemporaryDirectory() as folder:
        elf = os.path.join(folder, 'core.elf')
        for core, threads in (('nested', 4), ('later', 4), ('untracked', 2), ('sixty_four', 64)):
            subprocess.run([script, f'{DATA}/{core}.core', elf], check=True)
            test(f'{core} for gdb', (f'core-file {elf}', 'info threads', f'ompd init {LIBRARY}', 'ompd threads',
                                     'ompd close'),
                 ('LWP 1000', f'LWP {999 + threads}', '^library omi', "^ids of gdb's threads$",
                  '^. thread 1000 gdb 1 ', f'^..thread {999 + threads} gdb '),
                 ('[Ww]arning', f'LWP {1000 + threads}'), program=())
        for name, refusal in (('tasks.core', 'the highest byte of its words comes first'),
                              ('tasks.omp', 'no core file of ompdi'), ('none', 'No such file')):
            tried += 1
            said = subprocess.run([script, f'{DATA}/{name}', elf], capture_output=True, text=True)
            if said.returncode != 1 or refusal not in said.stderr or 'Traceback' in said.stderr:
                failed.append(f'{name} for gdb: {said.stdout}{said.stderr}')


def other_library():
    """Numbers stand where a library has no texts of control variables."""
    library = os.path.join(OUT, 'libompd_textless.so')
    test('no texts', (*AT_STOP, f'ompd init {library}', 'ompd threads', 'ompd parallel', 'ompd icvs', 'ompd close'),
         ('^library omi', 'thread-num-var 0', 'team-size-var=2 enclosing',
          '^address_space max-active-levels-var=8 debug-var=1 num-procs-var=4',
          '^task k1 dyn-var=0 nthreads-var=2 run-sched-var=ompd_rc_unsupported default-device-var=0'))


def real_program():
    """A program of clang's on LLVM's runtime, whose records the tool publishes."""
    tool = os.environ.get('OMI_TOOL', os.path.join(C, 'tool/out/libomi_tool.so'))
    if not os.path.exists(tool) or not shutil.which('clang-19'):
        print(f'plugin: not tried over a real program, for {tool} or clang-19 is missing')
        return
    preloaded = (f'set environment LD_PRELOAD {tool}', f'set environment OMI_LIBRARY {LIBRARY}',
                 'set breakpoint pending on')
    with tempfile.TemporaryDirectory() as folder:
        program = os.path.join(folder, 'nested')
        compiler = ('clang-19', '-g', '-O0', '-fopenmp', '-o', program, os.path.join(C, 'tests/nested.c'))
        built = subprocess.run(compiler, capture_output=True, text=True)
        if built.returncode:
            print(f'plugin: not tried over a real program, for clang-19 fails: {built.stderr}')
            return
        test('a real program', (*preloaded, 'break at_stop', 'run', 'ompd init', 'ompd threads', 'ompd parallel',
                                'ompd tree', 'ompd close'),
             ('^library omi', r'^\* thread \d+ gdb 1 state work_parallel wait 0 thread-num-var 0 task k1 region r1$',
              r'^  thread \d+ gdb 2 ',
              r'^region r1 levels-var=2 active-levels-var=2 team-size-var=3 enclosing r2$',
              r'^  member 0 thread \d+ task k1 state work_parallel',
              r'^  member 1 thread', r'^region r2 levels-var=1 active-levels-var=1 team-size-var=2 enclosing r3$',
              '^region r3 levels-var=0',
              r'^  task k3 member 0', r'^    region r2', r'^      task k2 member 0 .*main at .*nested.c:',
              r'^        region r1',
              r'^          task k1 member 0 thread \d+ gdb 1 current state work_parallel'), program=(program,))
        test('its stack', (*preloaded, 'break at_stop', 'run', 'ompd init', 'ompd bt'),
             ('^task k1 region r1', r'^#0 .* in at_stop at ', r'^#\d+ .* in inner.omp_outlined',
              '^task k2 region r2', r'^#\d+ .* in inner at ',
              r'^#\d+ .* in main.omp_outlined', '^task k3 region r3', r'^#\d+ .* in main at '), ('__kmp', 'libomp'),
              program=(program,))


def main():
    if not shutil.which('gdb'):
        print('plugin: not tried, for gdb is missing')
        return 0
    for part in (why_no_session, finding_the_library, languages, what_is_told, stacks, loading, cores, other_library,
                 real_program):
        part()
    for failure in failed:
        print(f'plugin: {failure}')
    print(f'plugin: {tried} runs of gdb, {len(failed)} of them failed')
    return int(bool(failed))


sys.exit(main())
