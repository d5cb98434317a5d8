#!/usr/bin/env python3
"""Compares what the gdb plugin says of cores with what `ompdi show` says of them, and ends with
status 1 where they differ. Names of regions and tasks are compared by what they stand for."""

import argparse
import difflib
import os
import shlex
import subprocess
import sys
import tempfile

HERE = os.path.dirname(os.path.abspath(__file__))
ROOT = os.path.dirname(os.path.dirname(HERE))
COMMANDS = ('threads', 'parallel', 'task', 'icvs')
HEAD = ('num-procs-var', 'max-active-levels-var')
TASK_WORDS = ('region', 'function', 'generating', 'scheduling', 'exit', 'exit-flag', 'enter',
              'enter-flag', 'tool')
NAMES = ('task', 'region', 'generating', 'scheduling', 'enclosing')
REGION_WORDS = ('levels-var', 'active-levels-var', 'team-size-var', 'enclosing')
FOUND_FRAME = '0x21'  # the flag of a frame that there is

# What is compared where no core is named: the words of `ompdi stop` but for the core's name.
RUNS = ['1000 empty.omp', '0 one_team.omp', '196 one_team.omp', '197 one_team.omp --layout 7',
        '821 nested.omp', '567 barriers.omp', '325 limited.omp', '1209 tree.omp', '269 lock.omp',
        '690 groups.omp --layout 12', '100000 ancestor.omp --break task_begin --count 2',
        '1000 controls.omp', '1000 untracked.omp',
        '1000000 trees.omp --seed 5 --break task_begin --count 20',
        '1000000 sixty_four.omp --break parallel_begin --count 1']
OTHER_ORDER = '821 nested.omp'  # compared in the other order of bytes as well


class Failed(Exception):
    """What keeps two programs from being compared."""


def pairs(line):
    return dict(zip(line[::2], line[1::2]))


def words(row):
    return ' '.join(f'{key} {row[key]}' for key in sorted(row))


def values(line):
    return dict(word.split('=') for word in line)


def present(word):
    """A part as a report words it: what the library calls unavailable is none."""
    return 'none' if word == 'ompd_rc_unavailable' else word


class Said:
    """What one side says of a core: its threads by native id, its tasks and regions by name."""

    def __init__(self):
        self.head, self.threads, self.stacks, self.nests = {}, {}, {}, {}
        self.tasks, self.regions, self.variables, self.last = {}, {}, {}, None

    def lines(self):
        """All of it, with names by the order in which they come."""
        self.names = {'none': 'none'}
        lines = [words(self.head)]
        for native, thread in sorted(self.threads.items()):
            lines.append(f'thread {native} '
                         + (thread if isinstance(thread, str) else words(self.named(thread))))
        for native, stack in sorted(self.stacks.items()):
            lines.append(f'thread {native} tasks {" ".join(map(self.name, stack))}')
            for task in stack:
                lines += [f'task {self.name(task)} {words(self.named(row.get(task, {})))}'
                          for row in (self.tasks, self.variables)]
        shown = {}
        for native, nest in sorted(self.nests.items()):
            lines.append(f'thread {native} regions {" ".join(map(self.name, nest))}')
            shown.update(dict.fromkeys(nest))
        for region in [*shown, *(region for region in self.regions if region not in shown)]:
            row = dict(self.regions.get(region, {}))
            for number, (native, task) in enumerate(row.pop('members', [])):
                row[f'member {number}'] = f'thread {native} task {self.name(task)}'
            lines.append(f'region {self.name(region)} {words(self.named(row))}')
        return lines

    def member(self, native, task):
        """Adds a member. A report has no id of a thread whose id was not asked for."""
        asked = native in self.threads or not isinstance(native, (int, type(None)))
        self.regions[self.last]['members'].append((native if asked else 'not asked for', task))

    def name(self, word):
        return self.names.setdefault(word, f'{word[0]}{len(self.names)}')

    def named(self, row):
        return {key: self.name(value) if key in NAMES and value else value
                for key, value in row.items()}


class Report(Said):
    """What `ompdi show` says."""

    def __init__(self, text):
        super().__init__()
        self.natives = {}
        for line in text.splitlines():
            word, *rest = line.split()
            getattr(self, f'read_{word}')(rest)
        for native, thread in self.threads.items():
            if not isinstance(thread, str):
                thread['region'] = self.tasks.get(thread['task'], {}).get('region', 'none')
                self.nests[native] = list(self.outwards(thread['region']))

    def outwards(self, region):
        while region != 'none':
            yield region
            region = self.regions[region]['enclosing']

    def read_ompd(self, rest):
        self.head.update(version=rest[0], debug=rest[4])

    def read_icv(self, rest):
        if self.last is None:
            self.head.update(values(rest))
        else:
            self.variables[self.last] = values(rest)

    def read_native(self, rest):
        self.threads[int(rest[0])] = 'none'

    def read_thread(self, rest):
        row = pairs(['thread', *' '.join(rest).replace('=', ' ').split()])
        native = self.natives[row['thread']] = int(row['native'])
        self.threads[native] = {key: row[key] for key in ('state', 'wait', 'thread-num-var')}
        self.threads[native]['task'] = row['current']
        self.stacks[native] = []

    def read_region(self, rest):
        row = pairs(' '.join(rest[1:]).replace('=', ' ').split())
        self.last = rest[0]
        self.regions[self.last] = {key: row[key] for key in REGION_WORDS}
        self.regions[self.last]['members'] = []

    def read_member(self, rest):
        self.member(self.natives.get(rest[2]), rest[4])

    def read_task(self, rest):
        row, self.last = pairs(rest[1:]), rest[0]
        self.stacks[self.natives[row['thread']]].append(self.last)
        for side in ('exit', 'enter'):
            row[f'{side}-flag'] = FOUND_FRAME if row[side] != '0x0' else '0x0'
        self.tasks[self.last] = {key: row[key] for key in ('kind', *TASK_WORDS)}


class Plugin(Said):
    """What the plugin says, by the lines of each of its commands."""

    def __init__(self, sections):
        super().__init__()
        self.ancestors = []
        self.head['version'] = sections['init'][0].rpartition(', target ')[2].split()[0]
        for command in COMMANDS:
            for line in sections[command]:
                word, *rest = line.removeprefix('* ').split(' (')[0].split()
                read = getattr(self, f'read_{command}_{word}', None)
                if read is None:
                    raise Failed(f'the plugin says: {line}')
                read(rest)
        for chain in self.ancestors:
            for task, other in zip(chain, chain[1:]):
                if task in self.tasks and self.tasks[task]['generating'] != other != 'cycle':
                    raise Failed(f'the plugin says generating {chain}, and not so of {task}')

    def read_threads_ids(self, rest):
        pass  # whose ids they are

    def read_threads_thread(self, rest):
        native, row = int(rest[0]), pairs(rest[1:])
        if len(rest) % 2 == 0:
            self.threads[native] = present(rest[-1])
            return
        row.pop('gdb', None)  # gdb's own number
        thread = self.threads[native] = {key: present(word) for key, word in row.items()}
        if thread['state'] == 'ompd_rc_needs_state_tracking':
            thread.update(state='untracked', wait='0')

    def read_parallel_thread(self, rest):
        self.nests[int(rest[0])] = self.chain(rest[2:])

    @staticmethod
    def chain(words):
        """The names of a chain, whose last word says that there is no more."""
        *names, end = words
        return names if present(end) == 'none' else words

    def read_parallel_region(self, rest):
        row = pairs(' '.join(rest[1:]).replace('=', ' ').split())
        self.last = rest[0]
        self.regions[self.last] = {key: present(row.get(key)) for key in REGION_WORDS}
        self.regions[self.last]['members'] = []

    def read_parallel_member(self, rest):
        native = int(rest[2]) if rest[2].isdigit() else rest[2]
        self.member(native, rest[4])
        for key, word in pairs(rest[5:]).items():
            thread = self.threads[native]
            told = thread.get(key) if isinstance(thread, dict) else None
            if told != word and (told, word) != ('untracked', 'ompd_rc_needs_state_tracking'):
                raise Failed(f'the plugin says {key} {told} of {native}, and {word} as a member')

    def read_task_thread(self, rest):
        if rest[1] == 'generating':
            self.ancestors.append(self.chain(rest[2:]))
        else:
            self.stacks[int(rest[0])] = self.chain(rest[2:])

    def read_task_task(self, rest):
        row = {key: present(word) for key, word in pairs(rest[1:]).items()}
        kind = 'explicit' if row['implicit-task-var'] == '0' else 'implicit'
        self.tasks[rest[0]] = {'kind': kind, **{key: row.get(key) for key in TASK_WORDS}}

    def read_icvs_address_space(self, rest):
        row = self.own(values(rest))
        self.head.update(debug=row['debug-var'], **{key: row[key] for key in HEAD})

    def read_icvs_thread(self, rest):
        self.agree(self.threads[int(rest[0])], rest[1:])

    def read_icvs_region(self, rest):
        self.agree(self.regions[rest[0]], rest[1:])

    def read_icvs_task(self, rest):
        self.variables[rest[0]] = self.own(values(rest[1:]))

    @staticmethod
    def own(row):
        """The variables but for OMPD's second names, whose values have to be those of the first."""
        for name in [name for name in row if name.startswith('ompd-')]:
            value, first = row.pop(name), name.removeprefix('ompd-')
            if value != row.get(first, row.get(first.replace('-var', '-task-var'))):
                raise Failed(f'the plugin says {name} {value}, and else of {first}')
        return row

    def agree(self, row, line):
        """What `icvs` says has to be what another command said."""
        for name, value in self.own(values(line)).items():
            if row[name] != present(value):
                raise Failed(f'the plugin says {name} {row[name]}, and {value} among the variables')


def run(*line):
    return subprocess.run(line, capture_output=True, text=True, errors='backslashreplace',
                          stdin=subprocess.DEVNULL,
                          env={**os.environ, 'PYTHONDONTWRITEBYTECODE': '1'})


def ask_plugin(options, core):
    """What gdb prints of a core by each command of the plugin, and all of it."""
    line = [options.gdb, '-nx', '-batch', f'--core={core}', '-x', os.path.join(HERE, 'omi.py')]
    for command in (f'init {shlex.quote(options.library)}', *COMMANDS, 'close'):
        line += ['-ex', f'echo == {command.split()[0]}\\n', '-ex', f'ompd {command}']
    answer = run(*line)
    sections, name = {}, ''
    for printed in answer.stdout.splitlines():
        if printed.startswith('== '):
            name = printed[3:]
        sections.setdefault(name, []).append(printed)
    for command in ('init', *COMMANDS, 'close'):
        if command not in sections:
            raise Failed(f'gdb ended before `ompd {command}`: {answer.stderr}')
        del sections[command][0]
    return sections, answer.stdout + answer.stderr


def compare(options, label, core):
    """Prints how the two sides differ on a core; whether they do."""
    report = run(options.ompdi, 'show', core)
    sections, said = ask_plugin(options, core)
    if report.returncode:
        refusal = report.stdout.strip() or f'status {report.returncode}'
        refused = any(word in said for word in ('ompd_rc_error', 'ompd_rc_incompatible', 'cycle'))
        print(f'{label}: show refuses by `{refusal}`, and the plugin '
              + ('refuses too' if refused else 'does not'))
        return not refused
    if not sections['init']:
        raise Failed(f'the plugin opens no session: {said}')
    if sections['close']:
        raise Failed('at the end the plugin says: ' + ' '.join(sections['close']))
    wanted, got = Report(report.stdout).lines(), Plugin(sections).lines()
    differences = list(difflib.unified_diff(wanted, got, 'show', 'plugin', n=0, lineterm=''))
    print(f'{label}: ' + ('differs' if differences else f'{len(wanted)} lines are the same'))
    print(*differences, sep='\n', end='\n' if differences else '')
    return bool(differences)


def made_cores(options, folder):
    """What RUNS make, in a folder: of each a label and the core."""
    core = os.path.join(folder, 'made.core')
    for label in RUNS:
        steps, script, *rest = label.split()
        make(options, 'stop', steps, os.path.join(options.examples, script), core, *rest)
        yield label, core
        if label == OTHER_ORDER:
            other = os.path.join(folder, 'other.core')
            make(options, 'recode', '1', core, other)
            yield f'{label}, the highest byte first', other


def make(options, *line):
    made = run(options.ompdi, *line)
    if made.returncode:
        raise Failed(f'ompdi {" ".join(line)}: status {made.returncode} {made.stdout}')


def elf_of(options, core, folder):
    """The ELF core file of a core file; of an ELF file the file itself."""
    with open(core, 'rb') as file:
        if file.read(4) == b'\x7fELF':
            return core
    elf = os.path.join(folder, os.path.basename(core) + '.elf')
    make(options, 'elf', core, elf)
    return elf


def parsed():
    parser = argparse.ArgumentParser(description=__doc__)
    parser.add_argument('--ompdi', default=os.path.join(ROOT, 'crates', 'ompdi', 'out', 'ompdi'))
    parser.add_argument('--library', default=os.path.join(HERE, os.pardir, 'out', 'libompd.so'))
    parser.add_argument('--examples', default=os.path.join(ROOT, 'examples'),
                        help='where the workloads are that are run where no core is named')
    parser.add_argument('--gdb', default='gdb')
    parser.add_argument('core', nargs='*', help='an ELF core file, or a core file of ompdi')
    return parser.parse_args()


def differs(options, label, core, folder):
    """Whether the two sides differ, or can't be compared, on a core."""
    try:
        return compare(options, label, elf_of(options, core, folder))
    except (Failed, OSError) as failure:
        print(f'{label}: {failure}')
        return True


def main():
    options = parsed()
    with tempfile.TemporaryDirectory() as folder:
        named = ((core, core) for core in options.core)
        try:
            found = [differs(options, label, core, folder)
                     for label, core in (named if options.core else made_cores(options, folder))]
        except (Failed, OSError) as failure:
            print(failure)
            return 1
    return int(any(found))


if __name__ == '__main__':
    sys.exit(main())
