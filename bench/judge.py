"""What `show` answers to the bytes of a core, and `stop` to those of a script: readers of both,
written apart from the program by docs/CORE_FILE.md, docs/MEMORY_LAYOUT.md, docs/REPORT.md and
docs/WORKLOAD.md. bench/fuzz compares the program with them."""
import re, struct

MOST_BYTES = 8390161  # so much of a file is read
MOST_WORDS = 1048576
LEAST, MOST = 0x10000, 1 << 47  # where a segment may start

# What a core file says.


class Refused(Exception):
    """A status other than 0, and the line that comes with it."""

    def __init__(self, status, line):
        super().__init__(line)
        self.status, self.line = status, line


CORE_FAULTS = ['BadMagic', 'Version', 'Order', 'Short', 'TooLarge', 'SegmentOrder', 'BadContext',
               'Trailing']


class Core:
    """The contexts and the segments of a core's bytes."""

    def __init__(self, data):
        self.data, self.at = data[:MOST_BYTES], 0
        for fault, place, wanted in (('BadMagic', 0, b'OMPDCOR1'), ('Version', 8, b'\x01')):
            if self.take(len(wanted)) != wanted:
                self.refuse(place, fault)
        order = self.number(1)
        if order > 1:
            self.refuse(9, 'Order')
        self.form = ('<Q', '>Q')[order]
        count = self.number(2)
        if count > 64:
            self.refuse(10, 'BadContext')
        segments = self.number(4)
        if segments > 64:
            self.refuse(12, 'SegmentOrder')
        self.contexts = []
        for _ in range(count):
            self.contexts.append(self.number(8))
            if self.contexts[-1:] <= self.contexts[-2:-1]:
                self.refuse(self.at - 8, 'BadContext')
        self.segments, self.words, end = [], 0, None
        for _ in range(segments):
            end = self.segment(end)
        if self.at < len(self.data):
            self.refuse(self.at, 'Trailing')

    def segment(self, end):
        start = self.number(8)
        if start % 8 or not LEAST <= start < MOST or (end is not None and start <= end):
            self.refuse(self.at - 8, 'SegmentOrder')
        count = self.number(8)
        if count == 0:
            self.refuse(self.at - 8, 'SegmentOrder')
        if self.words + count > MOST_WORDS:
            self.refuse(self.at - 8, 'TooLarge')
        self.words += count
        self.segments.append((start, start + 8 * count, self.at))
        self.take(8 * count)
        return start + 8 * count

    def refuse(self, place, fault):
        raise Refused(6, f'core {place} {CORE_FAULTS.index(fault) + 1} {fault}')

    def take(self, count):
        if self.at + count > len(self.data):
            self.refuse(len(self.data), 'Short')
        self.at += count
        return self.data[self.at - count:self.at]

    def number(self, count):
        return int.from_bytes(self.take(count), 'little')

    def word(self, addr):
        """The word at an address, or None."""
        addr %= 1 << 64
        if addr % 8 == 0:
            for start, end, place in self.segments:
                if start <= addr < end:
                    return struct.unpack_from(self.form, self.data, place + addr - start)[0]
        return None


# What the words of a core say.

RECORDS = {
    'rt': 'version threads procs debug maxact locks',
    'thread': 'life native cur state claim assign',
    'region': 'life func enclosing encounter size levels active released arrived pending left team',
    'task': 'life implicit region thread number generating scheduling func exit enter dyn nthn'
            ' sched device final tool children refs nth slots',
}
FIELDS = [f'{record}.{name}' for record, names in RECORDS.items() for name in names.split()]
WIDTHS = {'rt.locks': 8, 'task.nth': 4}
SLOTS = {1: 4, 2: 10}  # the width of task.slots, by the version


def symbol(core, wanted):
    """The address of a symbol, or None."""
    count = core.word(LEAST)
    if count is None or count > 16:
        return None
    entries = [[core.word(LEAST + 8 * (1 + 5 * k + j)) for j in range(5)] for k in range(count)]
    if any(word is None for entry in entries for word in entry):
        return None
    name = struct.unpack('<4Q', wanted.encode().ljust(32, b'\0'))
    return next((entry[4] for entry in entries if tuple(entry[:4]) == name), None)


class Layout:
    """The layout that the words of a core publish."""

    def __init__(self, core):
        place = symbol(core, 'omi_layout')
        if place is None:
            raise Refused(8, 'incompatible')
        self.place, self.table = place, []
        for k in range(56):
            word = core.word(place + 8 * k)
            if word is None:
                self.refuse(k)
            self.table.append(word)
        if self.table[0] not in SLOTS:
            raise Refused(8, 'incompatible')
        table = self.table
        self.threads, self.regions, self.tasks = table[5], table[8], table[11]
        self.size = dict(zip(RECORDS, (table[2], table[4], table[7], table[10])))
        self.start = dict(zip(RECORDS, (table[1], table[3], table[6], table[9])))
        self.count = {'rt': 1, 'thread': self.threads, 'region': self.threads * self.regions,
                      'task': self.threads * self.tasks}
        self.offset = {name: table[12 + k] for k, name in enumerate(FIELDS)}
        self.judge_records()
        self.judge_arenas()

    def refuse(self, k):
        raise Refused(7, f'damaged {(self.place + 8 * k) % (1 << 64):#x} layout')

    def width(self, name):
        if name == 'task.slots':
            return SLOTS[self.table[0]]
        return self.threads if name == 'region.team' else WIDTHS.get(name, 1)

    def judge_records(self):
        for k, name in enumerate(FIELDS):
            size = self.size[name.split('.')[0]]
            if self.offset[name] + self.width(name) > size or size > 4096:
                self.refuse(12 + k)
        for record in RECORDS:
            names = [name for name in FIELDS if name.split('.')[0] == record]
            for i, one in enumerate(names):
                for other in names[i + 1:]:
                    first = max(self.offset[one], self.offset[other])
                    if first < min(self.offset[one] + self.width(one),
                                   self.offset[other] + self.width(other)):
                        self.refuse(12 + FIELDS.index(other))

    def judge_arenas(self):
        taken = []
        counts = {'thread': (self.threads, 64), 'region': (self.regions, 64),
                  'task': (self.tasks, 4096)}
        for record, k in zip(RECORDS, (1, 3, 6, 9)):
            start = self.start[record]
            end = start + 8 * self.size[record] * self.count[record]
            count, most = counts.get(record, (1, 1))
            if (start % 8 or start < LEAST or end > MOST or not 1 <= count <= most
                    or any(max(start, a) < min(end, b) for a, b in taken)):
                self.refuse(k)
            taken.append((start, end))

    def index(self, record, addr):
        """The number of the record at an address, or None."""
        at, size = addr - self.start[record], 8 * self.size[record]
        if at < 0 or at % size or at // size >= self.count[record]:
            return None
        return at // size


STATES = {0: 'work_serial', 1: 'work_parallel', 0x11: 'wait_barrier_implicit_parallel',
          0x14: 'wait_barrier_explicit', 0x20: 'wait_taskwait', 0x21: 'wait_taskgroup',
          0x42: 'wait_critical', 0x100: 'idle', 0x101: 'overhead'}
SCHEDULES = {1: 'static', 2: 'dynamic', 3: 'guided', 4: 'auto'}


class Report:
    """The lines of a core, by the reads of its words in their order."""

    def __init__(self, core):
        self.core, self.layout, self.lines = core, Layout(core), []
        self.head()
        current = [task for task in map(self.thread, core.contexts) if task is not None]
        regions = set()
        for _, task in current:
            regions.update(self.outwards(task))
        for region in sorted(regions):
            self.region(region)
        for number, task in current:
            self.chain(number, task)

    def damaged(self, addr, name):
        raise Refused(7, f'damaged {addr:#x} {name}')

    def read(self, record, name, place=0):
        word = self.core.word(record + 8 * (self.layout.offset[name] + place))
        if word is None:
            self.damaged(record, name)
        return word

    def is_live(self, addr, kind):
        if self.layout.index(kind, addr) is None:
            return False
        life = self.core.word(addr + 8 * self.layout.offset[f'{kind}.life'])
        if life is None:
            return False
        return life == 1 if kind == 'thread' else life % 2 == 1 and life < 1 << 33

    def pointer(self, record, name, kind, may_be_none=False, place=0):
        """Where a word leads to, and None where it is 0 and may be."""
        addr = self.read(record, name, place)
        if addr == 0 and may_be_none:
            return None
        if not self.is_live(addr, kind):
            self.damaged(addr, name)
        return addr

    def name(self, addr, kind):
        if addr is None:
            return 'none'
        each = self.layout.regions if kind == 'region' else self.layout.tasks
        creator, slot = divmod(self.layout.index(kind, addr), each)
        generation = self.read(addr, f'{kind}.life') // 2
        return f'{"r" if kind == "region" else "k"}{creator}.{slot}.{generation}'

    def head(self):
        runtime = self.layout.start['rt']
        version, debug = self.read(runtime, 'rt.version'), self.read(runtime, 'rt.debug')
        self.keeps_states = debug != 0
        self.lines.append(f'ompd {version} threads {self.layout.threads} debug '
                          + ('enabled' if self.keeps_states else 'disabled'))
        self.lines.append(f'icv num-procs-var={self.read(runtime, "rt.procs")}'
                          f' max-active-levels-var={self.read(runtime, "rt.maxact")}')

    def found(self, native):
        for i in range(self.layout.threads):
            thread = self.layout.start['thread'] + 8 * self.layout.size['thread'] * i
            if self.read(thread, 'thread.life') == 1:
                if self.read(thread, 'thread.native') == native:
                    return i, thread
        return None

    def thread(self, native):
        """Adds a thread's line; its number and its current task, if it has one."""
        found = self.found(native)
        if found is None:
            self.lines.append(f'native {native} none')
            return None
        i, thread = found
        state, wait = 'untracked', 0
        if self.keeps_states:
            word = self.read(thread, 'thread.state')
            state, wait = STATES.get(word % (1 << 16), f'{word % (1 << 16):#x}'), word >> 16
        task = self.pointer(thread, 'thread.cur', 'task', True)
        number = 'none' if task is None else self.read(task, 'task.number')
        self.lines.append(f'thread {i} native {native} state {state} wait {wait}'
                          f' thread-num-var={number} current {self.name(task, "task")}')
        return None if task is None else (i, task)

    def cycle(self, met, addr):
        if addr in met:
            raise Refused(7, f'cycle {addr:#x}')
        if addr is not None:
            met.append(addr)

    def outwards(self, task):
        region, met = self.pointer(task, 'task.region', 'region'), []
        while region is not None:
            self.cycle(met, region)
            region = self.pointer(region, 'region.enclosing', 'region', True)
        return met

    def region(self, region):
        func, levels = self.read(region, 'region.func'), self.read(region, 'region.levels')
        active, size = self.read(region, 'region.active'), self.read(region, 'region.size')
        if not 1 <= size <= self.layout.threads:
            self.damaged(region, 'region.size')
        enclosing = self.pointer(region, 'region.enclosing', 'region', True)
        self.lines.append(f'region {self.name(region, "region")} function {func:#x}'
                          f' levels-var={levels} active-levels-var={active} team-size-var={size}'
                          f' enclosing {self.name(enclosing, "region")}')
        for j in range(size):
            task = self.pointer(region, 'region.team', 'task', place=j)
            thread = self.layout.index('thread', self.pointer(task, 'task.thread', 'thread'))
            self.lines.append(f'member {j} thread {thread} task {self.name(task, "task")}')

    def chain(self, thread, task):
        met = []
        while task is not None:
            self.cycle(met, task)
            task = self.task(thread, task, met)

    def task(self, thread, task, met):
        kind = 'implicit' if self.read(task, 'task.implicit') else 'explicit'
        region = self.pointer(task, 'task.region', 'region')
        func = self.read(task, 'task.func')
        generating = self.pointer(task, 'task.generating', 'task', True)
        scheduling = self.pointer(task, 'task.scheduling', 'task', True)
        self.cycle(list(met), scheduling)
        exits, enters = self.read(task, 'task.exit'), self.read(task, 'task.enter')
        tool = self.read(task, 'task.tool')
        self.lines.append(
            f'task {self.name(task, "task")} thread {thread} kind {kind}'
            f' region {self.name(region, "region")} function {func:#x}'
            f' generating {self.name(generating, "task")}'
            f' scheduling {self.name(scheduling, "task")}'
            f' exit {exits:#x} enter {enters:#x} tool {tool}')
        self.variables(task)
        return scheduling

    def variables(self, task):
        dynamic, count = self.read(task, 'task.dyn'), self.read(task, 'task.nthn')
        if not 1 <= count <= 4:
            self.damaged(task, 'task.nthn')
        numbers = ','.join(str(self.read(task, 'task.nth', k)) for k in range(count))
        sched = self.read(task, 'task.sched')
        kind = SCHEDULES.get(sched % 8, sched % 8)
        device, final = self.read(task, 'task.device'), self.read(task, 'task.final')
        self.lines.append(
            f'icv dyn-var={dynamic} nthreads-var={numbers} run-sched-var={kind},{sched // 8}'
            f' default-device-var={device} final-task-var={final}'
            f' implicit-task-var={self.read(task, "task.implicit")}')


def shown(data):
    """The status of `show` over these bytes, and what it prints."""
    try:
        return 0, '\n'.join(Report(Core(data)).lines) + '\n'
    except Refused as refused:
        return refused.status, refused.line + '\n'


# What a script says.

SCRIPT_FAULTS = ['NotText', 'UnknownWord', 'BadNumber', 'UnknownName', 'Repeated', 'BarrierInTask',
                 'BarrierNested', 'OverLimit', 'NoMain', 'Unclosed']
KINDS = ('static', 'dynamic', 'guided', 'auto')
HEADS = {'num_threads': 'numbers', 'dynamic': ('true', 'false'), 'max_active_levels': (0, 255),
         'schedule': 'pair', 'device': (0, 255), 'debug': ('enabled', 'disabled'),
         'procs': (1, 65535)}
# Each statement as a word, and what stands behind it: a range, words that are fixed, or F.
STATEMENTS = {'parallel': [['F'], ['F', ('num',), (1, 64)]],
              'task': [['F'] + i + f for i in ([], [('if',), (0, 1)])
                       for f in ([], [('final',), (0, 1)])],
              'critical': [[(0, 7), 'F']], 'taskgroup': [['F']], 'call': [['F']],
              'only': [[(0, 63), 'F']], 'repeat': [[(0, 1000), 'F']],
              'set_num_threads': [[(1, 64)]],
              'set_dynamic': [[(0, 1)]], 'set_max_active_levels': [[(0, 255)]],
              'set_schedule': [[KINDS, (0, 65535)]], 'set_default_device': [[(0, 255)]],
              'tool': [[(0, (1 << 64) - 1)]], 'taskwait': [[]], 'taskyield': [[]], 'barrier': [[]],
              'work': [[]]}


def is_number(word, least, most):
    return re.fullmatch('0|[1-9][0-9]*', word) is not None and least <= int(word[:30]) <= most


class Script:
    """The first faulty line of a text and its least fault, or none."""

    def __init__(self, data):
        self.fault = None
        self.heads, self.functions, self.names, self.open = set(), {}, set(), None
        self.statements = self.number = 0
        if len(data) > 65536:
            self.fault = (1, 'OverLimit')
            return
        lines = data.split(b'\n')
        if lines[-1] == b'':
            lines.pop()
        for self.number, line in enumerate(lines, 1):
            faults = self.line(line)
            if faults:
                self.fault = (self.number, min(faults, key=SCRIPT_FAULTS.index))
                return
        if 'main' not in self.names:
            self.fault = (len(lines) + 1, 'NoMain')
        elif self.open is not None:
            self.fault = (len(lines) + 1, 'Unclosed')

    def line(self, line):
        if any(byte not in b' \t\r' and not 0x21 <= byte <= 0x7e for byte in line):
            return ['NotText']
        words = re.split('[ \t\r]+', line.decode().strip(' \t\r'))
        if words == [''] or words[0].startswith('#'):
            return []
        if self.open is not None:
            return self.close() if words == ['end'] else self.statement(words)
        if words[0] == 'func' and len(words) == 2:
            return self.begin(words[1])
        return self.head(words) if not self.names else ['UnknownWord']

    def head(self, words):
        if words[0] == 'threads' and len(words) == 2:
            kind, faults = 'threads', self.value((1, 64), words[1])
        elif words[0] == 'env' and len(words) == 3 and words[1] in HEADS:
            kind, faults = words[1], self.value(HEADS[words[1]], words[2])
        else:
            return ['UnknownWord']
        if kind in self.heads:
            faults.append('Repeated')
        self.heads.add(kind)
        return faults

    def value(self, form, word):
        if form in ('numbers', 'pair'):
            pieces = word.split(',')
            if '' in pieces:
                return ['UnknownWord']
            if form == 'pair':
                if len(pieces) != 2 or pieces[0] not in KINDS:
                    return ['UnknownWord']
                return self.value((0, 65535), pieces[1])
            bad = len(pieces) > 4 or not all(is_number(piece, 1, 64) for piece in pieces)
            return ['BadNumber'] if bad else []
        if isinstance(form[0], str):
            return [] if word in form else ['UnknownWord']
        return [] if is_number(word, *form) else ['BadNumber']

    def begin(self, name):
        faults = [] if re.fullmatch('[a-z_][a-z_0-9]{0,31}', name) else ['UnknownName']
        if name in self.names:
            faults.append('Repeated')
        if len(self.names) >= 64:
            faults.append('OverLimit')
        self.names.add(name)
        self.open = {'name': name, 'reaches': False, 'depth': 0, 'groups': 0}
        return faults

    def close(self):
        self.functions[self.open['name']] = self.open
        self.open = None
        return []

    def statement(self, words):
        for form in STATEMENTS.get(words[0], []):
            pairs = list(zip(form, words[1:]))
            fixed = [word in part for part, word in pairs
                     if part != 'F' and isinstance(part[0], str)]
            if len(form) == len(words) - 1 and all(fixed):
                return self.judge(words[0], pairs)
        return ['UnknownWord']

    def judge(self, first, pairs):
        faults, named = [], None
        for part, word in pairs:
            if part == 'F':
                named = self.functions.get(word)
                if named is None:
                    faults.append('UnknownName')
            elif not isinstance(part[0], str) and not is_number(word, *part):
                faults.append('BadNumber')
        self.statements += 1
        if self.statements > 4096:
            faults.append('OverLimit')
        if named is not None:
            faults += self.construct(first, named)
        if first == 'barrier':
            self.open['reaches'] = True
        return faults

    def construct(self, first, named):
        faults, depth = [], named['depth'] + (first == 'parallel')
        groups = 0 if first in ('parallel', 'task') else named['groups'] + (first == 'taskgroup')
        if first == 'task' and named['reaches']:
            faults.append('BarrierInTask')
        if first in ('only', 'critical', 'taskgroup') and named['reaches']:
            faults.append('BarrierNested')
        if depth > 15 or groups > 4:
            faults.append('OverLimit')
        if first in ('call', 'only', 'critical', 'repeat', 'taskgroup'):
            self.open['reaches'] |= named['reaches']
        self.open['depth'] = max(self.open['depth'], depth)
        self.open['groups'] = max(self.open['groups'], groups)
        return faults


EVENT = re.compile(r'[1-9]\d* t\d+ (offer|want \d+|ask \d+ (got|busy)|begin|enter|leave|arrive|'
                   r'release|pass|work|ret|done|wait_done|group_begin|group_end|yield|skip|'
                   r'call \d+|seen \d|(un)?lock \d|'
                   r'state \w+ \d+|set [a-z-]+ \S+|tool \d+|set_tool \d+|'
                   r'fork r\S+ size \d+ team( k\S+@\d+)+|join r\S+|'
                   r'(implicit_begin|implicit_end|defer|start|start_now|finish|free) k\S+|free r\S+)')
END = re.compile(r'end steps (\d+) events (\d+) by (steps|done)')


def stopped(text, steps):
    """What is wrong with what `stop` printed of an accepted script, or None."""
    lines = text.split('\n')
    end = END.fullmatch(lines[-2]) if len(lines) > 1 and lines[-1] == '' else None
    if end is None:
        return 'no end line'
    if int(end[1]) > steps or int(end[2]) != len(lines) - 2:
        return 'other counts in the end line'
    if (end[3] == 'steps') != (int(end[1]) == steps and not lines[:-2][-1:] or not
                               lines[:-2][-1:][0].endswith(' done')):
        return 'another end'
    return next((f'no event: {line}' for line in lines[:-2] if not EVENT.fullmatch(line)), None)
