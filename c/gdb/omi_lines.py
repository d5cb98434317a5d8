"""The lines of `ompd threads`, `parallel`, `task`, `icvs` and `tree`, over a survey."""

from omi_library import ADDRESS_SPACE, PARALLEL, TASK, THREAD, ask, is_refused


def thread_words(survey, native):
    """A thread by its id, and by gdb's own number for it."""
    number = survey.numbers.get(native) if survey.source == "gdb's threads" else None
    return f'thread {native}' + (f' gdb {number}' if number else '')


def thread_lines(survey):
    """Each thread's state, wait id, number in its team, current task and region."""
    yield f'ids of {survey.source}'
    selected = survey.selected()
    for native, thread in survey.threads.items():
        mark = '' if selected is None else '* ' if native == selected else '  '
        line = mark + thread_words(survey, native)
        if is_refused(thread):
            yield f'{line} {thread}'
            continue
        yield (line + survey.state(native)
               + f' thread-num-var {survey.value(thread, THREAD, "thread-num-var")}'
                 f' task {survey.scheduling[native][0]} region {survey.nesting[native][0]}')


def region_lines(survey):
    """The regions of each thread from the innermost outwards, and each region with its team."""
    for native, names in survey.nesting.items():
        yield f'thread {native} regions {" ".join(names)}'
    for name, region in list(survey.regions.handles.items()):
        yield (survey.region_words(name) + ' enclosing '
               + survey.regions.name(ask(survey.session.enclosing, region)))
        team = survey.teams[name]
        if is_refused(team):
            yield f'  members {team}'
            continue
        for number, (native, task) in enumerate(team):
            yield f'  member {number} thread {native} task {task}{survey.state(native)}'


def task_lines(survey):
    """The chains of each thread's current task, and each task that they or a team have."""
    for native in survey.scheduling:
        yield f'thread {native} scheduling {" ".join(survey.scheduling[native])}'
        yield f'thread {native} generating {" ".join(survey.generating[native])}'
    for name, task in list(survey.tasks.handles.items()):
        yield f'task {name} {task_words(survey, task)}{survey.place_of(task)}'


def task_words(survey, task):
    session = survey.session
    function, frames = ask(session.function, task), ask(session.frames, task)
    if not is_refused(function):
        function = hex(function)
    if is_refused(frames):
        frames = f'frames {frames}'
    else:
        frames = ' '.join(f'{side} {address:#x} {side}-flag {flag:#x}'
                          for side, (address, flag) in zip(('exit', 'enter'), frames))
    return (f'implicit-task-var {survey.value(task, TASK, "implicit-task-var")}'
            f' final-task-var {survey.value(task, TASK, "final-task-var")}'
            f' region {survey.regions.name(ask(session.region, task))} function {function}'
            f' generating {survey.tasks.name(ask(session.generating, task))}'
            f' scheduling {survey.tasks.name(ask(session.scheduling, task))}'
            f' {frames} tool {ask(session.tool_data, task)}')


def variable_lines(survey):
    """The control variables of the address space, the threads, the regions and the tasks."""
    yield f'address_space {survey.values(survey.session.space, ADDRESS_SPACE)}'
    for native, thread in survey.threads.items():
        if not is_refused(thread):
            yield f'thread {native} {survey.values(thread.place, THREAD)}'
    for word, scope, names in (('region', PARALLEL, survey.regions), ('task', TASK, survey.tasks)):
        for name, handle in names.handles.items():
            yield f'{word} {name} {survey.values(handle.place, scope)}'
    for number, name, scope in survey.variables:
        if scope not in (ADDRESS_SPACE, THREAD, PARALLEL, TASK):
            yield f'scope {scope} {name} is not asked for'


class Tree:
    """The regions and tasks, each below the task that made it."""

    def __init__(self, survey):
        self.survey, self.below, self.shown = survey, {}, set()
        self.members = {task: (number, native) for team in survey.teams.values()
                        if not is_refused(team) for number, (native, task) in enumerate(team)}
        self.on = {task: native for native, chain in survey.scheduling.items() for task in chain}
        self.current = {chain[0]: native for native, chain in survey.scheduling.items()}
        for region, team in survey.teams.items():
            first = team[0][1] if not is_refused(team) else None
            self.below.setdefault(self.maker(first), []).append(region)
        for task in list(survey.tasks.handles):
            if task not in self.members:
                self.below.setdefault(self.maker(task), []).append(task)

    def maker(self, task):
        """The name of the task that made another one; None where there is none."""
        handle = self.survey.tasks.handles.get(task)
        made = handle and ask(self.survey.session.generating, handle)
        return self.survey.tasks.name(made) if made and not is_refused(made) else None

    def lines(self):
        for name in self.below.get(None, []):
            yield from self.lines_of(name, 0)
        for name in [*self.survey.regions.handles, *self.survey.tasks.handles]:
            if name not in self.shown:  # below a task that is below itself
                yield from self.lines_of(name, 0)

    def lines_of(self, name, depth):
        if name in self.shown:
            return
        self.shown.add(name)
        margin = '  ' * depth
        if name in self.survey.tasks.handles:
            yield margin + self.task_line(name)
            parts = self.below.get(name, [])
        else:
            yield margin + self.survey.region_words(name)
            team = self.survey.teams[name]
            parts = [] if is_refused(team) else [task for _, task in team]
        for part in parts:
            if part in self.survey.tasks.handles or part in self.survey.regions.handles:
                yield from self.lines_of(part, depth + 1)

    def task_line(self, name):
        number, native = self.members.get(name, (None, self.on.get(name)))
        words = [f'task {name}', 'explicit' if number is None else f'member {number}']
        if native is not None and not is_refused(native):
            words.append(thread_words(self.survey, native))
        if name in self.current:
            words.append('current' + self.survey.state(self.current[name]))
        return ' '.join(words) + self.survey.place_of(self.survey.tasks.handles[name])


def tree_lines(survey):
    """The regions and tasks, each below the task that made it, with the threads that have them."""
    return Tree(survey).lines()
