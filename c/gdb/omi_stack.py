"""The lines of `ompd bt`: the stack of the selected thread by the frames of its tasks.

A task's own frames are those from the frame in which its enter frame lies (where there is one: else
the task is in its own code) to the one before that in which its exit frame lies, by which the
runtime began it. What lies between two tasks is the runtime's, and so is what a task calls of the
shared library that began it."""

import gdb

from omi_library import ask, is_refused
from omi_lines import thread_words


def frames():
    """The frames of the selected thread, the newest first, each with the address where it ends."""
    frame = gdb.newest_frame()
    while frame is not None:
        older = frame.older()
        yield frame, None if older is None else int(older.read_register('sp')) % (1 << 64)
        frame = older


def frame_line(frame):
    line, name = frame.find_sal(), frame.name() or '??'
    place = f' at {line.symtab.filename}:{line.line}' if line.symtab else ''
    return f'#{frame.level():<3} {frame.pc():#x} in {name}{place}'


def is_within(end, address):
    """Whether an address is in a frame or in an older one, by the frame's end."""
    return end is None or end > address


def runtime_libraries(stack, bounds):
    """The shared libraries whose frames begin tasks."""
    found = (next((frame for frame, end in stack if is_within(end, leave)), None)
             for _, leave in bounds if leave)
    return {gdb.solib_name(frame.pc()) for frame in found if frame} - {None}


def parts(stack, bounds):
    """Of each pair of frames, enter and exit, the frames of the task."""
    runtime, at = runtime_libraries(stack, bounds), 0
    for enter, leave in bounds:
        while enter and at < len(stack) and not is_within(stack[at][1], enter):
            at += 1
        part = []
        while at < len(stack) and not (leave and is_within(stack[at][1], leave)):
            frame, at = stack[at][0], at + 1
            part = [] if gdb.solib_name(frame.pc()) in runtime else [*part, frame]
        yield part
        at += 1  # the frame by which the runtime began the task


def stack_lines(survey):
    """The backtrace of the selected thread without the frames of the runtime, each part with its
    task and region."""
    native = survey.selected()
    if native not in survey.scheduling:
        raise gdb.GdbError('the selected thread is no thread of OpenMP')
    yield thread_words(survey, native) + survey.state(native)
    tasks = [name for name in survey.scheduling[native] if name in survey.tasks.handles]
    handles = [survey.tasks.handles[name] for name in dict.fromkeys(tasks)]
    found = [ask(survey.session.frames, handle) for handle in handles]
    bounds = [(both[1][0], both[0][0]) for both in found if not is_refused(both)]
    stack = list(frames())
    for name, handle, part in zip(tasks, handles, parts(stack, bounds)):
        region = survey.regions.name(ask(survey.session.region, handle))
        yield f'task {name} region {region}{survey.place_of(handle)}'
        yield from map(frame_line, part)
    if not tasks:
        yield 'it has no task: all frames are the runtime\'s'
