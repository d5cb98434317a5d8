"""What ompdpark prints, line by line: each stop with its numbers of steps and its report, the tasks of the report before, and the events of the
threads. Anything else is `Wrong`."""

import re

ICV = re.compile(r"icv [a-z-]+=\S+( [a-z-]+=\S+)*$")
CONTEXT = re.compile(r"thread (\d+) native (\d+) state \S+ wait \d+ thread-num-var=\S+ current \S+$")
UNBEGUN = re.compile(r"thread (\d+) native (\d+) state idle wait 0 thread-num-var=none current none$|native (\d+) none$")
REGION = re.compile(r"region r\d+\.\d+\.\d+ function 0x[0-9a-f]+ .* enclosing \S+$")
MEMBER = re.compile(r"member \d+ thread \S+ task \S+$")
TASK = re.compile(r"task (k\d+\.\d+\.\d+) thread \d+ kind \S+ .*$")
FATE = re.compile(r"task (k\d+\.\d+\.\d+) (current|stale)$")
STEPS = re.compile(r"thread (\d+) steps (\d+)$")
EVENT = re.compile(r"(\d+) t(\d+) (\S+)( .*)?$")


class Wrong(Exception):
    """What a run printed is not what it should have."""


def script(threads):
    """A workload in which a team of all threads waits at barriers and for a lock, and makes tasks, several times."""
    lines = [f"threads {threads}", "func t", "work", "end", "func c", "work", "work", "end", "func b"]
    lines += ["critical 1 c", "task t", "barrier", "task t", "taskwait", "end", "func main"]
    lines += [f"parallel b num {threads}"] * 3 + ["end"]
    return "\n".join(lines) + "\n"


class Text:
    """The lines that a run printed, taken one after another."""

    def __init__(self, text):
        self.lines, self.at = text.split("\n"), 0
        if self.lines.pop() != "":
            raise Wrong("the last line has no end")

    def peek(self):
        return self.lines[self.at] if self.at < len(self.lines) else ""

    def take(self, form):
        found = form.match(self.peek()) if isinstance(form, re.Pattern) else self.peek() == form
        if not found:
            raise Wrong(f"line {self.at + 1}: {self.peek()!r}")
        self.at += 1
        return found


def counts(text, threads):
    """The numbers of steps of all threads."""
    found = [text.take(STEPS) for _ in range(threads)]
    if [int(it[1]) for it in found] != list(range(threads)):
        raise Wrong("the threads are not in order")
    return [int(it[2]) for it in found]


def report(text, threads):
    """The threads that have begun in a report, and the names of its tasks."""
    begun, tasks = set(), []
    text.take(f"ompd 201811 threads {threads} debug enabled")
    text.take(ICV)
    for thread in range(threads):
        if UNBEGUN.match(text.peek()) and text.peek().startswith("native"):
            text.take(UNBEGUN)
        else:
            text.take(CONTEXT)
            begun.add(thread)
    while REGION.match(text.peek()):
        text.take(REGION)
        while MEMBER.match(text.peek()):
            text.take(MEMBER)
    while TASK.match(text.peek()) and not FATE.match(text.peek()):
        tasks.append(text.take(TASK)[1])
        text.take(ICV)
    return begun, tasks


def judged(printed, threads, stops, budget):
    """The numbers of steps at each stop and at the end."""
    text, seen, before = Text(printed), [], None
    for stop in range(1, stops + 1):
        text.take(f"stop {stop}")
        steps = counts(text, threads)
        begun, tasks = report(text, threads)
        fates = [text.take(FATE)[1] for _ in before or ()]
        if before is not None and fates != before:
            raise Wrong(f"stop {stop}: the lines on tasks are not those of the report before")
        seen.append((steps, begun))
        before = tasks
    last, first_begin = [], {0: 0}
    for thread in range(threads):
        line = text.take(STEPS)
        if int(line[1]) != thread:
            raise Wrong("the threads are not in order")
        last.append(int(line[2]))
        number = 0
        while EVENT.match(text.peek()):
            event = text.take(EVENT)
            if int(event[2]) != thread or not number < int(event[1]) <= last[-1]:
                raise Wrong(f"an event of thread {thread} has a wrong number")
            number = int(event[1])
            if event[3] == "begin":
                first_begin.setdefault(thread, number)
    text.take(f"end budget {budget}")
    if text.peek():
        raise Wrong("there are lines behind the end line")
    for (steps, _), (later, _) in zip(seen, seen[1:] + [(last, None)]):
        if any(n > m for n, m in zip(steps, later)):
            raise Wrong("a number of steps falls")
    for steps, begun in seen:
        wanted = {it for it, at in first_begin.items() if at <= steps[it]}
        if begun != wanted:
            raise Wrong(f"the report has the threads {sorted(begun)}, and {sorted(wanted)} have begun")
    return [steps for steps, _ in seen], last
