"""Small programs of tasks, as trees and as texts, and which sequences of events they can make: a search through all states of their machine.

A member of an entry is a pair of the entry's number and an index, 0 where the entry is no family. A statement is a tuple:
    ("null",)                             ("call", member)
    ("conditional", member, then, other)  ("timed", member, then, other)
    ("accept", member, statements)        ("abort", task)
    ("select", alternatives, other)       other is the statements of the else part, or None
An alternative of a selective wait is (is_open, what, statements): `what` is ("accept", member, statements), ("delay", duration) or ("terminate",).
The rules are those of docs/MODEL.md, written apart from the program: one action after the other, with queues.
"""
import collections
import random

Program = collections.namedtuple("Program", "entries families bodies")
Task = collections.namedtuple("Task", "standing abnormal frames")
# A frame holds what is left of a list of statements; the innermost stands last. That of an accept body has a caller, and may have an exception pending.
Frame = collections.namedtuple("Frame", "left caller pending")
NO_CALLER = -1
CALLS = ("call", "conditional", "timed")
LETTERS = "RESDCTFXBZ"
# How far sequences are followed, and how many of a program.
EVENTS, LEAVES = 9, 60


def owner_of(program, entry):
    """The task that owns an entry; `entries` has for each task, main first, the numbers of its entries."""
    return next(task for task, entries in enumerate(program.entries) if entry in entries)


# ---- one task


def tidied(frames):
    """Frames that have nothing left are left behind, but those of accept bodies and of the task's body."""
    frames = list(frames)
    while len(frames) > 1 and not frames[-1].left and frames[-1].caller == NO_CALLER:
        frames.pop()
    return tuple(frames)


def behind(frames, statements=()):
    """Behind the next statement, in a list of statements that follows it."""
    last = frames[-1]._replace(left=frames[-1].left[1:])
    return tidied((*frames[:-1], last, *([Frame(tuple(statements), NO_CALLER, False)] if statements else [])))


def raised(frames):
    """With an exception, that no handler takes: at the end of the innermost accept body, where it is pending, or at the end of the task's body."""
    for depth in range(len(frames) - 1, 0, -1):
        if frames[depth].caller != NO_CALLER:
            return (*frames[:depth], Frame((), frames[depth].caller, True))
    return (Frame((), NO_CALLER, False),)


def next_statement(task):
    return task.frames[-1].left[0] if task.frames[-1].left else None


def is_closed(task):
    return task.standing == "completed" or task.abnormal


def open_alternatives(statement):
    return [(place, it) for place, it in enumerate(statement[1]) if it[0]]


def takeable_delays(statement):
    """The delays that may be taken, counted from 1 among all delays: the open ones of the least duration, with their places."""
    counted, delays = 0, []
    for place, (is_open, what, _) in enumerate(statement[1]):
        counted += what[0] == "delay"
        if what[0] == "delay" and is_open:
            delays.append((what[1], counted, place))
    return [(number, place) for duration, number, place in delays if duration == min(it[0] for it in delays)]


def accepts(statement):
    """The members that an accept or a selective wait accepts, each with the place of its alternative."""
    if statement[0] == "accept":
        return {statement[1]: None}
    return {what[1]: place for place, (_, what, _) in open_alternatives(statement) if what[0] == "accept"} if statement[0] == "select" else {}


def is_at_accept(statement):
    return statement is not None and (statement[0] == "accept" or (statement[0] == "select" and (open_alternatives(statement) or statement[2] is not None)))


# ---- the machine


class Machine:
    """A program's machine: states are pairs of tasks and queues, and an action gives another state and its event or none."""

    def __init__(self, program):
        self.program = program

    def start(self):
        return tuple(Task("live", False, (Frame(tuple(body), NO_CALLER, False),)) for body in self.program.bodies), ()

    def actions(self, state):
        """All actions that apply, as (event or none, state behind it)."""
        tasks, queues = state
        for t, task in enumerate(tasks):
            statement = next_statement(task) if task.standing in ("live", "waiting", "queued") else None
            if task.standing == "live":
                yield from self.live(state, t, statement)
            elif task.standing == "queued":
                yield from self.queued(state, t, statement)
            elif task.standing == "waiting":
                yield from self.waiting(state, t, statement)
        if tasks[0].standing == "live" and self.is_at_end(tasks[0]) and all(it.standing == "completed" or self.may_terminate(it) for it in tasks[1:]):
            yield ("Z",), None

    def is_at_end(self, task):
        return len(task.frames) == 1 and not task.frames[0].left

    def may_terminate(self, task):
        return task.standing == "waiting" and next_statement(task)[0] == "select" and any(what[0] == "terminate" for _, (_, what, _) in open_alternatives(next_statement(task)))

    def live(self, state, t, statement):
        tasks, queues = state
        task = tasks[t]
        if statement is None:
            if task.frames[-1].caller != NO_CALLER:
                yield ("E", t), self.finished(state, t)
            elif t > 0:
                yield ("X", t), self.put(state, t, standing="completed")
        elif statement[0] == "null":
            yield None, self.put(state, t, frames=behind(task.frames))
        elif statement[0] == "abort":
            yield ("B", t, statement[1]), self.aborted(state, t, statement[1])
        elif statement[0] in CALLS:
            yield from self.calling(state, t, statement)
        elif is_at_accept(statement):
            yield None, self.put(state, t, standing="waiting")
        else:
            yield None, self.put(state, t, frames=raised(task.frames))

    def calling(self, state, t, statement):
        tasks, queues = state
        owner = owner_of(self.program, statement[1][0])
        if is_closed(tasks[owner]):
            yield ("F", t, *statement[1]), self.put(state, t, frames=raised(tasks[t].frames))
        elif statement[0] == "conditional":
            if self.is_accepted(tasks[owner], statement[1]) and not self.queue(queues, statement[1]):
                yield ("R", t, *statement[1]), self.started(state, t, owner, statement[1])
            else:
                yield ("C", t, *statement[1]), self.put(state, t, frames=behind(tasks[t].frames, statement[3]))
        else:
            yield None, (self.put(state, t, standing="queued")[0], (*queues, (statement[1], t)))

    def queued(self, state, t, statement):
        tasks, queues = state
        owner = owner_of(self.program, statement[1][0])
        if is_closed(tasks[owner]):
            yield ("F", t, *statement[1]), self.put(self.left(state, t), t, standing="live", frames=raised(tasks[t].frames))
            return
        if self.is_accepted(tasks[owner], statement[1]) and self.queue(queues, statement[1])[0] == t:
            yield ("R", t, *statement[1]), self.started(self.left(state, t), t, owner, statement[1])
        if statement[0] == "timed":
            yield ("T", t, *statement[1]), self.put(self.left(state, t), t, standing="live", frames=behind(tasks[t].frames, statement[3]))

    def waiting(self, state, t, statement):
        tasks, queues = state
        if statement[0] == "accept" or any(self.queue(queues, member) for member in accepts(statement)):
            return
        if statement[2] is not None:
            yield ("S", t), self.put(state, t, standing="live", frames=behind(tasks[t].frames, statement[2]))
        for number, place in takeable_delays(statement):
            yield ("D", t, number), self.put(state, t, standing="live", frames=behind(tasks[t].frames, statement[1][place][2]))

    # What actions do.

    def put(self, state, t, **changes):
        tasks, queues = state
        return (*tasks[:t], tasks[t]._replace(**changes), *tasks[t + 1:]), queues

    def queue(self, queues, member):
        return [caller for it, caller in queues if it == member]

    def left(self, state, t):
        return state[0], tuple(it for it in state[1] if it[1] != t)

    def is_accepted(self, owner, member):
        return owner.standing == "waiting" and member in accepts(next_statement(owner))

    def started(self, state, caller, owner, member):
        statement, frames = next_statement(state[0][owner]), state[0][owner].frames
        place = accepts(statement)[member]
        body, after = (statement[2], ()) if place is None else (statement[1][place][1][2], statement[1][place][2])
        inner = (*behind_kept(frames, after), Frame(tuple(body), caller, False))
        return self.put(self.put(state, caller, standing="served"), owner, standing="live", frames=inner)

    def finished(self, state, t):
        frame, frames = state[0][t].frames[-1], tidied(state[0][t].frames[:-1])
        state = self.put(state, t, frames=raised(state[0][t].frames[:-1]) if frame.pending else frames)
        return self.released(state, frame.caller, frame.pending)

    def released(self, state, caller, with_exception):
        """A caller whose rendezvous has ended."""
        task = state[0][caller]
        if task.abnormal:
            return self.put(state, caller, standing="completed", abnormal=False)
        statement = next_statement(task)
        frames = raised(task.frames) if with_exception else behind(task.frames, statement[2] if statement[0] != "call" else ())
        return self.put(state, caller, standing="live", frames=frames)

    def aborted(self, state, t, x):
        if x != t:
            state = self.put(state, t, frames=behind(state[0][t].frames))
        target = state[0][x]
        if is_closed(target):
            return state
        if target.standing == "served":
            state = self.put(state, x, abnormal=True)
        else:
            state = self.put(self.left(state, x), x, standing="completed")
        for frame in target.frames:
            if frame.caller != NO_CALLER:
                state = self.released(state, frame.caller, True)
        return state


def behind_kept(frames, statements):
    """Behind the accept or wait; the frames stay, though nothing may be left in them, while the accept body is open."""
    last = frames[-1]._replace(left=frames[-1].left[1:])
    return (*frames[:-1], last, *([Frame(tuple(statements), NO_CALLER, False)] if statements else []))


class Sequences:
    """All sequences of events that a program can make, by what can come next; None where a search took too many states."""

    def __init__(self, program, most_states):
        self.machine, self.left = Machine(program), most_states
        self.first = self.silent({self.machine.start()})

    def silent(self, states):
        """The states to which actions without events lead; the end of the program is None."""
        reached, new = set(states), list(states)
        while new:
            state = new.pop()
            for event, other in self.machine.actions(state) if state else ():
                if event is None and other not in reached:
                    reached.add(other)
                    new.append(other)
        self.left -= len(reached)
        if self.left < 0:
            raise OverflowError
        return frozenset(reached)

    def following(self, states):
        """What can come next, each event with the states behind it."""
        found = collections.defaultdict(set)
        for state in states:
            for event, other in self.machine.actions(state) if state else ():
                if event is not None:
                    found[event].add(other)
        return {event: self.silent(others) for event, others in found.items()}


# ---- sequences


def line_of(event):
    return " ".join(map(str, event))


def in_order(events):
    return sorted(events, key=lambda event: (LETTERS.index(event[0]), event[1:]))


def sequences_of(found):
    """Sequences to their ends or to the most events, each with what can follow at each place; the first LEAVES in a walk that turns at each place."""
    leaves, open_walks = [], [((), (), found.first)]
    while open_walks and len(leaves) < LEAVES:
        events, places, states = open_walks.pop()
        following = found.following(states)
        if following and len(events) < EVENTS:
            walks = [((*events, event), (*places, set(following)), following[event]) for event in in_order(following)]
            open_walks = [*open_walks, *walks] if len(leaves) % 2 else [*open_walks, *reversed(walks)]
        else:
            leaves.append((events, (*places, set(following))))
    return leaves


# ---- texts


def lines_of(statements, names, families):
    """The text of a list of statements."""
    def called(member):
        entry = names["entries"][member[0]]
        return f"{names['owners'][member[0]]}.{entry}" + (f"({member[1]})" if member[0] in families else "")

    def accepted(member, body):
        head = f"accept {names['entries'][member[0]]}" + (f"({member[1]})" if member[0] in families else "")
        return [head + ";"] if not body else [head + " do", *lines_of(body, names, families), "end;"]

    def alternative(it):
        is_open, what, after = it
        head = {"accept": lambda: accepted(*what[1:]), "delay": lambda: [f"delay {what[1]}.0;"], "terminate": lambda: ["terminate;"]}[what[0]]()
        return [*([] if is_open else ["when FALSE =>"]), *head, *lines_of(after, names, families)]

    for statement in statements:
        if statement[0] == "null":
            yield "null;"
        elif statement[0] == "call":
            yield called(statement[1]) + ";"
        elif statement[0] == "abort":
            yield f"abort {names['tasks'][statement[1]]};"
        elif statement[0] == "accept":
            yield from accepted(*statement[1:])
        elif statement[0] == "select":
            yield "select"
            for place, it in enumerate(statement[1]):
                yield from ["or"] if place else []
                yield from alternative(it)
            if statement[2] is not None:
                yield from ["else", *(list(lines_of(statement[2], names, families)) or ["null;"])]
            yield "end select;"
        else:
            other = ["else"] if statement[0] == "conditional" else ["or", "delay 1.0;"]
            last = list(lines_of(statement[3], names, families)) or (["null;"] if statement[0] == "conditional" else [])
            yield from ["select", called(statement[1]) + ";", *lines_of(statement[2], names, families), *other, *last, "end select;"]


def text_of(program, name="SMALL"):
    count = len(program.bodies)
    names = {"tasks": {t: f"T{t}" for t in range(1, count)}, "entries": {}, "owners": {}}
    for task, entries in enumerate(program.entries):
        for entry in entries:
            names["entries"][entry], names["owners"][entry] = f"E{entry}", f"T{task}"
    lines = [f"procedure {name} is"]
    for task in range(1, count):
        own = [f"entry E{entry}{'(1 .. 2)' if entry in program.families else ''};" for entry in program.entries[task]]
        lines += [f"task T{task} is", *own, f"end T{task};"] if own else [f"task T{task};"]
    for task in range(1, count):
        lines += [f"task body T{task} is", "begin", *(list(lines_of(program.bodies[task], names, program.families)) or ["null;"]), f"end T{task};"]
    return "\n".join([*lines, "begin", *(list(lines_of(program.bodies[0], names, program.families)) or ["null;"]), f"end {name};"]) + "\n"


def header_of(program, form=1, name="SMALL"):
    return f"ded-seq {form} {name} {len(program.bodies) - 1} {sum(map(len, program.entries))}\n"


# ---- programs made at random


def random_program(seed):
    """A small program: two or three tasks beside main, up to three entries, few statements."""
    dice = random.Random(seed)
    count = dice.choice([3, 3, 4])
    entries, number = [[] for _ in range(count)], 0
    for _ in range(dice.choice([1, 2, 2, 3])):
        number += 1
        entries[dice.randrange(1, count)].append(number)
    entries = [sorted(own) for own in entries]
    ordered = [entry for own in entries for entry in own]
    entries = [[ordered.index(entry) + 1 for entry in own] for own in entries]
    families = {entry for entry in range(1, number + 1) if dice.random() < 0.2}
    made = Program(entries, families, [])
    return made._replace(bodies=[random_statements(dice, made, task, 0, ()) for task in range(count)])


def random_statements(dice, made, task, depth, inside):
    return tuple(random_statement(dice, made, task, depth, inside) for _ in range(dice.choice([0, 1, 1, 2, 2, 3] if depth == 0 else [0, 0, 1])))


def random_member(dice, made, entries):
    entry = dice.choice(entries)
    return entry, dice.choice([1, 2]) if entry in made.families else 0


def random_statement(dice, made, task, depth, inside):
    every = [entry for own in made.entries for entry in own]
    own = [entry for entry in made.entries[task] if entry not in inside]
    kinds = ["null", "call", "call", "call", "conditional", "timed"] + ["accept"] * 5 * bool(own) + ["select"] * 4 * bool(own) + ["abort"] * (dice.random() < 0.4)
    kind = dice.choice(kinds)
    if kind == "null":
        return ("null",)
    if kind == "abort":
        return "abort", dice.randrange(1, len(made.entries))
    if kind == "accept":
        member = random_member(dice, made, own)
        return "accept", member, random_statements(dice, made, task, depth + 1, (*inside, member[0]))
    if kind == "select":
        return random_wait(dice, made, task, depth, inside, own)
    member = random_member(dice, made, every)
    return ("call", member) if kind == "call" else (kind, member, random_statements(dice, made, task, depth + 1, inside), random_statements(dice, made, task, depth + 1, inside))


def random_wait(dice, made, task, depth, inside, own):
    def some(more=inside):
        return random_statements(dice, made, task, depth + 1, more)

    members = dice.sample(own, dice.randrange(1, len(own) + 1))
    alternatives = [(dice.random() < 0.85, ("accept", (entry, dice.choice([1, 2]) if entry in made.families else 0), some((*inside, entry))), some()) for entry in members]
    last = dice.choice(["else", "delay", "delays", "terminate", "terminate", "none"])
    if last == "terminate":
        alternatives.append((True, ("terminate",), ()))
    for _ in range({"delay": 1, "delays": 2}.get(last, 0)):
        alternatives.append((dice.random() < 0.85, ("delay", dice.choice([1, 2])), some()))
    return "select", tuple(alternatives), some() if last == "else" else None
