#!/usr/bin/env python3
"""Programs made at random: small originals whose tasks call, accept, wait, abort and raise, and write what they do.

    bench/random_programs.py SEED      prints the program of that seed

One seed gives one text. Most texts are legal originals; who needs a legal one asks `check`. Each object has an initial value, each loop a name
of its own where it has one, and each exception that is raised by a wrong value is handled without its name, so that compilers agree on them.
"""
import random
import sys

COLORS = ("RED", "GREEN", "BLUE")
# The objects of each unit, with their marks.
OBJECTS = (("N", "INTEGER"), ("S", "SMALL"), ("C", "COLOR"))
MARKS = ("INTEGER", "SMALL", "COLOR")
# Ranges of families and of arrays of tasks, each with indices that are static and within it.
FAMILIES = {
    "1 .. 3": ("1", "2", "3"),
    "INTEGER range -1 .. 1": ("-1", "0", "1"),
    "SMALL range 2 .. 4": ("2", "LIMIT", "4"),
    "COLOR": COLORS,
    "COLOR range GREEN .. BLUE": COLORS[1:],
    "BOOLEAN": ("FALSE", "TRUE"),
}


class Entry:
    def __init__(self, name, family, formals):
        self.name, self.family, self.formals = name, family, formals

    def heading(self):
        formals = "; ".join(f"{name} : {mode} {mark}" for name, mode, mark in self.formals)
        return f"({formals})" if formals else ""


class Unit:
    """The main program or a task or array of tasks: its names, its range, its entries, and whether it serves them in a loop without end."""

    def __init__(self, name, called, family, entries, is_server):
        self.name, self.called, self.family, self.entries, self.is_server = name, called, family, entries, is_server


class Maker:
    def __init__(self, seed):
        self.seed, self.dice, self.count, self.units = seed, random.Random(seed), 0, []

    def chance(self, percent):
        return self.dice.randrange(100) < percent

    def any(self, *ways):
        return ways[self.dice.randrange(len(ways))]

    def fresh(self, letter):
        self.count += 1
        return f"{letter}{self.count}"

    # Expressions. A scope is a list of readable names with their marks.

    def number(self, scope, depth=0):
        names = [name for name, mark in scope if mark != "COLOR"]
        way = self.dice.randrange(9 if depth < 2 else 5)
        if way < 2:
            return str(self.dice.randrange(8))
        if way < 4:
            return self.any(*names)
        if way == 4:
            return self.any("LIMIT", f"ROW({self.any('1', '2', '3', self.any(*names))})", f"COLOR'POS({self.color(scope, depth + 1)})")
        left, right = self.number(scope, depth + 1), self.number(scope, depth + 1)
        if way == 5:
            return f"({left} {self.any('mod', 'rem', '/')} {self.any('2', '3', '5') if self.chance(85) else '(' + right + ')'})"
        return f"({left} {self.any('+', '-', '*')} {right})"

    def color(self, scope, depth=0):
        names = [name for name, mark in scope if mark == "COLOR"]
        return self.any(*COLORS, *names, f"COLOR'SUCC({names[0]})", f"COLOR'VAL({self.number(scope, depth + 1)} mod 3)")

    def value(self, mark, scope):
        if mark == "COLOR":
            return self.color(scope)
        return f"({self.number(scope)}) mod 8" if mark == "SMALL" and self.chance(70) else self.number(scope)

    def condition(self, scope):
        test = f"{self.number(scope)} {self.any('=', '/=', '<', '<=', '>', '>=')} {self.number(scope)}"
        other = f"{self.color(scope)} {self.any('=', '/=')} {self.color(scope)}"
        return self.any(test, test, other, f"{test} {self.any('and', 'or else', 'xor')} {other}", f"not ({other})")

    def index(self, family, scope):
        """An index of a family, mostly within its range."""
        if self.chance(50):
            return self.any(*FAMILIES[family])
        if family.startswith("COLOR"):
            return self.color(scope)
        if family == "BOOLEAN":
            return self.condition(scope)
        low = {"1 .. 3": "1", "SMALL range 2 .. 4": "2"}.get(family, "(-1)")
        return self.any(f"({self.number(scope)}) mod 3 + {low}", f"({self.number(scope)}) mod 3 + {low}", self.number(scope))

    def callee(self, unit, scope):
        return f"{unit.called}({self.index(unit.family, scope)})" if unit.family else unit.called

    # Statements. `at` says where they stand: the unit, the scope, the entries of the accepts around, how deep, and in a loop or not.

    def statements(self, at, most):
        return [line for _ in range(1 + self.dice.randrange(most)) for line in self.statement(at)]

    def inside(self, at, most=2, **changes):
        return indented(self.statements({**at, "depth": at["depth"] + 1, **changes}, most))

    def statement(self, at):
        simple = [self.put] * 5 + [self.assign] * 4 + [self.call] * (2 if at["unit"].is_server else 8) + [self.small] * 2
        compound = [self.branch, self.choice, self.count_up, self.count_up, self.while_loop, self.block, self.select_call, self.select_call]
        if [it for it in at["unit"].entries if it not in at["open"]] and (not at["unit"].is_server or self.chance(10)):
            simple, compound = simple + [self.accept] * 4, compound + [self.wait] * 4
        return self.any(*(simple + compound if at["depth"] < 3 else simple))(at)

    def put(self, at):
        scope, word = at["scope"], f"{at['unit'].name}{self.dice.randrange(100)}"
        return self.any(
            [f'PUT_LINE("{word}");'],
            [f"PUT_LINE(\"{word} \" & INTEGER'IMAGE({self.number(scope)}));"],
            [f"PUT(COLOR'IMAGE({self.color(scope)}));", "NEW_LINE;"],
            [f"PUT({self.number(scope)});", f'PUT(" {word}");', "NEW_LINE;"],
        )

    def assign(self, at):
        name, mark = self.any(*at["targets"], *OBJECTS)
        if self.chance(15):
            return [f"ROW({self.index('1 .. 3', at['scope'])}) := {self.value('SMALL', at['scope'])};"]
        return [f"{name} := {self.value(mark, at['scope'])};"]

    def small(self, at):
        others = [it for it in self.units if it is not at["unit"]]
        ways = [["null;"], ["delay 0.25;"]]
        if at["loop"]:
            ways += [[f"exit when {self.condition(at['scope'])};"]] * 3
        if self.chance(30):
            ways += [["raise OOPS;"], ["raise PROGRAM_ERROR;"], ["GET(N);"]]
        if others and self.chance(50):
            names = [self.callee(self.any(*others), at["scope"]) for _ in range(self.any(1, 1, 2))]
            ways += [[f"abort {', '.join(names)};"]] * 2
        return self.any(*ways)

    def branch(self, at):
        lines = [f"if {self.condition(at['scope'])} then", *self.inside(at)]
        if self.chance(30):
            lines += [f"elsif {self.condition(at['scope'])} then", *self.inside(at)]
        if self.chance(50):
            lines += ["else", *self.inside(at)]
        return [*lines, "end if;"]

    def choice(self, at):
        if self.chance(50):
            arms = ["   when RED =>", *indented(self.inside(at, 1)), "   when GREEN | BLUE =>", *indented(self.inside(at, 1))]
            return [f"case {self.color(at['scope'])} is", *arms, "end case;"]
        arms = ["   when 0 | 2 .. 3 =>", *indented(self.inside(at, 1)), "   when others =>", *indented(self.inside(at, 1))]
        return [f"case ({self.number(at['scope'])}) mod 5 is", *arms, "end case;"]

    def count_up(self, at):
        name = self.fresh("I")
        range_of = self.any("1 .. 2", "1 .. 2", "reverse 1 .. 3", "0 .. N mod 3", "COLOR", "COLOR range GREEN .. C", "SMALL range S .. 2")
        mark = "COLOR" if range_of.startswith("COLOR") else "INTEGER"
        body = self.inside(at, loop=True, scope=[*at["scope"], (name, mark)])
        title = self.fresh("L") if self.chance(30) else ""
        body += [f"   exit {title} when {self.condition([*at['scope'], (name, mark)])};"] if title else []
        return [f"{title + ' : ' if title else ''}for {name} in {range_of} loop", *body, f"end loop{' ' * bool(title)}{title};"]

    def while_loop(self, at):
        test = f"N < {self.any('3', '5')} and then ({self.condition(at['scope'])})"
        return [f"while {test} loop", *self.inside(at, loop=True), "   N := N + 1;", "end loop;"]

    def handlers(self, at, most):
        lines = ["exception"]
        if self.chance(40):
            lines += ["   when OOPS =>", *indented(self.inside(at, most))]
        if self.chance(30):
            lines += ["   when TASKING_ERROR | PROGRAM_ERROR =>", *indented(self.inside(at, most))]
        return [*lines, "   when others =>", *indented(self.inside(at, most))]

    def block(self, at):
        again = [["   raise;"]] if self.chance(10) else [[]]
        return ["begin", *self.inside(at, 3), *self.handlers({**at, "depth": at["depth"] + 1}, 1), *indented(again[0]), "end;"]

    def called(self, at):
        """A call of an entry of another unit, or nothing."""
        others = [(unit, entry) for unit in self.units if unit is not at["unit"] for entry in unit.entries]
        # A server calls servers behind it, so that calls seldom go round.
        behind = self.units[self.units.index(at["unit"]) + 1 :] if at["unit"].is_server else self.units
        served = [it for it in others if it[0].is_server and it[0] in behind]
        others = served if self.chance(85) else others
        if not others:
            return None
        unit, entry = self.any(*others)
        callee = self.callee(unit, at["scope"])
        family = f"({self.index(entry.family, at['scope'])})" if entry.family else ""
        actuals = [self.value(mark, at["scope"]) if mode == "in" else self.target(mode, mark, at) for _, mode, mark in entry.formals]
        return f"{callee}.{entry.name}{family}" + (f"({', '.join(actuals)})" if actuals else "") + ";"

    def target(self, mode, mark, at):
        """An object or formal that may be an actual of the mode; an out formal is not read, so it is none of in out."""
        targets = [*OBJECTS, *at["targets"]]
        return self.any(*(name for name, its in targets if its == mark and (mode == "out" or (name, its) in at["scope"])))

    def call(self, at):
        call = self.called(at)
        return [call] if call else self.put(at)

    def select_call(self, at):
        call = self.called(at)
        if not call:
            return self.put(at)
        after = self.inside(at, 1) if self.chance(70) else []
        if self.chance(50):
            return ["select", f"   {call}", *after, "else", *self.inside(at, 1), "end select;"]
        return ["select", f"   {call}", *after, "or", f"   delay {self.any('0.5', '1.0')};", *self.inside(at, 1), "end select;"]

    def accept(self, at, entry=None):
        entry = entry or self.any(*[it for it in at["unit"].entries if it not in at["open"]])
        family = f"({self.index(entry.family, at['scope'])})" if entry.family else ""
        heading = f"accept {entry.name}{family}{entry.heading()}"
        outs = [(name, mark) for name, mode, mark in entry.formals if mode != "in"]
        if not outs and self.chance(30):
            return [f"{heading};"]
        scope = [*at["scope"], *((name, mark) for name, mode, mark in entry.formals if mode != "out")]
        # An out formal has a value at once, since what it holds before is open in the standard.
        firsts = [f"{name} := {self.value(mark, at['scope'])};" for name, mode, mark in entry.formals if mode == "out"]
        body = self.inside(at, 2, scope=scope, open=[*at["open"], entry], targets=[*at["targets"], *outs], loop=False)
        return [f"{heading} do", *indented(firsts), *body, f"end {entry.name};"]

    def wait(self, at, last=None):
        own = [it for it in at["unit"].entries if it not in at["open"]]
        lines = []
        for entry in self.dice.sample(own, 1 + self.dice.randrange(len(own))) if not last else own:
            after = self.statements({**at, "depth": at["depth"] + 1}, 1) if self.chance(50) else []
            taken = indented([*self.accept(at, entry), *after])
            guard = [f"   when {self.condition(at['scope'])} =>"] if at["guards"] and self.chance(20) else []
            lines += ["or" if lines else "select", *guard, *(indented(taken) if guard else taken)]
        last = last or self.any("", "else", "delay", "terminate")
        if last == "else":
            lines += ["else", *self.inside(at, 1)]
        elif last == "delay":
            for time in self.dice.sample(("0.5", "1.0", "2.0"), 1 + self.dice.randrange(2)):
                lines += ["or", f"   delay {time};", *(self.inside(at, 1) if self.chance(60) else [])]
        elif last == "terminate":
            lines += ["or", "   terminate;"]
        return [*lines, "end select;"]

    # Units.

    def objects(self):
        row = ", ".join(str(self.dice.randrange(8)) for _ in range(3))
        return [
            f"N : INTEGER := {self.dice.randrange(5)};",
            f"S : SMALL := {self.dice.randrange(8)};",
            f"C : COLOR := {self.any(*COLORS)};",
            f"ROW : array (1 .. 3) of SMALL := ({row});",
        ]

    def body(self, unit):
        at = {"unit": unit, "scope": list(OBJECTS), "open": [], "targets": [], "depth": 0, "loop": False, "guards": True}
        lines = self.statements(at, 2 if unit.is_server else 6)
        if unit.is_server:
            # What a shut wait raises is not handled in the loop, which would turn for ever.
            is_handled = self.chance(60)
            turn = self.wait({**at, "depth": 2, "loop": True, "guards": not is_handled}, "terminate")
            if is_handled:
                turn = ["begin", *indented(turn), *self.handlers({**at, "depth": 2, "loop": True}, 1), "end;"]
            lines += ["loop", *indented(turn), "end loop;"]
        return ["begin", *indented(lines), *(self.handlers({**at, "depth": 2}, 1) if self.chance(70) else [])]

    def unit(self, name, called, family, role):
        """A task: a server, one that accepts as it goes, or one without entries."""
        entries = self.entries(self.any(1, 1, 2, 2, 3)) if role != "client" else []
        return Unit(name, called, family, entries, role == "server")

    def entries(self, count):
        found = []
        for _ in range(count):
            formals = [(self.fresh("X"), self.any("in", "out", "in out"), self.any(*MARKS)) for _ in range(self.any(0, 0, 1, 1, 2))]
            found.append(Entry(self.fresh("E"), self.any("", "", "", "", "", *FAMILIES), formals))
        return found

    def program(self):
        roles = ["server"] * self.any(1, 1, 2) + ["client"] * self.any(1, 1, 2, 2, 3) + ["mixed"] * self.any(0, 1, 1)
        self.dice.shuffle(roles)
        self.units = [self.unit(f"T{place + 1}", f"T{place + 1}", "", role) for place, role in enumerate(roles)]
        heads = []
        if self.chance(30):
            self.units.append(self.unit("KIND", "TEAM", self.any("", *FAMILIES), self.any("server", "client", "mixed")))
        main = Unit(f"G{self.seed}", "", "", [], False)
        for unit in self.units:
            entries = [f"   entry {it.name}{f'({it.family})' if it.family else ''}{it.heading()};" for it in unit.entries]
            word = f"task {'type ' if unit.name == 'KIND' else ''}{unit.name}"
            heads += [f"{word} is", *entries, f"end {unit.name};"] if entries else [f"{word};"]
        if self.units[-1].name == "KIND":
            heads.append(f"TEAM : array ({self.units[-1].family}) of KIND;" if self.units[-1].family else "TEAM : KIND;")
        bodies = []
        for unit in self.units:
            bodies += [f"task body {unit.name} is", *indented(self.objects()), *self.body(unit), f"end {unit.name};"]
        declared = [
            "package INT_IO is new INTEGER_IO(INTEGER); use INT_IO;",
            "LIMIT : constant := 3;",
            "subtype SMALL is INTEGER range 0 .. 7;",
            "type COLOR is (RED, GREEN, BLUE);",
            "OOPS : exception;",
        ]
        head = ["with TEXT_IO; use TEXT_IO;", f"procedure {main.name} is", *indented([*declared, *self.objects(), *heads, *bodies])]
        return "\n".join([*head, *self.body(main), f"end {main.name};"]) + "\n"


def indented(lines):
    return [f"   {line}" for line in lines]


def program(seed):
    return Maker(seed).program()


if __name__ == "__main__":
    if len(sys.argv) != 2 or not sys.argv[1].isdigit():
        sys.exit(__doc__)
    sys.stdout.write(program(int(sys.argv[1])))
