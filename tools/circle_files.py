#!/usr/bin/env python3
"""A second program for circle files, written apart from the crates: it reads a file and prints what the programs
`plan` and `outlook` must print. The shape is judged by an automaton that knows nothing of lines or tokens.

  tools/circle_files.py plan FILE       the money answer
  tools/circle_files.py outlook FILE    the drift answer
  tools/circle_files.py fault FILE      layer, refusal and place, or 'taken'
  tools/circle_files.py expect FOLDER   writes NAME.plan and NAME.outlook beside each NAME.circle
"""
import os
import sys
from functools import total_ordering

sys.path.insert(0, os.path.dirname(os.path.abspath(__file__)))
import plans

TRILLION = 10**12


class Automaton:
    """States are numbers; a step by a set of bytes, or an empty step, leads from one to the next."""

    def __init__(self):
        self.steps, self.empty = [], []

    def state(self):
        self.steps.append([])
        self.empty.append([])
        return len(self.steps) - 1

    def text(self, at, text):
        for byte in text.encode():
            at = self.one(at, {byte})
        return at

    def one(self, at, bytes_):
        to = self.state()
        self.steps[at].append((bytes_, to))
        return to

    def skip(self, at, to):
        self.empty[at].append(to)

    def number(self, at):
        end = self.state()
        self.skip(self.one(at, {48}), end)
        now = self.one(at, set(range(49, 58)))
        self.skip(now, end)
        for _ in range(18):
            now = self.one(now, set(range(48, 58)))
            self.skip(now, end)
        return end

    def line(self, at, word, numbers):
        now = self.text(at, "(" + word)
        for _ in range(numbers):
            now = self.number(self.text(now, " "))
        return self.text(now, ")\n")

    def bar(self, at):
        now = self.text(self.number(self.text(at, "(bar ")), " (")
        now = self.number(now)
        again = self.number(self.text(now, " "))
        self.skip(again, now)
        return self.text(now, "))\n")

    def closure(self, states):
        todo, seen = list(states), set(states)
        while todo:
            for to in self.empty[todo.pop()]:
                if to not in seen:
                    seen.add(to)
                    todo.append(to)
        return seen

    def step(self, states, byte):
        return self.closure({to for s in states for bytes_, to in self.steps[s] if byte in bytes_})


def grammar():
    a = Automaton()
    start = a.state()
    now = a.text(start, "(circle\n")
    now = a.line(now, "base", 1)
    now = a.line(now, "value", 1)
    rows = a.line(now, "row", 3)
    a.skip(a.line(rows, "row", 3), rows)
    members = a.line(rows, "member", 2)
    a.skip(a.line(members, "member", 2), members)
    bars = a.state()
    a.skip(members, bars)
    a.skip(a.bar(bars), bars)
    return a, start, a.text(bars, ")\n")


A, START, WHOLE = grammar()
KNOWN = {byte for steps in A.steps for bytes_, _ in steps for byte in bytes_}


class Fault(Exception):
    pass


def fall(odds, f):
    return (odds * f + 500_000) // 1_000_000


class File:
    """What the lines of a file have said so far."""

    def __init__(self):
        self.base = self.value = None
        self.rows, self.members, self.bars = {}, [], set()
        self.total, self.last_age, self.last_giver = 0, None, None

    def rates(self, age):
        odds, f = self.rows[age]
        for _ in range(self.value - self.base):
            odds -= fall(odds, f)
        return odds, -fall(odds, f)

    def judge(self, line, at):
        """One well-shaped line that begins at place `at`."""
        words = line.replace(b"(", b" ").replace(b")", b" ").replace(b"\n", b" ")
        numbers, place = [], 0
        for word in words.split(b" "):
            if word.isdigit():
                numbers.append((int(word), at + place))
            place += len(word) + 1
        name = words.split()[0] if words.split() else b""
        if name == b"base":
            self.need(1900 <= numbers[0][0] <= 2200, 3, numbers[0])
            self.base = numbers[0][0]
        elif name == b"value":
            self.need(self.base <= numbers[0][0] <= self.base + 100, 3, numbers[0])
            self.value = numbers[0][0]
        elif name == b"row":
            age, odds, f = numbers
            self.need(age[0] <= 120 and (self.last_age is None or self.last_age < age[0]), 4, age)
            self.need(1 <= odds[0] <= 999_999, 4, odds)
            self.need(f[0] <= 100_000, 4, f)
            self.last_age = age[0]
            self.rows[age[0]] = (odds[0], f[0])
        elif name == b"member":
            self.need(len(self.members) < 64, 7, (None, at))
            age, stake = numbers
            self.need(age[0] in self.rows, 5, age)
            self.need(1 <= stake[0] <= TRILLION and self.total + stake[0] <= TRILLION, 6, stake)
            self.total += stake[0]
            self.members.append((stake[0],) + self.rates(age[0]))
        elif name == b"bar":
            giver, receivers = numbers[0], numbers[1:]
            self.need(1 <= giver[0] <= len(self.members) and (self.last_giver is None or self.last_giver < giver[0]), 8, giver)
            before = 0
            for receiver in receivers:
                self.need(1 <= receiver[0] <= len(self.members) and receiver[0] != giver[0] and receiver[0] > before, 8, receiver)
                before = receiver[0]
                self.bars.add((giver[0] - 1, receiver[0] - 1))
            self.last_giver = giver[0]

    def need(self, good, refusal, number):
        if not good:
            raise Fault("circle", refusal, number[1])


def read(data):
    if len(data) > 32_768:
        raise Fault("byte", 1, 32_768)
    furthest, states, after = 0, A.closure({START}), []
    for byte in data:
        states = A.step(states, byte)
        if not states:
            break
        furthest += 1
        after.append(states)
    file, at = File(), 0
    while True:
        end = data.find(b"\n", at, furthest) + 1
        if end == 0:
            break
        file.judge(data[at:end], at)
        at = end
    if furthest == len(data) and after and WHOLE in after[-1]:
        return file
    known = furthest == len(data) or data[furthest] in KNOWN
    raise Fault("form" if known else "byte", 2, furthest)


@total_ordering
class Drift:
    """A weight with its yearly change, as `plans.run` needs it."""

    def __init__(self, weight, change):
        self.weight, self.change = weight, change

    @staticmethod
    def of(other):
        return other if isinstance(other, Drift) else Drift(other, 0)

    def __add__(self, other):
        other = Drift.of(other)
        return Drift(self.weight + other.weight, self.change + other.change)

    __radd__ = __add__

    def __sub__(self, other):
        return Drift(self.weight - other.weight, self.change - other.change)

    def pair(self):
        return self.weight, self.change

    def __eq__(self, other):
        return self.pair() == Drift.of(other).pair()

    def __lt__(self, other):
        return self.pair() < Drift.of(other).pair()

    def __bool__(self):
        return self.pair() != (0, 0)

    def __str__(self):
        return f"{self.weight} {self.change}"


def answer(file, letter):
    n = len(file.members)
    if letter == "m":
        weights = [balance * odds for balance, odds, _ in file.members]
    else:
        weights = [Drift(balance * odds, balance * change) for balance, odds, change in file.members]
    may = [{i for i in range(n) if i != j and (j, i) not in file.bars} for j in range(n)]
    kind, steps, named, x = plans.run(weights, may)
    lines = [f"({kind} {letter} {steps}"]
    if kind == "plan":
        lines += [f"(give {j + 1} {i + 1} {x[j][i]})" for j in range(n) for i in range(n) if x[j][i] > 0]
    else:
        lines += [f"(set {j + 1})" for j in sorted(named)]
    return "\n".join(lines + [")", ""])


def output(data, letter):
    try:
        return answer(read(data), letter)
    except Fault as fault:
        return f"(refused {fault.args[1]} {fault.args[2]})\n"


def main():
    job, path = sys.argv[1:]
    if job == "expect":
        for name in sorted(os.listdir(path)):
            if name.endswith(".circle"):
                data = open(os.path.join(path, name), "rb").read()
                for letter, end in (("m", ".plan"), ("d", ".outlook")):
                    open(os.path.join(path, name[:-7] + end), "w").write(output(data, letter))
        return
    data = open(path, "rb").read()
    if job == "fault":
        try:
            read(data)
            print("taken")
        except Fault as fault:
            print(*fault.args)
    else:
        sys.stdout.write(output(data, {"plan": "m", "outlook": "d"}[job]))


if __name__ == "__main__":
    main()
