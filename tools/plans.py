#!/usr/bin/env python3
"""A second program for the plan call: the run by its rules, written apart from the planner, and a maximum flow
that does not follow these rules at all. It makes the circles of crates/plans and the lines that program must print.

  tools/plans.py circles   the table of circles, for crates/plans/src/circles.rt
  tools/plans.py lines     what the program prints, for crates/plans/stdout
  tools/plans.py check     both programs on many circles at random: plan exactly where the maximum flow says so
"""
import random
import sys
from collections import deque


def run(weights, may):
    """The run: returns (answer, steps, set, transfers); may[j] is the set of receivers of giver j."""
    n = len(weights)
    x = [[0] * n for _ in range(n)]
    g, r = list(weights), list(weights)
    steps = 0
    while True:
        queue = [j for j in range(n) if g[j] > 0]
        reached = set(queue)
        seen, origin, via, end = set(), {}, {}, None
        at = 0
        while at < len(queue) and end is None:
            j = queue[at]
            at += 1
            for i in sorted(may[j] - seen):
                seen.add(i)
                origin[i] = j
                if r[i] > 0:
                    end = i
                    break
                for k in range(n):
                    if k not in reached and x[k][i] > 0:
                        reached.add(k)
                        via[k] = i
                        queue.append(k)
        if end is None:
            if not any(g):
                return "plan", steps, set(), x
            return "blocked", steps, reached, x
        forward, backward, i = [], [], end
        while True:
            j = origin[i]
            forward.append((j, i))
            if g[j] > 0:
                break
            i = via[j]
            backward.append((j, i))
        d = min([g[j], r[end]] + [x[a][b] for a, b in backward])
        g[j] -= d
        r[end] -= d
        for a, b in forward:
            x[a][b] += d
        for a, b in backward:
            x[a][b] -= d
        steps += 1


def flow(weights, may):
    """The greatest flow from givers to receivers, by depth-first search for any way, biggest first."""
    n = len(weights)
    size = 2 * n + 2
    room = [dict() for _ in range(size)]

    def edge(a, b, c):
        room[a][b] = room[a].get(b, 0) + c
        room[b].setdefault(a, 0)

    for j in range(n):
        edge(2 * n, j, weights[j])
        edge(n + j, 2 * n + 1, weights[j])
        for i in may[j]:
            edge(j, n + i, sum(weights) + 1)
    total = 0
    scale = 1 << max(1, max(weights).bit_length())
    while scale:
        parent = {2 * n: None}
        stack = [2 * n]
        while stack and 2 * n + 1 not in parent:
            a = stack.pop()
            for b, c in room[a].items():
                if b not in parent and c >= scale:
                    parent[b] = a
                    stack.append(b)
        if 2 * n + 1 not in parent:
            scale //= 2
            continue
        way, b = [], 2 * n + 1
        while parent[b] is not None:
            way.append((parent[b], b))
            b = parent[b]
        d = min(room[a][b] for a, b in way)
        for a, b in way:
            room[a][b] -= d
            room[b][a] += d
        total += d
    return total


def words(may):
    return [sum(1 << i for i in receivers) for receivers in may]


def small(rng):
    n = rng.randint(1, 6)
    weights = [rng.choice([0, 1, 2, 3, 5, 7, rng.randint(1, 40), rng.randint(1, 10**9)]) for _ in range(n)]
    share = rng.choice([1.0, 0.8, 0.6, 0.4])
    may = [{i for i in range(n) if i != j and rng.random() < share} for j in range(n)]
    return weights, may


def circles():
    rng = random.Random(1654)
    chosen, plans = [], 0
    while len(chosen) < 36:
        weights, may = small(rng)
        answer, steps, _, _ = run(weights, may)
        if answer == "plan" and steps == 0:
            continue
        if answer == "plan":
            plans += 1
        elif len(chosen) - plans > 17:
            continue
        chosen.append((weights, may))
    return chosen


def families():
    n = 64
    rng = 88172645463325252
    nine = []
    for _ in range(n):
        rng ^= (rng << 13) & (2**64 - 1)
        rng ^= rng >> 7
        rng ^= (rng << 17) & (2**64 - 1)
        nine.append(100_000_000 + rng % 900_000_000)
    everybody = [{i for i in range(n) if i != j} for j in range(n)]
    following = [{(j + 1) % n} for j in range(n)]
    two = [{(j + 1) % n, (j + 2) % n} for j in range(n)]
    return [
        ("64 members without bars", nine, everybody),
        ("64 members who bar all but the next", nine, following),
        ("64 equal members in a ring, to the next", [1_000] * n, following),
        ("64 equal members in a ring, to the next two", [1_000] * n, two),
        ("64 members, one too heavy", [10**12] + [1_000] * (n - 1), everybody),
        ("64 members, one who must get from all others", [63_000] + [1_000] * (n - 1), [set(range(1, n))] + [{0}] * (n - 1)),
    ]


def checksum(x):
    return sum((64 * j + i + 1) * v for j, row in enumerate(x) for i, v in enumerate(row)) % 1_000_000_007


def told(answer, steps, blocking):
    if answer == "plan":
        return f"plan in {steps} steps"
    return f"blocked in {steps} steps by " + " ".join(str(j + 1) for j in sorted(blocking))


def lines():
    for number, (weights, may) in enumerate(circles(), 1):
        answer, steps, blocking, x = run(weights, may)
        print(f"{number}: {told(answer, steps, blocking)}")
        for j, row in enumerate(x):
            for i, v in enumerate(row):
                if v:
                    print(f"  {j + 1} to {i + 1}: {v}")
    for name, weights, may in families():
        answer, steps, blocking, x = run(weights, may)
        print(f"{name}: {told(answer, steps, blocking)}, check {checksum(x)}")


def table():
    for weights, may in circles():
        print("    &[" + ", ".join(map(str, zip(weights, words(may)))) + "],")


def check():
    rng = random.Random(7)
    worst = 0.0
    for _ in range(20000):
        n = rng.randint(1, 9)
        weights = [rng.choice([0, 1, 2, 3, rng.randint(1, 30), rng.randint(1, 10**9)]) for _ in range(n)]
        share = rng.choice([1.0, 0.8, 0.5, 0.3])
        may = [{i for i in range(n) if i != j and rng.random() < share} for j in range(n)]
        answer, steps, blocking, x = run(weights, may)
        assert (answer == "plan") == (flow(weights, may) == sum(weights)), (weights, may)
        if answer == "blocked":
            near = set().union(*(may[j] for j in blocking))
            assert sum(weights[j] for j in blocking) > sum(weights[i] for i in near)
        bound = 2 * n + sum(map(len, may)) * (n - 1)
        assert steps <= bound
        worst = max(worst, steps / bound)
    print(f"20000 circles agree; most steps, as a part of the bound: {worst:.3f}")
    for name, weights, may in families():
        answer, steps, _, _ = run(weights, may)
        n = len(weights)
        print(f"{name}: {answer}, {steps} steps of at most {2 * n + sum(map(len, may)) * (n - 1)}")
        assert (answer == "plan") == (flow(weights, may) == sum(weights))


if __name__ == "__main__":
    {"circles": table, "lines": lines, "check": check}[sys.argv[1]]()
