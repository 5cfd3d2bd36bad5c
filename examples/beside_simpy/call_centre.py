"""The call centre of ../call_centre.sigma in SimPy, with its first staff. A tick is 1/10 second.

Calls come half hour by half hour, with exponential gaps by the rate of each, which begin anew where the rate changes.

    /usr/bin/python3 call_centre.py SEED RUNS >REPORT
"""
import csv
import math
import os
import random

import simpy

import runs

EARLY, LATE = (6, 7, 4), (5, 5, 4)
HALF_HOUR = 18000
SHIFT = 12 * HALF_HOUR
TALKS = [(1800, 1200), (3000, 2000)]

with open(os.path.join(os.path.dirname(os.path.abspath(__file__)), "..", "call_centre.csv"), encoding="utf-8") as file:
    ROWS = [(row["kind"] == "support", int(row["calls"])) for row in csv.DictReader(file)]
RATES = [[calls for support, calls in ROWS if support == kind] for kind in (False, True)]


def lognormal(mean, deviation):
    spread = math.sqrt(math.log(1 + (deviation / mean) ** 2))
    return random.lognormvariate(math.log(mean) - spread * spread / 2, spread)


class Call:
    def __init__(self, kind, came):
        self.kind, self.came, self.waits = kind, came, True
        self.cell = kind + 2 * (came >= SHIFT)


class Centre:
    def __init__(self, env):
        self.env = env
        self.staff = list(EARLY)
        self.busy = [0, 0, 0]
        self.lines = [[], []]
        self.seen = {f"{item}[{cell}]": 0 for cell in range(4) for item in ("COME", "GOOD", "LOST")}
        for kind in (0, 1):
            env.process(self.calls(kind))
        env.process(self.change())

    def calls(self, kind):
        for half_hour, rate in enumerate(RATES[kind]):
            time = half_hour * HALF_HOUR
            while True:
                time += random.expovariate(rate / 36000)
                if time >= (half_hour + 1) * HALF_HOUR:
                    break
                yield self.env.timeout(time - self.env.now)
                self.come(Call(kind, self.env.now))

    def come(self, call):
        self.seen[f"COME[{call.cell}]"] += 1
        for group in (call.kind, 2):
            if self.busy[group] < self.staff[group]:
                self.answer(call, group)
                return
        self.lines[call.kind].append(call)
        self.env.process(self.patience(call))

    def patience(self, call):
        yield self.env.timeout(random.expovariate(1 / 1500))
        if call.waits:
            self.lines[call.kind].remove(call)
            self.seen[f"LOST[{call.cell}]"] += 1

    def answer(self, call, group):
        call.waits = False
        self.busy[group] += 1
        self.seen[f"GOOD[{call.cell}]"] += self.env.now - call.came <= 200.5
        self.env.process(self.talk(call, group))

    def talk(self, call, group):
        yield self.env.timeout(lognormal(*TALKS[call.kind]))
        self.busy[group] -= 1
        self.pick(group)

    def pick(self, group):
        while self.busy[group] < self.staff[group]:
            firsts = [self.lines[kind][0] for kind in (0, 1) if group in (kind, 2) and self.lines[kind]]
            if not firsts:
                return
            call = min(firsts, key=lambda each: each.came)
            self.lines[call.kind].remove(call)
            self.answer(call, group)

    def change(self):
        yield self.env.timeout(SHIFT)
        self.staff = list(LATE)
        for group in range(3):
            self.pick(group)


def run():
    env = simpy.Environment()
    centre = Centre(env)
    env.run()
    return env.now, {item: (value, "") for item, value in centre.seen.items()}


runs.write(run)
