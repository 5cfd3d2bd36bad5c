"""Runs a SimPy model many times and writes a report as `sigma replicate` does, for the programs beside it.

Each of them gives `write` a function that makes one run with its own random numbers, and answers the time at which it ended and,
for each item, its last value and the area under its course. The words of the command line are the first seed and how many runs.
"""
import random
import sys


def write(run):
    seed, runs = int(sys.argv[1]), int(sys.argv[2])
    print("run,seed,outcome,time,item,least,greatest,last,area,count")
    totals = {}
    for number in range(runs):
        random.seed(seed + number)
        time, items = run()
        for item, (last, area) in items.items():
            print(f"{number + 1},{seed + number},ended,{time},{item},,,{last},{area},")
            totals[item] = "" if area == "" else totals.get(item, 0) + area
    for item, area in totals.items():
        print(f"total,,,,{item},,,,{area},")


class Level:
    """A number that changes as time goes on, and the area under its course."""

    def __init__(self, env):
        self.env, self.now, self.since, self.area = env, 0, 0, 0

    def add(self, more):
        self.area += self.now * (self.env.now - self.since)
        self.since = self.env.now
        self.now += more

    def seen(self):
        self.add(0)
        return self.now, self.area
