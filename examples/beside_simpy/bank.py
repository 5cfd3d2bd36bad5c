"""The bank of ../bank.sigma in SimPy, for docs/use/from-simpy.md: two tellers, one queue, from opening to closing.

    /usr/bin/python3 bank.py SEED RUNS >REPORT

It writes of QUEUE the rows that `sigma replicate` writes, with time and area, so that `sigma-lab means` reads them. The
random numbers are Python's own, so the days are others. With a third word, `steps`, it writes how many events SimPy made.
"""
import random
import sys

import simpy


class Bank:
    """One day: how many customers wait, the area under the course of that number, and when the last one left."""

    def __init__(self, seed, environment):
        self.gaps = random.Random(2 * seed)
        self.services = random.Random(2 * seed + 1)
        self.day = environment
        self.tellers = simpy.Resource(self.day, capacity=2)
        self.waiting = self.area = self.since = self.end = 0
        self.doors = self.day.process(self.customers())
        self.day.process(self.close())

    def wait(self, more):
        self.area += self.waiting * (self.day.now - self.since)
        self.since = self.day.now
        self.waiting += more

    def customers(self):
        try:
            while True:
                self.day.process(self.customer())
                yield self.day.timeout(self.gaps.randint(1, 6))
        except simpy.Interrupt:
            pass

    def customer(self):
        self.wait(1)
        with self.tellers.request() as teller:
            yield teller
            self.wait(-1)
            yield self.day.timeout(self.services.randint(3, 9))
            self.end = self.day.now

    def close(self):
        yield self.day.timeout(480)
        self.doors.interrupt()
        self.end = self.day.now


class Counted(simpy.Environment):
    """An environment that counts its events."""

    steps = 0

    def step(self):
        Counted.steps += 1
        super().step()


def main(seed, runs, environment):
    print("run,seed,outcome,time,item,least,greatest,last,area,count")
    area = 0
    for number in range(runs):
        bank = Bank(seed + number, environment())
        bank.day.run()
        area += bank.area
        print(f"{number + 1},{seed + number},ended,{bank.end},QUEUE,,,{bank.waiting},{bank.area},")
    print(f"total,,,,QUEUE,,,,{area},")


if sys.argv[3:] == ["steps"]:
    main(int(sys.argv[1]), int(sys.argv[2]), Counted)
    print(Counted.steps, "events", file=sys.stderr)
else:
    main(int(sys.argv[1]), int(sys.argv[2]), simpy.Environment)
