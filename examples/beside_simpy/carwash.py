"""The car wash of ../carwash.sigma in SimPy: two machines, and cars that wait for them. A tick is a minute.

    /usr/bin/python3 carwash.py SEED RUNS >REPORT
"""
import random

import simpy

import runs


class Carwash:
    def __init__(self, env):
        self.env = env
        self.machines = simpy.Resource(env, capacity=2)
        self.queue = runs.Level(env)
        self.washed = self.dirt = 0
        for _ in range(4):
            env.process(self.car())
        env.process(self.cars())

    def car(self):
        self.queue.add(1)
        with self.machines.request() as machine:
            yield machine
            self.queue.add(-1)
            yield self.env.timeout(5)
        self.washed += 1
        self.dirt += random.randint(50, 99)

    def cars(self):
        while True:
            yield self.env.timeout(random.randint(5, 9))
            self.env.process(self.car())


def run():
    env = simpy.Environment()
    wash = Carwash(env)
    env.run(until=20)
    return 20, {"QUEUE": wash.queue.seen(), "WASHED": (wash.washed, ""), "DIRT": (wash.dirt, "")}


runs.write(run)
