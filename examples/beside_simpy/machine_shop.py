"""The machine shop of ../machine_shop.sigma in SimPy: ten machines, and a repairman who leaves another job when one of them
breaks down. A tick is 1/100 minute.

    /usr/bin/python3 machine_shop.py SEED RUNS >REPORT
"""
import random

import simpy

import runs

WEEKS = 4 * 7 * 24 * 6000


class Machine:
    def __init__(self, env, repairman):
        self.env = env
        self.repairman = repairman
        self.parts = 0
        self.broken = False
        self.work = env.process(self.working())
        env.process(self.breaking())

    def working(self):
        while True:
            left = max(0, random.normalvariate(1000, 200))
            while left:
                began = self.env.now
                try:
                    yield self.env.timeout(left)
                    left = 0
                except simpy.Interrupt:
                    self.broken = True
                    left -= self.env.now - began
                    with self.repairman.request(priority=1) as turn:
                        yield turn
                        yield self.env.timeout(3000)
                    self.broken = False
            self.parts += 1

    def breaking(self):
        while True:
            yield self.env.timeout(random.expovariate(1 / 30000))
            if not self.broken:
                self.work.interrupt()


def other_jobs(env, repairman, done):
    while True:
        left = 3000
        while left:
            with repairman.request(priority=2) as turn:
                yield turn
                began = env.now
                try:
                    yield env.timeout(left)
                    left = 0
                except simpy.Interrupt:
                    left -= env.now - began
        done.append(env.now)


def run():
    env = simpy.Environment()
    repairman = simpy.PreemptiveResource(env, capacity=1)
    machines = [Machine(env, repairman) for _ in range(10)]
    jobs = []
    env.process(other_jobs(env, repairman, jobs))
    env.run(until=WEEKS)
    return WEEKS, {"PARTS": (sum(machine.parts for machine in machines), ""), "JOBS": (len(jobs), "")}


runs.write(run)
