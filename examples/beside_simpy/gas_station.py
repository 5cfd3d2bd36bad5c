"""The gas station of ../gas_station.sigma in SimPy: two pumps take from one tank, and a truck fills it. A tick is half a second.

    /usr/bin/python3 gas_station.py SEED RUNS >REPORT
"""
import random

import simpy

import runs


class Station:
    def __init__(self, env):
        self.env = env
        self.pumps = simpy.Resource(env, capacity=2)
        self.tank = simpy.Container(env, capacity=200, init=200)
        self.filled = self.stayed = self.trucks = 0
        env.process(self.control())
        env.process(self.cars())

    def control(self):
        while True:
            if self.tank.level < 20:
                self.trucks += 1
                yield self.env.timeout(600)
                yield self.tank.put(200 - self.tank.level)
            yield self.env.timeout(20)

    def car(self):
        came = self.env.now
        with self.pumps.request() as pump:
            yield pump
            litres = 50 - random.randint(5, 25)
            yield self.tank.get(litres)
            yield self.env.timeout(litres)
        self.filled += 1
        self.stayed += self.env.now - came

    def cars(self):
        while True:
            yield self.env.timeout(2 * random.randint(30, 300))
            self.env.process(self.car())


def run():
    env = simpy.Environment()
    station = Station(env)
    env.run(until=2000)
    items = {"FILLED": station.filled, "STAYED": station.stayed, "TRUCKS": station.trucks}
    return 2000, {item: (value, "") for item, value in items.items()}


runs.write(run)
