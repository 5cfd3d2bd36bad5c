"""The cinema of ../movie_renege.sigma in SimPy: those who queue for a movie leave when it is sold out. A tick is 1/100 minute.

    /usr/bin/python3 movie_renege.py SEED RUNS >REPORT
"""
import random

import simpy

import runs


class Cinema:
    def __init__(self, env):
        self.env = env
        self.counter = simpy.Resource(env, capacity=1)
        self.left = [50, 50, 50]
        self.sold_out = [env.event() for _ in range(3)]
        self.when = self.reneged = self.quarrels = 0
        env.process(self.moviegoers())

    def moviegoer(self, movie, wanted):
        with self.counter.request() as turn:
            result = yield turn | self.sold_out[movie]
            if turn not in result:
                self.reneged += 1
            elif self.left[movie] < wanted:
                self.quarrels += 1
                yield self.env.timeout(50)
            else:
                self.left[movie] -= wanted
                if self.left[movie] < 2:
                    self.left[movie] = 0
                    self.when += self.env.now
                    self.sold_out[movie].succeed()
                yield self.env.timeout(100)

    def moviegoers(self):
        while True:
            yield self.env.timeout(random.expovariate(1 / 50))
            movie, wanted = random.randrange(3), random.randint(1, 6)
            if self.left[movie]:
                self.env.process(self.moviegoer(movie, wanted))


def run():
    env = simpy.Environment()
    cinema = Cinema(env)
    env.run(until=12000)
    items = {"RENEGED": cinema.reneged, "WHEN": cinema.when, "QUARREL": cinema.quarrels}
    return 12000, {item: (value, "") for item, value in items.items()}


runs.write(run)
