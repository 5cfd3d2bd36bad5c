"""The bank of ../bank_renege.sigma in SimPy: customers who leave when they have waited too long. A tick is 1/100 minute.

    /usr/bin/python3 bank_renege.py SEED RUNS >REPORT
"""
import random

import simpy

import runs


def customer(env, counter, seen):
    came = env.now
    with counter.request() as turn:
        result = yield turn | env.timeout(random.uniform(100, 300))
        seen["WAITED"] += env.now - came
        if turn in result:
            yield env.timeout(random.expovariate(1 / 1200))
        else:
            seen["RENEGED"] += 1


def customers(env, counter, seen):
    for _ in range(5):
        env.process(customer(env, counter, seen))
        yield env.timeout(random.expovariate(1 / 1000))


def run():
    env = simpy.Environment()
    seen = {"RENEGED": 0, "WAITED": 0}
    env.process(customers(env, simpy.Resource(env, capacity=1), seen))
    env.run()
    return env.now, {item: (value, "") for item, value in seen.items()}


runs.write(run)
