"""The job shop of ../job_shop.sigma in SimPy, with no machine more. A tick is 1/1000 hour.

    /usr/bin/python3 job_shop.py SEED RUNS >REPORT
"""
import random

import simpy

import runs

YEAR = 365 * 8 * 1000
MACHINES = [3, 2, 4, 3, 1]
ROUTES = [
    [(2, 500), (0, 600), (1, 850), (4, 500)],
    [(3, 1100), (0, 800), (2, 750)],
    [(1, 1200), (4, 250), (0, 700), (3, 900), (2, 1000)],
]


def job(env, stations, kind, seen):
    waited = 0
    for station, mean in ROUTES[kind]:
        came = env.now
        with stations[station].request() as turn:
            yield turn
            waited += env.now - came
            yield env.timeout(random.gammavariate(2, mean / 2))
    seen[f"DONE[{kind}]"] += 1
    seen[f"TOTAL[{kind}]"] += waited


def jobs(env, stations, seen):
    while True:
        yield env.timeout(random.expovariate(1 / 250))
        env.process(job(env, stations, random.choices([0, 1, 2], [3, 5, 2])[0], seen))


def run():
    env = simpy.Environment()
    seen = {f"{item}[{kind}]": 0 for kind in range(3) for item in ("DONE", "TOTAL")}
    env.process(jobs(env, [simpy.Resource(env, capacity=count) for count in MACHINES], seen))
    env.run(until=YEAR + 1)
    return YEAR, {item: (value, "") for item, value in seen.items()}


runs.write(run)
