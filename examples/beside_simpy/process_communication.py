"""The pipes of ../process_communication.sigma in SimPy: one process sends to each of two others, which are slow at times.

    /usr/bin/python3 process_communication.py SEED RUNS >REPORT
"""
import random

import simpy

import runs


def generator(env, pipes):
    while True:
        yield env.timeout(random.randint(6, 10))
        for pipe in pipes:
            pipe.put(env.now)


def consumer(env, pipe, number, late):
    while True:
        sent = yield pipe.get()
        late[number] += sent < env.now
        yield env.timeout(random.randint(4, 8))


def run():
    env = simpy.Environment()
    pipes = [simpy.Store(env), simpy.Store(env)]
    late = [0, 0]
    env.process(generator(env, pipes))
    for number, pipe in enumerate(pipes):
        env.process(consumer(env, pipe, number, late))
    env.run(until=100)
    return 100, {f"LATE[{number}]": (value, "") for number, value in enumerate(late)}


runs.write(run)
