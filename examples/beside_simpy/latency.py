"""The cable of ../latency.sigma in SimPy: what is sent comes ten ticks later. Nothing is random.

    /usr/bin/python3 latency.py SEED RUNS >REPORT
"""
import simpy

import runs


def cable(env, message, far_end):
    yield env.timeout(10)
    far_end.put(message)


def sender(env, far_end):
    while True:
        yield env.timeout(5)
        env.process(cable(env, env.now, far_end))


def receiver(env, far_end, seen):
    while True:
        sent = yield far_end.get()
        seen["RECEIVED"] += 1
        seen["TRAVELLED"] += env.now - sent


def run():
    env = simpy.Environment()
    far_end = simpy.Store(env)
    seen = {"RECEIVED": 0, "TRAVELLED": 0}
    env.process(sender(env, far_end))
    env.process(receiver(env, far_end, seen))
    env.run(until=100)
    return 100, {item: (value, "") for item, value in seen.items()}


runs.write(run)
