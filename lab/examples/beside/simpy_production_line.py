"""The production line in SimPy 2."""

from math import log, sqrt
from random import Random

from SimPy.Simulation import PriorityQ, Process, Resource, Simulation, hold, release, request

SETUPS = [[0, 240, 420], [180, 0, 300], [360, 240, 0]]


class Part(Process):
    def way(self, line, again=False, kind=None):
        kind = line.chance.choices((0, 1, 2), (5, 3, 2))[0] if kind is None else kind
        yield request, self, line.first, 2 if again else 1
        if not again:
            line.new()
        yield hold, self, line.chance.triangular(300, 720, 420)
        yield request, self, line.before
        yield release, self, line.first
        yield request, self, line.second
        yield release, self, line.before
        setup, line.kind = SETUPS[line.kind][kind], kind
        line.setups += setup > 0
        shape = (330 / 80) ** 2
        yield hold, self, setup + line.chance.gammavariate(shape, 330 / shape)
        yield request, self, line.behind
        yield release, self, line.second
        yield request, self, line.third
        yield release, self, line.behind
        yield hold, self, line.chance.weibullvariate(480, 3)
        yield release, self, line.third
        if line.chance.random() < 0.08:
            part = Part(sim=line)
            line.activate(part, part.way(line, True, kind))
        else:
            line.done += 1


class Repair(Process):
    """Takes the first machine before all parts, until it is repaired."""

    def way(self, line, until):
        yield request, self, line.first, 3
        yield hold, self, max(0.0, until - line.now())
        yield release, self, line.first


class Breakdowns(Process):
    def way(self, line):
        variance = log(1 + (1200 / 1800) ** 2)
        while True:
            yield hold, self, line.chance.expovariate(1 / 14400)
            repair = line.chance.lognormvariate(log(1800) - variance / 2, sqrt(variance))
            one = Repair(sim=line)
            line.activate(one, one.way(line, line.now() + repair))
            yield hold, self, repair


class Line(Simulation):
    def new(self):
        part = Part(sim=self)
        self.activate(part, part.way(self))


def run(seed: int, until: float, start: tuple[int, ...]) -> dict[str, float]:
    line = Line()
    line.initialize()
    line.chance, line.kind, line.setups, line.done = Random(seed), 0, 0, 0
    line.first = Resource(qType=PriorityQ, monitored=True, sim=line)
    line.second, line.third = Resource(monitored=True, sim=line), Resource(monitored=True, sim=line)
    line.before, line.behind = (
        Resource(capacity=start[0], monitored=True, sim=line) for _ in range(2)
    )
    line.new()
    breakdowns = Breakdowns(sim=line)
    line.activate(breakdowns, breakdowns.way(line), at=0.0)
    line.simulate(until=until)
    return {
        "parts an hour": line.done / until * 3600,
        "setups an hour": line.setups / until * 3600,
        "third machine busy": line.third.actMon.timeAverage(),
        "in the first buffer": line.before.actMon.timeAverage(),
    }
