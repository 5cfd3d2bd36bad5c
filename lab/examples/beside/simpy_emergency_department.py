"""The emergency department in SimPy 2: its Resource has no shifts, so the doctors are a pool of our own."""

import bisect
from math import inf, log, sqrt
from random import Random

from SimPy.Simulation import (
    Process,
    Resource,
    PriorityQ,
    Simulation,
    hold,
    passivate,
    release,
    request,
)

HOUR, DAY = 360.0, 8640.0
RATES = [4, 3, 3, 2, 2, 2, 3, 5, 8, 10, 11, 12, 11, 10, 10, 9, 9, 10, 11, 10, 8, 7, 6, 5]
MEAN_SD = [(360, 180), (180, 90), (72, 30)]


def lognormal(chance: Random, mean: float, sd: float) -> float:
    variance = log(1 + (sd / mean) ** 2)
    return chance.lognormvariate(log(mean) - variance / 2, sqrt(variance))


class Doctors:
    """Those on duty, who is treated, and who waits."""

    def __init__(self, sim):
        self.sim, self.staff, self.serving, self.waiting = sim, 0, [], []
        self.number, self.area, self.since = 0, 0.0, 0.0
        self.interruptions = 0

    def count(self):
        now = self.sim.now()
        self.area += len(self.serving) * (now - self.since)
        self.since = now

    def join(self, patient):
        self.number += 1
        bisect.insort(self.waiting, (patient.urgency, self.number, patient))
        self.next(patient)

    def put_back(self, patient):
        self.number += 1
        bisect.insort(self.waiting, (patient.urgency, -self.number, patient))

    def next(self, current=None):
        self.count()
        while self.waiting and len(self.serving) < self.staff:
            patient = self.waiting.pop(0)[2]
            self.serving.append(patient)
            patient.is_served = True
            if patient is not current:
                self.sim.reactivate(patient)
        if self.waiting and self.waiting[0][0] == 0 and len(self.serving) == self.staff:
            last = max((each.urgency for each in self.serving), default=0)
            if last > 0:
                victim = [each for each in self.serving if each.urgency == last][-1]
                self.serving.remove(victim)
                victim.is_served = False
                self.interruptions += 1
                if victim.is_treated:
                    victim.interrupt(victim)
                else:  # it was called at this moment
                    self.put_back(victim)
                self.next(current)

    def leave(self, patient):
        self.count()
        self.serving.remove(patient)
        self.next()

    def give_up(self, patient):
        self.waiting = [each for each in self.waiting if each[2] is not patient]


class Patient(Process):
    def __lt__(self, other):
        return id(self) < id(other)

    def way(self, day):
        day.inside(1)
        yield request, self, day.nurses
        yield hold, self, day.chance.triangular(12, 54, 24)
        yield release, self, day.nurses
        self.urgency = day.chance.choices((0, 1, 2), (6, 40, 54))[0]
        yield request, self, day.beds, 3 - self.urgency
        left, came = lognormal(day.chance, *MEAN_SD[self.urgency]), day.now()
        self.is_served = self.is_treated = False
        day.doctors.join(self)
        limit = came + 4 * HOUR if self.urgency == 2 else inf
        while not self.is_served and day.now() < limit:
            yield (hold, self, limit - day.now()) if limit < inf else (passivate, self)
        if not self.is_served:
            day.doctors.give_up(self)
            day.gone += 1
        else:
            day.waited[self.urgency].append(day.now() - came)
            while left is not None:
                while not self.is_served:
                    yield passivate, self
                begun, self.is_treated = day.now(), True
                yield hold, self, left
                self.is_treated = False
                if self.interrupted():
                    left -= day.now() - begun
                    day.doctors.put_back(self)
                    day.doctors.next(self)
                else:
                    left = None
            day.doctors.leave(self)
        yield release, self, day.beds
        day.inside(-1)


class Come(Process):
    def way(self, day):
        while True:
            yield hold, self, day.chance.expovariate(max(RATES) / HOUR)
            if day.chance.random() * max(RATES) < RATES[int(day.now() / HOUR) % 24]:
                patient = Patient(sim=day)
                day.activate(patient, patient.way(day))


class Shifts(Process):
    def way(self, day, shifts):
        while True:
            for staff in shifts:
                day.doctors.staff = staff
                day.doctors.next()
                yield hold, self, 8 * HOUR


class Department(Simulation):
    def inside(self, more):
        now = self.now()
        self.area += self.count * (now - self.since)
        self.since, self.count = now, self.count + more


def run(seed: int, until: float, start: tuple[int, ...]) -> dict[str, float]:
    nurses, beds, early, late, night = start
    day = Department()
    day.initialize()
    day.chance, day.doctors = Random(seed), Doctors(day)
    day.nurses = Resource(capacity=nurses, sim=day)
    day.beds = Resource(capacity=beds, qType=PriorityQ, sim=day)
    day.waited, day.gone = ([], [], []), 0
    day.area = day.since = day.count = 0
    shifts, come = Shifts(sim=day), Come(sim=day)
    day.activate(shifts, shifts.way(day, (night, early, late)), at=0.0)
    day.activate(come, come.way(day), at=0.0)
    day.simulate(until=until)
    day.doctors.count()
    day.inside(0)
    days = until / DAY
    return {
        "doctors busy": day.doctors.area / until,
        "patients inside": day.area / until,
        "red wait, s": 10 * sum(day.waited[0]) / len(day.waited[0]),
        "yellow wait, min": sum(day.waited[1]) / len(day.waited[1]) / 6,
        "green home a day": day.gone / days,
        "interrupted a day": day.doctors.interruptions / days,
    }
