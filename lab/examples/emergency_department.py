"""An emergency department: rates by the hour, three urgencies, nurses, beds, doctors by shift.

Red patients interrupt the treatment of others.  Green ones go home if no doctor has seen them in four hours.
A tick is 10 seconds, a day 8640 ticks.
"""

from sigma_lab.model import Model
from sigma_lab.patterns import Flow, Preemptive, Resource
from sigma_lab.terms import choose, draw

HOUR = 360
DAY = 24 * HOUR
RATES = [4, 3, 3, 2, 2, 2, 3, 5, 8, 10, 11, 12, 11, 10, 10, 9, 9, 10, 11, 10, 8, 7, 6, 5]  # an hour
RED, YELLOW, GREEN = range(3)


def build() -> Model:
    """The model; its starting values are nurses, beds, and the doctors of the three shifts."""
    m = Model("EMERGENCY_DEPARTMENT", note=__doc__)
    team = [("NURSES", 3), ("BEDS", 12), ("EARLY", 4), ("LATE", 4), ("NIGHT", 1)]
    nurses, beds, early, late, night = (m.var(name, 0, 60, start) for name, start in team)
    m.starts_with(nurses, beds, early, late, night)
    nurse = Resource(m, "NURSE", nurses)
    bed = Resource(m, "BED", beds, classes=3)
    doctor = Preemptive(m, "DOCTOR", 0, classes=3, interrupts=1)
    doctor.roster([(0, night), (8 * HOUR, early), (16 * HOUR, late)], period=DAY)

    def drawn(name: str, words: str):
        return draw(m.stream(), m.table(name, words))

    way = Flow(m, "PATIENT", most=512)
    urgency = way.attribute("URGENCY", RED, GREEN)
    way.arrive(rates=RATES, length=HOUR)
    way.serve(nurse, drawn("TRIAGE_TIME", "triangular 12 24 54"))
    way.set_drawn(urgency, draw(m.stream(), m.table("TRIAGE", {RED: 6, YELLOW: 40, GREEN: 54})))
    way.seize(bed, order=urgency)
    treatment = {
        RED: drawn("RED_TIME", "lognormal 360 180"),
        YELLOW: drawn("YELLOW_TIME", "lognormal 180 90"),
        GREEN: drawn("GREEN_TIME", "lognormal 72 30"),
    }
    is_green = urgency == GREEN
    way.serve(doctor, treatment, urgency, patience=4 * HOUR, impatient=is_green, gone="UNSEEN")
    way.at("UNSEEN")
    way.release(bed)
    way.leave()
    m.watch(doctor.queue, doctor.busy, doctor.waited, doctor.served, doctor.left)
    m.watch(doctor.interrupted, bed.busy, nurse.busy, way.inside, way.done, way.stayed)
    return m


if __name__ == "__main__":
    print(build().check().text, end="")
