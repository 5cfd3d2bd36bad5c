"""Parts of models: resources with queues, priorities, patience, shifts and breakdowns, and the way that entities take.

    m = Model("CLINIC")
    doctor = Resource(m, "DOCTOR", staff=2, classes=3)
    way = Flow(m, "PATIENT", most=500)
    urgency = way.attribute("URGENCY", 0, 2)
    way.arrive(gap=draw(m.stream(), 4, 12))
    way.set_drawn(urgency, draw(m.stream(), m.table("TRIAGE", {0: 6, 1: 40, 2: 54})))
    way.serve(doctor, draw(m.stream(), 5, 20), order=urgency)
    way.leave()

Each part writes variables and events, whose names begin with the name that it is given; `print(m.text)` shows them
with comments.  What doesn't fit is a fault of the run, never a silent loss: more entities than `most` of their way.
"""

from .counted import arrivals, batch, queue
from .flow import Flow
from .moving import Setups, Transport
from .pool import Pool
from .preemptive import Preemptive
from .resource import AnyOf, Buffer, Resource, Team
from .store import Store

__all__ = [
    "AnyOf",
    "Buffer",
    "Flow",
    "Pool",
    "Preemptive",
    "Resource",
    "Setups",
    "Store",
    "Team",
    "Transport",
    "arrivals",
    "batch",
    "queue",
]
