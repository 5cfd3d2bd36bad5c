"""A desk with shifts, two classes of callers, and callers who lose patience.  A tick is a second."""

from sigma_lab.model import Model
from sigma_lab.patterns import Flow, Resource
from sigma_lab.plan import Plan
from sigma_lab.terms import draw

HOUR = 3600

m = Model("DESK", note=__doc__)
clerk = Resource(m, "CLERK", 0, classes=2)
clerk.roster([(0, 1), (8 * HOUR, 3), (18 * HOUR, 2)], period=24 * HOUR)
caller = Flow(m, "CALLER", most=400)
kind = caller.attribute("KIND", 0, 1)
caller.arrive(rates=[2] * 8 + [24] * 10 + [8] * 6, length=HOUR)
caller.set_drawn(kind, draw(m.stream(), m.table("KINDS", {0: 1, 1: 4})))
patience = draw(m.stream(), m.table("PATIENCE", "exponential 900"))
service = draw(m.stream(), m.table("SERVICE", "lognormal 300 200"))
caller.serve(clerk, service, order=kind, by=0, patience=patience)
caller.leave()
m.watch(clerk.queue, clerk.busy, clerk.served, clerk.waited, clerk.left)
m.check()

if __name__ == "__main__":
    print(m.outline())
    print(m.replicate(Plan(24 * HOUR, runs=50)).summary()[["value", "low", "high"]].round(3))
