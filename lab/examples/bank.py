"""The bank: two tellers, one queue, from opening to closing.  A tick is a minute."""

from sigma_lab.model import Model
from sigma_lab.patterns import Flow, Resource
from sigma_lab.plan import Plan
from sigma_lab.terms import draw

m = Model("BANK", note=__doc__)
teller = Resource(m, "TELLER", 2)
customer = Flow(m, "CUSTOMER")
customer.arrive(gap=draw(0, 1, 6), until=480)
customer.serve(teller, draw(1, 3, 9))
customer.leave()
m.watch(teller.queue, customer.done)
m.check()

if __name__ == "__main__":
    report = m.replicate(Plan(600, runs=1000))
    print(report.estimate("TELLER_QUEUE[0].average"))
    print(report.estimate("CUSTOMER_DONE"))
