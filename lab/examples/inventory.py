"""An inventory that is reviewed each week: order up to U if the position is below S.

Customers come with exponential gaps and take one to four pieces; what isn't there is owed.  An order costs 32 and 3 a
piece and takes half a week to one and a half.  A piece costs 1 a week on the shelf, a piece that is owed 5.
A tick is 1/1000 of a week.
"""

from sigma_lab.model import Model
from sigma_lab.terms import choose, draw, largest

WEEK = 1000


def build() -> Model:
    """The model; its starting values are S and U."""
    m = Model("INVENTORY", note=__doc__)
    low, up = m.var("S", 0, 1000, 120), m.var("U", 0, 1000, 215)
    m.starts_with(low, up)
    stock = m.var("STOCK", -(10**6), 10**6, 150, note="what is there, or owed if it is below 0")
    position = m.var("POSITION", -(10**6), 10**6, 150, note="the stock and what was ordered")
    shelf, owed = m.var("SHELF", 0, 10**6, 150), m.var("OWED", 0, 10**6)
    orders, pieces = m.var("ORDERS", 0, 10**9), m.var("PIECES", 0, 10**9)
    size, amount = m.var("SIZE", 1, 4), m.var("AMOUNT", 0, 10**6)
    m.watch(shelf, owed, orders, pieces)
    gap = draw(m.stream(), m.table("GAP", f"exponential {WEEK / 20}"))
    demand = draw(m.stream(), m.table("DEMAND", {1: 1, 2: 2, 3: 2, 4: 1}))
    lead = draw(m.stream(), WEEK // 2, WEEK * 3 // 2)
    with m.extend("OPEN") as e:
        e.schedule("CUSTOMER", after=gap)
        e.schedule("REVIEW", priority=6)
    with m.event("CUSTOMER") as e:
        e.draw(size, demand)
        e.set((stock, stock - size), (position, position - size))
        e.set((shelf, largest(stock, 0)), (owed, largest(-stock, 0)))
        e.schedule("CUSTOMER", after=gap)
    with m.event("REVIEW") as e:
        e.set(amount, choose(position < low, up - position, 0))
        e.set((position, position + amount), (pieces, pieces + amount))
        e.set(orders, choose(amount > 0, orders + 1, orders))
        e.schedule("ARRIVES", amount, after=lead, when=amount > 0)
        e.schedule("REVIEW", after=WEEK, priority=6)
    with m.event("ARRIVES", amount) as e:
        e.set(stock, stock + amount)
        e.set((shelf, largest(stock, 0)), (owed, largest(-stock, 0)))
    return m


if __name__ == "__main__":
    print(build().check().text, end="")
