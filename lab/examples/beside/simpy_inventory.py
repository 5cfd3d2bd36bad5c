"""The inventory in SimPy 2."""

from random import Random

from SimPy.Simulation import Process, Simulation, hold


class Customers(Process):
    def way(self, shop):
        while True:
            yield hold, self, shop.chance.expovariate(20)
            size = shop.chance.choices((1, 2, 3, 4), (1, 2, 2, 1))[0]
            shop.position -= size
            shop.change(-size)


class Delivery(Process):
    def way(self, shop, amount):
        yield hold, self, shop.chance.uniform(0.5, 1.5)
        shop.change(amount)


class Review(Process):
    def way(self, shop, low, up):
        while True:
            if shop.position < low:
                amount = up - shop.position
                shop.position, shop.orders, shop.pieces = up, shop.orders + 1, shop.pieces + amount
                delivery = Delivery(sim=shop)
                shop.activate(delivery, delivery.way(shop, amount))
            yield hold, self, 1.0


class Shop(Simulation):
    def change(self, amount):
        span = self.now() - self.since
        self.shelf += max(self.stock, 0) * span
        self.owed += max(-self.stock, 0) * span
        self.stock, self.since = self.stock + amount, self.now()


def run(seed: int, until: float, start: tuple[int, ...]) -> dict[str, float]:
    weeks = until / 1000
    shop = Shop()
    shop.initialize()
    shop.chance, shop.stock, shop.position, shop.since = Random(seed), 150, 150, 0.0
    shop.shelf = shop.owed = shop.orders = shop.pieces = 0
    customers, review = Customers(sim=shop), Review(sim=shop)
    shop.activate(customers, customers.way(shop), at=0.0)
    shop.activate(review, review.way(shop, *start), at=0.0)
    shop.simulate(until=weeks)
    shop.change(0)
    cost = 32 * shop.orders + 3 * shop.pieces + shop.shelf + 5 * shop.owed
    return {
        "on the shelf": shop.shelf / weeks,
        "owed": shop.owed / weeks,
        "orders a week": shop.orders / weeks,
        "cost a week": cost / weeks,
    }
