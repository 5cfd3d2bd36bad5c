"""The bank of ../bank_jockeying.sigma in SimPy, with five tellers: customers who change to a shorter queue. A tick is 1/100 minute.

    /usr/bin/python3 bank_jockeying.py SEED RUNS >REPORT
"""
import random

import simpy

import runs

TELLERS = 5


class Bank:
    def __init__(self, env):
        self.env = env
        self.lines = [[] for _ in range(TELLERS)]
        self.served_now = [False] * TELLERS
        self.served = self.total = self.long = 0
        env.process(self.customers())

    def there(self, teller):
        return len(self.lines[teller]) + self.served_now[teller]

    def customers(self):
        while True:
            yield self.env.timeout(random.expovariate(1 / 100))
            if self.env.now > 48000:
                return
            self.join(min(range(TELLERS), key=lambda each: (self.there(each), each)), self.env.now)

    def join(self, teller, came):
        self.lines[teller].append(came)
        if not self.served_now[teller]:
            self.env.process(self.serve(teller))
            self.served_now[teller] = True

    def serve(self, teller):
        delay = self.env.now - self.lines[teller].pop(0)
        self.served += 1
        self.total += delay
        self.long += delay > 500
        yield self.env.timeout(random.expovariate(1 / 450))
        self.served_now[teller] = False
        if self.lines[teller]:
            self.env.process(self.serve(teller))
            self.served_now[teller] = True
        longer = [each for each in range(TELLERS) if self.there(each) > self.there(teller) + 1]
        if longer:
            self.join(teller, self.lines[min(longer, key=lambda each: abs(each - teller))].pop())


def run():
    env = simpy.Environment()
    bank = Bank(env)
    env.run()
    items = {"SERVED": bank.served, "TOTAL": bank.total, "LONG": bank.long}
    return env.now, {item: (value, "") for item, value in items.items()}


runs.write(run)
