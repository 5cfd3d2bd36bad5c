"""Runs models of which theory knows the answer, and compares both.

    python3 examples/classics.py [TICKS [RUNS]]

A run takes 10,000,000 ticks and there are 20 of each model, unless the words say otherwise. The last column says by how
many standard errors theory and measurement differ. Runs begin with nobody there, which is long forgotten over so many ticks.
"""

from __future__ import annotations

from theory import down, in_stock, lost, owed, slots, waiting, waiting_general

from beside_theory import Case, compare, words

CASES = (
    Case("mm1", "N.average", 0.8 + waiting(1, 0.8)),
    Case("mmc", "N.average", 2.4 + waiting(3, 2.4), (3,)),
    Case("md1", "N.average", 0.8 + waiting_general(0.8, 1, 1)),
    Case("geo", "N.average", slots(0.3, 0.5)),
    Case("repair", "DOWN.average", down(5, 100 / 400)),
    Case("loss", "BUSY.average", 3 * (1 - lost(5, 3))),
    Case("inventory", "STOCK.average", in_stock(4, 12, 5)),
    Case("inventory", "OWED.average", owed(4, 12, 5)),
)

if __name__ == "__main__":
    compare(CASES, *words(__doc__.splitlines()[0], 10_000_000))
