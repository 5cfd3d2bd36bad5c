"""What theory says of queues and stocks: formulas of textbooks, and chains of states that are solved numerically.

Times are in ticks and rates in one a tick; `load` is the rate of arrivals times the mean service.

References
----------
Gross, Shortle, Thompson and Harris, Fundamentals of Queueing Theory, 2008 (queues); Hadley and Whitin, Analysis of
Inventory Systems, 1963, chapter 4 (stocks); Conway, Maxwell and Miller, Theory of Scheduling, 1967 (shortest first);
Palm 1937 (patience); Cobham 1954 (priorities); Flatto and Hahn 1984 (orders in two parts).
"""

from __future__ import annotations

import math
from collections.abc import Callable, Hashable, Iterator
from typing import TypeVar

import numpy as np
from numpy.typing import NDArray
from scipy import integrate, linalg, sparse
from scipy.sparse.linalg import spsolve

State = TypeVar("State", bound=Hashable)
Floats = NDArray[np.float64]


def lost(servers: int, load: float) -> float:
    """The share of customers that find no server free and leave (Erlang's B)."""
    terms = [load**count / math.factorial(count) for count in range(servers + 1)]
    return terms[-1] / sum(terms)


def delayed(servers: int, load: float) -> float:
    """The share of customers that find no server free and wait (Erlang's C)."""
    share = lost(servers, load)
    return share / (1 - load / servers * (1 - share))


def waiting(servers: int, load: float) -> float:
    """How many wait on average in M/M/c."""
    return delayed(servers, load) * load / (servers - load)


def waiting_general(rate: float, mean: float, square: float) -> float:
    """How many wait on average in M/G/1, from the two moments of a service (Pollaczek and Khinchine)."""
    return rate**2 * square / 2 / (1 - rate * mean)


def births_and_deaths(births: list[float], deaths: list[float]) -> Floats:
    """The share of time in each state of a chain, from the rates up from 0, 1, .. and down from 1, 2, .."""
    steps = np.array(births) / np.array(deaths)
    weights = np.concatenate(([1.0], np.cumprod(steps)))
    return np.asarray(weights / weights.sum())


def down(machines: int, repair: float) -> float:
    """How many machines are down with one repairman; `repair` is a repair's length beside that between two failures."""
    shares = births_and_deaths(
        [float(up) for up in range(machines, 0, -1)], [1 / repair] * machines
    )
    return float(shares @ np.arange(machines + 1))


def slots(arrival: float, departure: float) -> float:
    """How many are there, if in each tick one comes with one chance and a service ends with another."""
    return arrival * (1 - arrival) / (departure - arrival)


def in_stock(least: int, most: int, wanted: float) -> float:
    """How many pieces are in stock, if so many are wanted while an order is under way.

    Stock and orders together are `least` + 1 to `most`, each as likely.
    """
    levels = range(least + 1, most + 1)
    total = 0.0
    for level in levels:
        shares = [math.exp(-wanted) * wanted**n / math.factorial(n) for n in range(level)]
        total += sum((level - n) * share for n, share in enumerate(shares))
    return total / len(levels)


def owed(least: int, most: int, wanted: float) -> float:
    """How many pieces are owed: those in stock, less what stock and orders are without those wanted meanwhile."""
    return in_stock(least, most, wanted) - (least + 1 + most) / 2 + wanted


def waiting_or_leaving(servers: int, rate: float, service: float, patience: float) -> float:
    """How many wait with servers, and callers who give up."""
    most = 200
    there = range(1, most + 1)
    leaving = [min(n, servers) / service + max(n - servers, 0) / patience for n in there]
    shares = births_and_deaths([rate] * most, leaving)
    return float(sum((n - servers) * shares[n] for n in there if n > servers))


def waiting_shortest(rate: float, mean: float) -> float:
    """How many wait at one machine that takes the shortest job first, if work is exponential."""

    def wait(x: float) -> float:
        below = rate * (mean - (x + mean) * math.exp(-x / mean))
        return math.exp(-x / mean) / mean * rate * mean**2 / (1 - below) ** 2

    return float(rate * integrate.quad(wait, 0, 60 * mean, limit=200)[0])


class TwoClasses:
    """Two kinds at one server, kind 0 first.

    Parameters
    ----------
    rates, means, squares : pair of float
        Of each kind: its arrivals, and the two moments of its services.
    """

    def __init__(
        self,
        rates: tuple[float, float],
        means: tuple[float, float],
        squares: tuple[float, float],
    ) -> None:
        self.rates, self.means = rates, means
        self.left = sum(rate * square for rate, square in zip(rates, squares)) / 2
        self.idle_of_first = 1 - rates[0] * means[0]
        self.idle = self.idle_of_first - rates[1] * means[1]

    def waiting(self, kind: int) -> float:
        """How many of a kind wait, if a service isn't interrupted (Cobham)."""
        idle = self.idle_of_first * (self.idle if kind else 1)
        return self.rates[kind] * self.left / idle

    def interrupted(self) -> float:
        """How many of kind 1 are there, if kind 0 interrupts them."""
        return self.rates[1] * (self.means[1] + self.left / self.idle) / self.idle_of_first


def waiting_batches(size: int, rate: float, mean: float) -> float:
    """How many pieces wait for an oven of `size`: those of a batch that is gathered, and full batches (GI/M/1)."""
    root = 0.5
    for _ in range(10_000):
        root = (rate / (rate + (1 - root) / mean)) ** size
    return (size - 1) / 2 + rate * mean * root / (1 - root)


def orders_split(rate: float, mean: float) -> float:
    """How many orders are under way that are split into two parts."""
    load = rate * mean
    return load * (12 - load) / 8 / (1 - load)


def pieces(first: float, second: float, places: int) -> float:
    """How many pieces a tick two machines make with so many places between them, by the means of their work."""
    between = places + 2
    shares = births_and_deaths([1 / first] * between, [1 / second] * between)
    return float((1 - shares[0]) / second)


def solve(
    first: State, ways: Callable[[State], Iterator[tuple[State, float]]]
) -> dict[State, float]:
    """The share of time in each state that can be reached, from the ways out of a state with their rates."""
    at, found = {first: 0}, [first]
    rows, columns, rates = [], [], []
    for state in found:
        for to, rate in ways(state):
            if to not in at:
                at[to] = len(found)
                found.append(to)
            rows += [at[to], at[state]]
            columns += [at[state], at[state]]
            rates += [rate, -rate]
    # One equation follows from the others; in its place the shares add up to 1.
    balance = sparse.csr_matrix((rates, (rows, columns)), shape=(len(found),) * 2).tolil()
    balance[0, :] = 1
    shares = spsolve(balance.tocsc(), np.eye(len(found), 1).ravel())
    return dict(zip(found, map(float, shares)))


Calls = tuple[bool, bool, bool, int, int]


def waiting_skills(rates: tuple[float, float], mean: float, most: int = 25) -> tuple[float, float]:
    """How many calls of two kinds wait, with an agent for each and one for both.

    A state has whether each agent is busy, and the two queues.
    """

    def come(state: Calls, kind: int) -> Calls:
        a, b, both, *queues = state
        if not (a, b)[kind]:
            return (True, b, both, *queues) if kind == 0 else (a, True, both, *queues)  # type: ignore[return-value]
        if both:
            queues[kind] = min(queues[kind] + 1, most)
        return a, b, True, queues[0], queues[1]

    def leave(state: Calls, agent: int) -> Calls:
        busy, queues = list(state[:3]), list(state[3:])
        kind = agent if agent < 2 else int(queues[1] > queues[0])
        busy[agent] = queues[kind] > 0
        queues[kind] = max(queues[kind] - 1, 0)
        return busy[0], busy[1], busy[2], queues[0], queues[1]

    def ways(state: Calls) -> Iterator[tuple[Calls, float]]:
        yield from ((come(state, kind), rates[kind]) for kind in (0, 1))
        yield from ((leave(state, agent), 1 / mean) for agent in range(3) if state[agent])

    shares = solve((False, False, False, 0, 0), ways)
    first, second = (sum(share * state[at] for state, share in shares.items()) for at in (3, 4))
    return first, second


Crew = tuple[int, int, int, int]


def waiting_together(rate: float, mean: float, most: int = 60) -> float:
    """How many jobs wait for a crew of two, if they need one or both, each as likely.

    A state has the small and the large jobs in work, those that wait, and what the first of these needs.
    """

    def begin(
        small: int, large: int, queue: int, need: int, rate: float
    ) -> Iterator[tuple[Crew, float]]:
        if queue == 0 or need > 2 - small - 2 * large:
            yield (small, large, queue, need if queue else 0), rate
            return
        small, large = (small + 1, large) if need == 1 else (small, large + 1)
        if queue == 1:
            yield (small, large, 0, 0), rate
            return
        for following in (1, 2):
            yield from begin(small, large, queue - 1, following, rate / 2)

    def ways(state: Crew) -> Iterator[tuple[Crew, float]]:
        small, large, queue, first = state
        for need in (1, 2) if queue < most else ():
            yield from begin(small, large, queue + 1, first or need, rate / 2)
        if small:
            yield from begin(small - 1, large, queue, first, small / mean)
        if large:
            yield from begin(small, 0, queue, first, 1 / mean)

    return sum(share * state[2] for state, share in solve((0, 0, 0, 0), ways).items())


def over_shifts(rate: float, mean: float, shift: float, most: int = 30) -> tuple[float, float]:
    """Three clerks in one half of the day and two in the other: how many wait, and how many come and wait in the late half.

    A state is how many are there, and whether a third clerk still serves in the late shift; their shares follow
    Kolmogorov's equations, and each day begins as it ends.
    """
    size = 2 * (most + 1)

    def generator(is_late: bool) -> Floats:
        made = np.zeros((size, size))
        for n in range(most + 1):
            for extra in range(2 if is_late else 1):
                busy = min(n, 2 if is_late and not extra else 3)
                if n < most:
                    made[2 * n + extra, 2 * (n + 1) + extra] += rate
                if n:
                    made[2 * n + extra, 2 * (n - 1)] += busy / mean
        return made - np.diag(made.sum(axis=1))

    def half(is_late: bool) -> tuple[Floats, Floats]:
        """What the shares become over a shift, and how much time each state takes in it."""
        rates = np.zeros((2 * size, 2 * size))
        rates[:size, :size] = generator(is_late)
        rates[:size, size:] = np.eye(size)
        made = linalg.expm(rates * shift)
        return made[:size, :size], made[:size, size:]

    there, third = np.divmod(np.arange(size), 2)
    to_late, to_early = np.zeros((size, size)), np.zeros((size, size))
    for state in range(size):
        to_late[state, state + 1 if not third[state] and there[state] > 2 else state] = 1
        to_early[state, state - third[state]] = 1
    (early, in_early), (late, in_late) = half(False), half(True)
    start = np.linalg.matrix_power(early @ to_late @ late @ to_early, 64)[0]
    time_early, time_late = start @ in_early, start @ early @ to_late @ in_late
    queue = time_early @ np.maximum(there - 3, 0) + time_late @ np.maximum(there - 2 - third, 0)
    return float(queue / 2 / shift), float(rate * time_late @ (there >= 2))
