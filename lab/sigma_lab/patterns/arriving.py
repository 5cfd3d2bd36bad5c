"""How entities come: with gaps, or by rates that change with the time."""

from __future__ import annotations

from collections.abc import Sequence
from fractions import Fraction
from math import lcm

from ..body import Body
from ..errors import InputError
from ..terms import Array, Term, Value, clk, draw
from ..tree import ByTable, Name, Source, Uniform, Variable
from . import durations
from .pool import FOREVER
from .way import Way


class Arriving(Way):
    """The beginning of a way."""

    # How they come.

    @property
    def comes(self) -> str:
        """The event of one who comes, for edges of other events: `e.urgent(way.comes)`."""
        return f"{self.name}_COMES"

    def arrive(
        self,
        gap: Source | Value | None = None,
        *,
        until: int | None = None,
        rates: Sequence[float] | None = None,
        length: int = 0,
    ) -> None:
        """How entities come; without a gap or rates other events bring them, by `e.urgent(way.comes)`.

        Parameters
        ----------
        gap : Source or Value, optional
            The ticks from one to the next, and to the first one.
        until : int, optional
            Nobody comes after this tick.
        rates : sequence of float, optional
            How many come in each period of `length` ticks, on average; after the last one they begin again.  They
            come by a Poisson process whose rate changes (thinning: Lewis and Shedler 1979).
        length : int
            The ticks of each period.

        Raises
        ------
        InputError
            If both a gap and rates are given, or rates are empty, all 0, below 0, or above 1 a tick.
        """
        name, it = self.name, self.it
        if self._steps:
            raise InputError(f"{name}: the way has begun already")
        if gap is not None and rates is not None:
            raise InputError(f"{name}: entities come with gaps or by rates, not both")
        come = Body(self.comes)
        self.pool.enter(come, it)
        come.set((self._came[it], clk), (self.inside, self.inside + 1))
        come.later(self._clear)
        come.later(self._write_number)
        first = self._new_step(f"{name}_ENTERS")
        come.urgent(first.name, it)
        first.is_begun = first.is_reached = True
        self._events.append(come)
        self._said[come.name] = f"{name}: one comes, and gets a number"
        self._said[first.name] = f"{name}: the way begins"
        if rates is not None:
            self._by_rates(rates, length, until)
        elif gap is not None:
            durations.check(name, gap)
            self._by_gaps(come, gap, until)
        self._step = first

    def _repeat(self, e: Body, event: str, gap: Source | Value, until: int | None) -> None:
        """Schedules the next one, if it isn't after the end."""
        if until is None:
            e.schedule(event, after=gap)
            return
        pause = Term(Name(f"{self.name}_GAP"), True)
        if isinstance(gap, (Uniform, ByTable)):
            e.draw(pause, gap)
        else:
            e.set(pause, gap)
        e.schedule(event, after=pause, when=clk + pause <= until)

    def _by_gaps(self, come: Body, gap: Source | Value, until: int | None) -> None:
        if until is not None:
            self._variables.append(Variable(f"{self.name}_GAP", 0, FOREVER, 0))
        self._repeat(come, come.name, gap, until)
        self._start.append(lambda e: self._repeat(e, come.name, gap, until))
        self._story.append(f"comes with gaps{'' if until is None else f' until {until}'}")

    def _by_rates(self, rates: Sequence[float], length: int, until: int | None) -> None:
        name, parts = self.name, [Fraction(str(each)) for each in rates]
        if not parts or min(parts) < 0 or max(parts) == 0:
            raise InputError(f"{name}: rates are 0 or more, and some are above 0: {list(rates)}")
        if length < 1 or max(parts) > length:
            raise InputError(
                f"{name}: a period has a tick or more for each who comes: {length} ticks"
            )
        scale = lcm(*(each.denominator for each in parts))
        whole = [int(each * scale) for each in parts]
        most = max(whole)
        rate, chance = Array(f"{name}_RATE", len(whole), True), Term(Name(f"{name}_CHANCE"), True)
        self._arrays.append(Variable(rate.name, 0, most, 0, size=len(whole)))
        self._variables.append(Variable(str(chance), 0, max(1, most - 1), 0))
        table = self.model.table(
            f"{name}_TRY_GAP", f"exponential {length / float(max(parts)):.12g}"
        )
        gap, stream = draw(self.model.stream(), table), self.model.stream()
        trial = Body(f"{name}_MAY_COME").draw(chance, draw(stream, 0, max(1, most - 1)))
        if until is not None:
            self._variables.append(Variable(f"{name}_GAP", 0, FOREVER, 0))
        self._repeat(trial, trial.name, gap, until)
        trial.urgent(self.comes, when=chance < rate[(clk // length) % len(whole)])
        self._events.append(trial)
        self._said[
            trial.name
        ] = f"{name}: of those who may come, by the greatest rate, some do, by the rate of now"
        self._said[rate.name] = f"{name}: how many come in each period of {length} ticks" + (
            f", times {scale}" if scale > 1 else ""
        )

        def start(e: Body) -> None:
            for at in range(0, len(whole), 16):
                e.set(*((rate[i], whole[i]) for i in range(at, min(at + 16, len(whole)))))
            self._repeat(e, trial.name, gap, until)

        self._start.append(start)
        self._story.append(f"comes by {len(whole)} rates of {length} ticks each")
