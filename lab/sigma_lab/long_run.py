"""One long run: how long its warm-up is, and what its steady state says, by batches.

A run is read as it comes, so it may be longer than memory.
"""

from __future__ import annotations

from collections.abc import Iterable, Sequence
from typing import Any

import numpy as np

from . import batch_means as batching
from . import execution, replication, welch
from .batch_means import Batches
from .errors import IncompleteRuns, InputError, NoEstimate
from .estimates import Floats
from .formula import Formula
from .history_text import Block, Reader
from .plan import Plan
from .streams import AreaStream

MOST_STEPS = 10**6


class _Steps:
    """The mean of an item in each step of one run; it can be sent to another process."""

    def __init__(self, text: str, item: str, step: int, plan: Plan) -> None:
        self.text, self.item, self.step, self.plan = text, item, step, plan

    def __call__(self, number: int) -> Floats:
        plan = self.plan
        history = replication.run(self.text, plan, number=number)
        if history.outcome != "stopped":
            raise IncompleteRuns(
                f"run {number} is not stopped at {plan.until}, but {history.outcome} at {history.end}"
            )
        edges = np.arange(0, plan.until + 1, self.step, dtype=np.int64)
        return np.asarray(history.areas(self.item, edges), dtype=float) / self.step


def find_warm_up(
    model: Any,
    item: str,
    plan: Plan,
    *,
    step: int | None = None,
    window: int = 5,
    confidence_level: float = 0.95,
    progress: str = "",
) -> welch.Welch:
    """How long the warm-up is, in one call: Welch's curve and MSER-5 of the mean over many runs.

    Parameters
    ----------
    model : Model, path or str
    item : str
        A watched item or a formula of them.
    plan : Plan
        `plan.runs` runs up to `plan.until`; 20 or more tell more.
    step : int, optional
        The ticks of a step, of which the stop time has a whole number; by default the stop time has 200 or more.
    window : int
        How many steps to either side are smoothed over.

    Returns
    -------
    Welch
        `advise()` has the tick for `Plan.warm_up`.
    """
    until = plan.until
    size = step or next(n for n in range(max(1, until // 200), 0, -1) if until % n == 0)
    if size < 1 or until < size or until % size or until // size > MOST_STEPS:
        raise InputError(f"the stop time has a whole number of steps, up to {MOST_STEPS}")
    if plan.runs < 2:
        raise InputError("Welch's procedure takes two runs or more")
    bare = plan.change(warm_up=0)
    local = bare.change(client=None, workers=1)
    task = _Steps(replication.ready(model), item, size, local)
    rows = execution.shared_out(task, range(1, plan.runs + 1), bare, progress=progress)
    return welch.welch(np.array(rows), size, window, confidence_level=confidence_level)


class LongRun:
    """What one long run says of its steady state, read once and in constant memory.

    Parameters
    ----------
    items : sequence of str
        Formulas of watched items, whose means over time are wanted.
    events : sequence of str
        Watched events, whose rates are wanted.
    start : int
        The end of the warm-up, in ticks.

    Attributes
    ----------
    end : int
        The tick at which the run ended.
    outcome : str
        How it ended.
    """

    def __init__(
        self, items: Sequence[str] = (), events: Sequence[str] = (), start: int = 0
    ) -> None:
        self.start, self.end, self.outcome = start, 0, "unfinished"
        self._formulas = {item: Formula(item) for item in items}
        self._events = {event.encode(): event for event in events}
        self._streams = {name: AreaStream() for name in (*items, *events)}
        self._courses = {item: _Course() for item in items}

    def read(self, blocks: Iterable[bytes], source: str = "") -> LongRun:
        """Takes in a history that comes in blocks of bytes.  Raises BadReport if it isn't whole."""
        reader = Reader(source)
        for block in reader.read(blocks):
            columns = dict(zip(reader.items, block.cells))
            if reader.begin > self.start:
                raise InputError(
                    f"the history begins at tick {reader.begin}, so nothing is known of the time before: "
                    "take a warm-up that ends there or later"
                )
            unknown = {n for f in self._formulas.values() for n in f.names} - set(columns)
            if unknown:
                raise InputError(
                    f"no value {min(unknown)} in the history; there are {' '.join(columns)}"
                )
            self._hold(block, columns)
            for event, name in self._events.items():
                times = [time for time, each in zip(block.times, block.events) if each == event]
                self._streams[name].count(times)
        assert reader.last is not None
        self.outcome, self.end, _ = reader.last
        for stream in self._streams.values():
            stream.close(self.end)
        return self

    def _hold(self, block: Block, columns: dict[str, list[int]]) -> None:
        """Takes in the lines of values alone of a block."""
        at = [k for k, event in enumerate(block.events) if not event]
        if not at or not self._formulas:
            return
        times = [block.times[k] for k in at]
        for item, formula in self._formulas.items():
            arrays = {n: np.array([columns[n][k] for k in at]) for n in formula.names}
            values = np.asarray(formula(arrays.__getitem__)).tolist()
            self._streams[item].hold(times, values)
            self._courses[item].go_on(values)

    def _stream(self, name: str) -> AreaStream:
        if name not in self._streams:
            raise InputError(f"{name} wasn't asked for; there are {' '.join(self._streams)}")
        return self._streams[name]

    def mean(self, item: str, **options: Any) -> Batches:
        """The mean over time of an item; options are those of `batch_means.batch_means`.

        Raises
        ------
        NoEstimate
            If the item is a running count, or if batches are too short.
        """
        stream = self._stream(item)
        if item in self._courses and self._courses[item].is_running_count:
            raise NoEstimate(
                f"{item} never falls, so it is a running count, which has no mean in the long run: ask for its rate"
            )
        return batching.batch_means(
            stream.areas, self.start, self.end, grain=stream.grain, what=item, **options
        )

    def rate(self, event: str, per: int = 1, **options: Any) -> Batches:
        """How often an event occurs in `per` ticks; options are those of `batch_means.batch_means`."""
        if per < 1:
            raise InputError("a rate is in 1 tick or more")
        stream = self._stream(event)
        return batching.batch_means(
            lambda edges: per * stream.areas(edges),
            self.start,
            self.end,
            grain=stream.grain,
            what=event,
            **options,
        )

    def ratio(self, above: str, below: str, **options: Any) -> Batches:
        """The ratio of two areas or counts; options are those of `batch_means.batch_ratio`."""
        a, b = self._stream(above), self._stream(below)
        grain = max(a.grain, b.grain)
        return batching.batch_ratio(a.areas, b.areas, self.start, self.end, grain=grain, **options)


class _Course:
    """Whether a value ever falls, and how often it rises."""

    def __init__(self) -> None:
        self.last: float | None = None
        self.falls, self.rises = False, 0

    def go_on(self, values: Sequence[float]) -> None:
        """Takes in further values, in order."""
        for value in values:
            if self.last is not None and value != self.last:
                self.falls = self.falls or value < self.last
                self.rises += value > self.last
            self.last = value

    @property
    def is_running_count(self) -> bool:
        """Whether it only rises, and often."""
        return not self.falls and self.rises >= 50


def long_run(
    model: Any,
    plan: Plan,
    *,
    items: Sequence[str] = (),
    events: Sequence[str] = (),
    number: int = 1,
) -> LongRun:
    """One run of a model, read as it comes: `long_run(model, plan, items=["N"]).mean("N")`.

    Raises
    ------
    IncompleteRuns
        If the run faults or spends its budget, unless the plan keeps these.
    """
    if not items and not events:
        raise InputError("an item or an event is needed")
    made = LongRun(items, events, plan.warm_up)
    bare = plan.change(warm_up=0)
    made.read(replication.blocks(replication.ready(model), bare, number), "sigma run")
    if made.outcome in ("fault", "budget") and plan.on_cut == "raise":
        raise IncompleteRuns(f"the run was cut off: {made.outcome} at {made.end}")
    return made
