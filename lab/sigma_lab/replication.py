"""Runs of a model: reports of many, histories of one, values at events."""

from __future__ import annotations

import hashlib
import re
from collections.abc import Iterator, Sequence
from pathlib import Path
from typing import Any

import numpy as np

from . import execution, program, report_text, seeds
from .errors import InputError, NoEstimate, Stopped, UnfilledTables, cut_off
from .formula import Formula
from .history import History, Note, notes_of
from .observations import Observations
from .plan import Plan, whole
from .provenance import Provenance
from .report import Report
from .report_columns import Columns, Number

ModelLike = Any
"""A Model, a path, or a text (which has a line feed or a semicolon)."""

_HISTORY = (0, program.ModelFault.status, program.Budget.status)


# Models


def source_of(model: ModelLike) -> tuple[str, Path]:
    """The text of a model, and the folder of the files that it names.

    Raises
    ------
    InputError
        If a file can't be read.
    """
    text = getattr(model, "text", None)
    if text is not None:
        folder = Path(getattr(model, "path", None) or "x").parent
        return program.as_bytes(text).decode("utf-8", "surrogateescape"), folder
    if isinstance(model, bytes):
        model = model.decode("utf-8", "surrogateescape")
    if isinstance(model, str) and ("\n" in model or ";" in model):
        return model, Path(".")
    try:
        data = Path(model).read_bytes()
    except OSError as error:
        raise InputError(f"can't read {model}: {error.strerror}") from None
    except (TypeError, ValueError):
        raise InputError(f"no model: {model!r}") from None
    return data.decode("utf-8", "surrogateescape"), Path(model).parent


def may_ask(text: str) -> bool:
    """Whether a text may have placeholders of tables or values; `inputs.unfilled`, which loads numpy, says which."""
    return re.search(r"#[ \t]*(?:table|values)[ \t]", text) is not None


def ready(model: ModelLike, *, fill: bool = True) -> str:
    """The text of a model with its tables filled.

    Raises
    ------
    UnfilledTables
        Without `fill`, if some aren't: the model would run with one-row tables, and nothing would be left to chance.
    """
    text, folder = source_of(model)
    if not may_ask(text):
        return text
    from . import inputs

    missing = inputs.unfilled(text)
    if missing and not fill:
        raise UnfilledTables(
            f"tables that aren't filled: {', '.join(missing)} (inputs.fill fills them)"
        )
    return str(inputs.fill(text, folder).text) if missing else text


def _words(command: str, plan: Plan, until: int) -> list[str]:
    words = [command, f"--until={until}", f"--events={plan.events}"]
    start = ",".join(map(str, plan.start))
    return words + ([f"--start={start}"] if start else [])


# Reports


class _Runs:
    """Makes a lot of neighbouring runs of a series: what a worker does."""

    def __init__(self, text: str, plan: Plan, until: int, first_run: int) -> None:
        self._text, self._seed, self._first, self._timeout = (
            text,
            plan.seed,
            first_run,
            plan.timeout,
        )
        self._words = [*_words("replicate", plan, until), f"--stride={seeds.stride(plan.seed)}"]

    def __call__(self, lot: tuple[int, int]) -> list[Columns]:
        at, runs = lot
        words = [f"--seed={seeds.spawn(self._seed, self._first + at)}", f"--runs={runs}"]
        data = program.call([*self._words, *words], self._text, timeout=self._timeout)
        if data == report_text.HEADER + b"\n":
            raise InputError("the model watches nothing")
        return report_text.read(data, "sigma replicate")


def _joined(parts: Sequence[Columns]) -> Columns:
    first = parts[0]
    values: list[dict[str, list[Number]]] = [{name: [] for name in each} for each in first.values]
    made = Columns(first.items, [], [], [], values)
    for part in parts:
        made.seeds += part.seeds
        made.outcomes += part.outcomes
        made.times += part.times
        for mine, theirs in zip(values, part.values):
            for name, column in mine.items():
                column += theirs[name]
    return made


def replicate(
    model: ModelLike,
    plan: Plan,
    *,
    first_run: int = 1,
    label: str = "report",
    progress: str = "",
    fill: bool = True,
) -> Report:
    """The report of some runs of a plan's series.

    Parameters
    ----------
    model : Model, path or str
        Its tables are filled.
    plan : Plan
        With a `warm_up`, areas, counts and times are counted from there: runs are made twice, with the same seeds.
    first_run : int
        The number of the first run in the series of `plan.seed`: 101 goes on where 100 runs ended.
    label : str
        The design's name in tables.
    progress : str
        The title of a bar on the error output, where that is a terminal.
    fill : bool
        Whether tables are filled; without it a model with unfilled ones is refused.

    Returns
    -------
    Report
        The same bytes, however the runs are shared out.

    Raises
    ------
    Stopped
        If a person stops it.  Its `report` has the runs that were made, from the first one on.
    ProgramError
        If the program refuses the model or the plan.
    """
    first = whole("first_run", first_run, 1, seeds.MOST_RUNS)
    text = ready(model, fill=fill)
    attrs = Provenance(
        hashlib.sha256(program.as_bytes(text)).hexdigest(),
        program.checksum(),
        plan.until,
        plan.events,
        tuple(plan.start),
        0,
        plan.seed,
        first,
    )
    made: list[Report] = []
    for until in (plan.warm_up, plan.until) if plan.warm_up else (plan.until,):
        task = _Runs(text, plan, until, first)
        title = f"{progress} (warm-up)" if progress and plan.warm_up > until else progress
        runs = len(made[0]) if made else plan.runs
        lots, stopped = execution.runs_shared_out(task, runs, plan, progress=title)
        parts = [part for lot in lots for part in lot]
        report = Report(_joined(parts), label, attrs, plan.on_cut) if parts else None
        if stopped:
            raise Stopped(str(stopped), _whole_part(plan, made, report), stopped.number)
        assert report is not None
        made.append(report)
    return made[1].after(made[0]) if plan.warm_up else made[0]


def _whole_part(plan: Plan, made: list[Report], report: Report | None) -> Report | None:
    """What a call has that was stopped: with a warm-up, the runs of which both parts were made."""
    if report is None or not plan.warm_up:
        return report
    return report.after(made[0].front(len(report))) if made else None


# Histories


def run(model: ModelLike, plan: Plan, *, number: int = 1, fill: bool = True) -> History:
    """The history of a run of the plan's series.

    Parameters
    ----------
    number : int
        The number of the run, from 1; `History.outcome` says how it ended.
    """
    return History.of_blocks(blocks(ready(model, fill=fill), plan, number), "sigma run")


def notes(model: ModelLike, plan: Plan, *, number: int = 1, fill: bool = True) -> Iterator[Note]:
    """The notes of a run as they come, for runs that are too long to keep."""
    return notes_of(blocks(ready(model, fill=fill), plan, number), "sigma run")


def blocks(text: str, plan: Plan, number: int) -> Iterator[bytes]:
    """The bytes of the history of a run of the plan's series, as they come; the text's tables are filled."""
    seed = seeds.spawn(plan.seed, number)
    words = [*_words("run", plan, plan.until), f"--seed={seed}"]
    return program.blocks(words, text, _HISTORY)


# Values at events

Wanted = tuple[str, str, str]
"""An event, a formula over watched items, and a condition or an empty text."""


class _Watch:
    """Makes a run, and keeps the values at some events."""

    def __init__(self, text: str, plan: Plan, wanted: Sequence[Wanted]) -> None:
        self._text, self._wanted = text, list(wanted)
        self._plan = plan.change(client=None)

    def __call__(self, number: int) -> tuple[list[Any], list[bool], str]:
        only = frozenset(event for event, _, _ in self._wanted)
        read = blocks(self._text, self._plan, number)
        history = History.of_blocks(read, "sigma run", only=only)
        made, seen = [], []
        for event, value, where in self._wanted:
            after = history.times(event) > (self._plan.warm_up or -1)
            values = history.at_event(event, value)[after]
            seen.append(len(values) > 0)
            if where and len(values):
                values = values[history.at_event(event, where)[after].astype(bool)]
            made.append(values)
        return made, seen, history.outcome


def observe(
    model: ModelLike,
    event: str,
    value: str,
    plan: Plan,
    *,
    where: str = "",
    first_run: int = 1,
    progress: str = "",
) -> Observations:
    """The value of a formula at each occurrence of a watched event after the warm-up, where a condition holds then.

    Raises
    ------
    IncompleteRuns
        If runs were cut off, unless the plan keeps these.
    NoEstimate
        If the event occurs in no run; only watched events are seen.
    """
    wanted = [(event, value, where)]
    return observe_all(model, wanted, plan, first_run=first_run, progress=progress)[0]


def observe_all(
    model: ModelLike,
    wanted: Sequence[Wanted],
    plan: Plan,
    *,
    first_run: int = 1,
    progress: str = "",
) -> list[Observations]:
    """Several events, values and conditions of the same runs, each of which is made once; see `observe`."""
    for _, value, where in wanted:
        Formula(value)
        if where:
            Formula(where)
    text = ready(model)
    numbers = range(first_run, first_run + plan.runs)
    answers = execution.shared_out(_Watch(text, plan, wanted), numbers, plan, progress=progress)
    cut = [outcome for *_, outcome in answers if outcome in ("fault", "budget")]
    if cut and plan.on_cut == "raise":
        raise cut_off(f"of {plan.runs} runs", cut.count("fault"), cut.count("budget"))
    given = np.array([seeds.spawn(plan.seed, number) for number in numbers], dtype=np.uint64)
    made = []
    for at, (event, _, _) in enumerate(wanted):
        if not any(seen[at] for _, seen, _ in answers):
            raise NoEstimate(
                f"{event} doesn't occur in {plan.runs} runs; only events in the model's watch list are seen"
            )
        values = [each[at] for each, _, _ in answers]
        of_run = np.repeat(np.arange(plan.runs), [len(each) for each in values])
        made.append(Observations(of_run, np.concatenate(values), given))
    return made
