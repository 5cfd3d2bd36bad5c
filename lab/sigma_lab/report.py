"""Reports of many runs: `Report`, and how reports join and compare."""

from __future__ import annotations

from collections.abc import Mapping, Sequence
from fractions import Fraction
from pathlib import Path
from typing import TYPE_CHECKING, Any, Literal

import numpy as np
from numpy.typing import NDArray

from . import provenance, report_columns, report_text
from .errors import BadReport, InputError, cut_off
from .plan import OnCut
from .provenance import Provenance
from .report_columns import Columns, Number
from .report_text import number_text

if TYPE_CHECKING:
    import pandas as pd

    from .estimates import Estimate
    from .measures import Measure, Sample

Method = Literal["auto", "t", "willink", "exact"]
COLUMNS = (*report_columns.COLUMNS, "average", "time", "change")


class Report:
    """The runs of one design, exact and checked.  Reports have no equality; compare `to_csv()`.

    Attributes
    ----------
    items : tuple of str
        The watched items, in order.
    seeds : array of uint64, shape (runs,)
        The seed that the program got for each run.
    outcomes : list of str
        `ended`, `stopped`, `fault` or `budget` of each run.
    times : list of int or Fraction
        The ticks of each run, after the warm-up.
    label : str
        The design's name in tables.
    attrs : Provenance
        Model, program, plan and seeds.
    on_cut : {"raise", "keep"}
        Whether estimates refuse runs that were cut off.
    """

    def __init__(
        self,
        columns: Columns,
        label: str = "report",
        attrs: Provenance = Provenance(),
        on_cut: OnCut = "raise",
        source: str = "",
    ) -> None:
        self._columns = columns
        self.items, self.outcomes, self.times = columns.items, columns.outcomes, columns.times
        self.label, self.attrs, self.on_cut = label, attrs, on_cut
        self.seeds: NDArray[np.uint64] = np.array(columns.seeds, dtype=np.uint64)
        self._check_runs(source or label)

    def _check_runs(self, source: str) -> None:
        seeds = self._columns.seeds
        if len(set(seeds)) < len(seeds):
            seen: set[int] = set()
            twice = next(seed for seed in seeds if seed in seen or seen.add(seed))  # type: ignore[func-returns-value]
            raise BadReport(f"seed {twice} is that of two runs", None, source)
        stops = {t for t, outcome in zip(self.times, self.outcomes) if outcome == "stopped"}
        if len(stops) > 1:
            shown = ", ".join(number_text(stop) for stop in sorted(stops))
            raise BadReport(f"runs stopped at other times than the first: {shown}", None, source)

    # Reading and writing

    @classmethod
    def parse(cls, data: bytes | str, source: str = "", label: str = "report") -> Report:
        """The report of a text, or of several of one design after one another.

        Raises
        ------
        BadReport
            With the line of the first fault.
        InputError
            If the text has reports of several designs.
        """
        if isinstance(data, str):
            data = data.encode("utf-8", "surrogateescape")
        parts = []
        for attrs, body, line in provenance.split(data, source):
            for columns in report_text.read(body, source, line):
                parts.append(cls(columns, source or label, attrs))
        made = concat(parts)
        made.label = label
        return made

    @classmethod
    def read(cls, path: str | Path, label: str | None = None) -> Report:
        """The report of a file.

        Raises
        ------
        BadReport
            With the file and the line of the first fault.
        InputError
            If the file can't be read.
        """
        try:
            data = Path(path).read_bytes()
        except OSError as error:
            raise InputError(f"can't read {path}: {error.strerror}") from None
        return cls.parse(data, str(path), label or Path(path).stem)

    def to_csv(self, *, with_provenance: bool = False) -> str:
        """The report as the program writes it, with totals.

        Parameters
        ----------
        with_provenance : bool
            Whether a line before it names model, program and plan, and has a checksum.
        """
        body = report_text.write(self._columns)
        return provenance.heading(self.attrs, body) + body if with_provenance else body

    # Runs

    def __len__(self) -> int:
        return len(self.seeds)

    def __repr__(self) -> str:
        return f"<Report {self.label}: {len(self)} runs of {' '.join(self.items)}>"

    @property
    def stop(self) -> Number | None:
        """When runs stopped, in ticks after the warm-up, if any did."""
        stops = (t for t, outcome in zip(self.times, self.outcomes) if outcome == "stopped")
        return next(stops, None)

    def cut_off(self) -> dict[str, int]:
        """How many runs ended by a `fault`, and how many spent their `budget`."""
        return {word: self.outcomes.count(word) for word in ("fault", "budget")}

    def check_whole(self) -> None:
        """Raises IncompleteRuns if a run was cut off, unless `on_cut` is `keep`."""
        cut = self.cut_off()
        if self.on_cut == "raise" and any(cut.values()):
            raise cut_off(f"{self.label}: of {len(self)} runs", cut["fault"], cut["budget"])

    def front(self, runs: int) -> Report:
        """The report of the first `runs` runs."""
        made = self._columns
        columns = Columns(
            made.items,
            made.seeds[:runs],
            made.outcomes[:runs],
            made.times[:runs],
            [{name: c[:runs] for name, c in values.items()} for values in made.values],
        )
        return Report(columns, self.label, self.attrs, self.on_cut)

    # Values

    def _at(self, item: str) -> int:
        if item not in self.items:
            raise InputError(
                f"no item {item} in {self.label}; its items are {' '.join(self.items)}"
            )
        return self.items.index(item)

    def is_event(self, item: str) -> bool:
        """Whether an item is an event, which has a count alone."""
        return "count" in self._columns.values[self._at(item)]

    def values(self, item: str, column: str) -> NDArray[Any]:
        """A column of an item.

        Parameters
        ----------
        item : str
            A watched item.
        column : str
            `least`, `greatest`, `last`, `area` (value times ticks), `count`, `average` (area by time), `time` (ticks)
            or `change` (by how much the last value grew since the warm-up).

        Returns
        -------
        array, shape (runs,)
            Exact numbers (object), or float64 for `average`.

        Raises
        ------
        InputError
            If there is no such item or column.
        """
        found = self._columns.values[self._at(item)]
        if column not in COLUMNS:
            raise InputError(f"no column {column}; there are {' '.join(COLUMNS)}")
        if column == "average" and "area" in found:
            if not all(self.times):
                raise InputError(f"a run of {self.label} has no average of {item}: its time is 0")
            quotients = (_quotient(area, time) for area, time in zip(found["area"], self.times))
            return np.fromiter(quotients, dtype=float, count=len(self))
        numbers = self.times if column == "time" else found.get(column)
        if numbers is None:
            if "count" in found:
                text = f"{item} is an event, which has a count, and no {column}"
            elif column == "count":
                text = f"{item} is a variable, which has no count, but {' '.join(found)}"
            elif column == "change" and self.attrs.warm_up:
                text = f"a file keeps no change of {item}: a sweep has it, or a report in Python"
            else:
                text = f"{self.label} has no {column} of {item}"
            raise InputError(text)
        exact = np.empty(len(numbers), dtype=object)
        exact[:] = numbers
        return exact

    def to_frame(self) -> pd.DataFrame:
        """A row for each run and item, the index, and the columns of the report, average, seed, outcome and time.

        Whole numbers are int64 where that has room, else Python's own numbers; what an item hasn't is NA.
        """
        from . import report_frame

        return report_frame.tidy(self)

    def wide(self, column: str = "last") -> pd.DataFrame:
        """A row for each run, numbered from 1, and a column for each item that has `column`."""
        from . import report_frame

        return report_frame.wide(self, column)

    # Other reports

    def after(self, early: Report) -> Report:
        """The report of the time after a warm-up.

        Parameters
        ----------
        early : Report
            The same runs, stopped when the warm-up ends.

        Returns
        -------
        Report
            Areas, counts and times are exact differences, run by run.

        Raises
        ------
        InputError
            If these can't be the same runs going on.
        IncompleteRuns
            If a run wasn't stopped when the warm-up ended.
        """
        from . import warm_up

        return warm_up.after(early, self)

    def concat(self, *others: Report) -> Report:
        """This report with further runs of the same design.

        Raises
        ------
        InputError
            If designs, programs or plans differ, as far as the reports know them.
        BadReport
            If a run is in both, or stop times differ.
        """
        made, attrs = self._columns, self.attrs
        seeds, outcomes, times = list(made.seeds), list(made.outcomes), list(made.times)
        values = [{name: list(column) for name, column in each.items()} for each in made.values]
        for other in others:
            known = other._columns
            shapes = [list(each) for each in known.values]
            if known.items != made.items or shapes != [list(each) for each in values]:
                raise InputError(f"{other.label} has other items than {self.label}")
            differ = attrs.differences(other.attrs)
            if differ:
                text = f"{other.label} and {self.label} are no runs of one design: {', '.join(differ)} differ"
                raise InputError(text)
            goes_on = attrs.seed is not None and (other.attrs.seed, other.attrs.first_run) == (
                attrs.seed,
                (attrs.first_run or 1) + len(seeds),
            )
            common = attrs.common(other.attrs)
            attrs = attrs if goes_on and common == attrs.common(attrs) else common
            seeds += known.seeds
            outcomes += known.outcomes
            times += known.times
            for mine, theirs in zip(values, known.values):
                for name, column in mine.items():
                    column += theirs[name]
        columns = Columns(made.items, seeds, outcomes, times, values)
        return Report(columns, self.label, attrs, self.on_cut)

    # Estimates

    def sample(self, measure: str | Measure) -> Sample:
        """The numbers of a measure, run by run.  Raises IncompleteRuns and InputError."""
        from .measures import EventMeasure
        from .measures import measure as read

        what = read(measure) if isinstance(measure, str) else measure
        if isinstance(what, EventMeasure):
            raise InputError(f"a report has no values at events: {what.label}")
        return what.of(self)

    def estimate(
        self, measure: str | Measure, *, method: Method = "auto", confidence_level: float = 0.95
    ) -> Estimate:
        """The mean over the runs, or a ratio of totals, with its interval."""
        sample = self.sample(measure)
        from . import estimators

        return estimators.estimate(sample, method=method, confidence_level=confidence_level)

    def quantile(
        self, measure: str | Measure, p: float, *, confidence_level: float = 0.95
    ) -> Estimate:
        """The quantile of single runs at `p`, above 0 and below 1, with its interval."""
        sample = self.sample(measure)
        from . import estimators

        made = estimators.quantile(sample, p, confidence_level=confidence_level)
        return made.warn(*sample.warnings)

    def predict(self, measure: str | Measure, *, confidence_level: float = 0.95) -> Estimate:
        """Between which values one further run lies."""
        sample = self.sample(measure)
        from . import estimators

        made = estimators.prediction(sample, confidence_level=confidence_level)
        return made.warn(*sample.warnings)

    def summary(self, *, confidence_level: float = 0.95) -> pd.DataFrame:
        """A row for each item with its estimate: averages of variables, counts of events."""
        from . import report_frame

        return report_frame.summary(self, confidence_level)


def _quotient(area: Number, time: Number) -> float:
    if type(area) is int and type(time) is int:
        return area / time
    return float(Fraction(area) / Fraction(time))


def concat(reports: Sequence[Report]) -> Report:
    """One report of several of one design, in their order."""
    return reports[0].concat(*reports[1:])


def check_comparable(reports: Mapping[str, Report], *, paired: bool = True) -> None:
    """Whether designs can be compared.

    Parameters
    ----------
    reports : mapping of str to Report
        The designs by name.
    paired : bool
        Runs of the same seed pair, so that all designs need the same seeds.  Without it runs are independent, so that
        no two designs may have a seed in common.

    Raises
    ------
    InputError
        If stop times, warm-ups, budgets, programs or seeds don't allow it.  It says what differs.
    """
    names = list(reports)
    first = reports[names[0]]
    for at, name in enumerate(names):
        other = reports[name]
        if None not in (first.stop, other.stop) and first.stop != other.stop:
            text = f"stopped at other times ({first.stop} and {other.stop})"
            raise InputError(f"designs {names[0]} and {name} {text}, so they don't compare")
        known = [p for p in first.attrs.differences(other.attrs) if p not in ("model", "start")]
        if known:
            raise InputError(f"designs {names[0]} and {name} differ in {', '.join(known)}")
        if paired and set(first.seeds.tolist()) != set(other.seeds.tolist()):
            text = "so runs don't pair (independent runs compare unpaired)"
            raise InputError(f"{name} has other seeds than {names[0]}, {text}")
        for before in names[:at] if not paired else []:
            if set(reports[before].seeds.tolist()) & set(other.seeds.tolist()):
                text = "have seeds in common, so they aren't independent"
                raise InputError(f"designs {before} and {name} {text}")
