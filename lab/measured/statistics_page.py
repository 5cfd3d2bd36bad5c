"""Writes the tables of docs/use/statistics.md from what the other scripts measured.

    python3 lab/measured/statistics_page.py
"""

from __future__ import annotations

import re
from pathlib import Path

from rows import kept

PAGE = Path(__file__).resolve().parents[2] / "docs" / "use" / "statistics.md"
FEWEST = {
    "share of runs": 1,
    "ratio of totals": 50,
    "lognormal, cv 3": 200,
    "large on 3 % of runs": 100,
    "M/M/1, load 0.8": 50,
}
"""The documented fewest runs, by method or by law; else 10."""

SEEDS = {
    "its own": "a stride of its own",
    "0x9e3779b97f4a7c15": "one stride for all",
    "independent": "independent seeds",
}
"""How the seeds of the runs of a series are given."""

LAWS = ("normal", "exponential", "lognormal, cv 3", "large on 3 % of runs")


def is_enough(row: dict[str, str]) -> bool:
    """Whether a row is of a default method, with no fewer runs than are documented."""
    fewest = FEWEST.get(row["method"], FEWEST.get(row["law"], 10))
    if row["method"].startswith("difference"):
        fewest = 10
    return not row["method"].endswith("method t") and int(row["runs"].split()[-1]) >= fewest


def coverage() -> str:
    """The intervals: for each method and law the row with the fewest runs that are enough."""
    lines = ["| interval | law | runs | holds, % |", "|---|---|---|---|"]
    shown: set[tuple[str, str]] = set()
    for row in filter(is_enough, kept("coverage")):
        method, law = row["method"], row["law"]
        if (method, law) not in shown:
            shown.add((method, law))
            note = f", {row['note']}" if row["note"].startswith("no upper") else ""
            lines.append(f"| {method} | {law} | {row['runs']} | {row['share']}{note} |")
    return "\n".join(lines)


def errors() -> str:
    """The decisions: a row for each, a column for each law."""
    rows = [*kept("decisions"), *kept("precision")]
    lines = [f"| wrong decision, % | {' | '.join(LAWS)} |", "|---|" + "---|" * len(LAWS)]
    for method in dict.fromkeys(row["method"] for row in rows):
        cells = []
        for law in LAWS:
            found = [row for row in rows if (row["method"], row["law"]) == (method, law)]
            cells.append(f"{found[0]['share']} ({found[0]['runs']})" if found else "")
        lines.append(f"| {method} | {' | '.join(cells)} |")
    return "\n".join(lines)


def seeds() -> str:
    """Intervals by how seeds are given: a row for each number of streams and runs."""
    shares = {(row["method"], row["law"], row["runs"]): row["share"] for row in kept("strides")}
    lines = [
        f"| streams | runs | {' | '.join(SEEDS.values())} |",
        "|---|---|" + "---|" * len(SEEDS),
    ]
    for streams in (1, 5, 20, 64):
        law = f"{streams} streams, 1 draws each"
        for runs in ("20", "100", "1000"):
            cells = " | ".join(shares[method, law, runs] for method in SEEDS)
            lines.append(f"| {streams} | {runs} | {cells} |")
    return "\n".join(lines)


def filled(text: str) -> str:
    """The page with its tables."""
    for name, table in (("coverage", coverage()), ("errors", errors()), ("seeds", seeds())):
        part = re.compile(rf"<!-- {name} -->\n.*?<!-- end -->", re.S)
        text = part.sub(lambda found: f"<!-- {name} -->\n{table}\n<!-- end -->", text)
    return text


if __name__ == "__main__":
    PAGE.write_text(filled(PAGE.read_text(encoding="utf-8")), encoding="utf-8")
