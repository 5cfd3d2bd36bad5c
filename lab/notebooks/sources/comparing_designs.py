# %% [markdown]
# # Comparing designs
# How many should treat in an emergency department? A third one costs money, and a broken promise costs more. Here three
# questions are asked of the same model: how do the designs differ, which is the cheapest that is good enough, and which
# has the best mean?
# %%
from pathlib import Path

import sigma_lab as sl
from sigma_lab import experiments, plots

emergency = sl.Model.read(Path("../../examples") / "emergency.sigma").check()
plan = sl.Plan(960, runs=100)
# %% [markdown]
# `FREE` is how many can treat. `BROKEN[0]` counts the red patients of a day who waited too long, and `FREE.average` is how
# many had nothing to do.
# ## How do designs differ?
# %%
table = emergency.sweep({"FREE": [2, 3, 4]}, ["BROKEN[0]", "FREE.average"], plan)
table.frame[["FREE", "measure", "value", "low", "high", "more", "more_low", "more_high"]].round(3)
# %%
plots.sweep(table.frame, "FREE", "BROKEN[0]")
# %% [markdown]
# With two, 1.65 promises to red patients are broken a day; with three, a sixth as many. `more` is the difference from the
# first design, with its interval. For each measure the intervals hold together over the designs.
#
# All designs have the same seeds, so that a bad day is bad in each, and a difference is known better than the means are.
# How many times fewer runs does that take?
# %%
from sigma_lab.comparisons import pairing_gain

two, three = (table.reports[name].values("BROKEN[0]", "last") for name in list(table.reports)[:2])
round(pairing_gain(two, three), 1)
# %% [markdown]
# ## Which is the cheapest that is good enough?
# At most one broken promise a day, and each of those who treat costs 4. `by 0.5` is the margin: a design that is taken
# meets 1, and a design that meets 0.5 isn't passed over. What wasn't seen may still happen, so the search has to know how
# bad a day can be: `worst` says that no day has more than 40.
# %%
found = emergency.search(
    {"FREE": range(2, 7)},
    cost="4*FREE",
    targets=["BROKEN[0] <= 1 by 0.5"],
    worst={"BROKEN[0]": 40},
    plan=plan,
)
found.log[["FREE", "cost", "state", "runs"]]
# %% [markdown]
# Two are too few, and three are enough. The design that is chosen looks a little better than it is, so it is run anew, with
# runs that no design had:
# %%
print(found.design.name, "costs", found.cost)
for target, made in found.fresh.items():
    print(f"{target}: {made}; confirmed: {found.confirmed}")
# %% [markdown]
# ## Which has the best mean?
# An inventory is reviewed each week. If fewer than `S` pieces are there or on their way, so many are ordered that there
# are `U`. What a week costs is made of orders (32 each and 3 a piece), pieces on the shelf and pieces that are owed.
# %%
import sys

sys.path.append("../examples")
from inventory import WEEK, build

WEEKS = 60
inventory = build()
cost = f"SHELF.average + 5*OWED.average + 32*ORDERS/{WEEKS} + 3*PIECES/{WEEKS}"
levels = {"S": [70, 90, 110], "U": [160, 215]}
year = sl.Plan(WEEKS * WEEK, runs=50)
costs = inventory.sweep(levels, [cost], year, where="S < U")
costs.frame[["S", "U", "value", "low", "high"]].round(1)
# %% [markdown]
# The two cheapest are close. A selection goes on until the best is known up to 3: with 95 % no other design is cheaper by
# 3 or more than the chosen one. It makes more runs of those designs alone that are still in question. Again it has to know
# how far a run may go: from 60 to 300.
# %%
best = inventory.select_best(
    levels, cost, indifference=3, worst=(60, 300), plan=year, where="S < U"
)
best.table[["S", "U", "mean", "runs", "state"]].round(1)
# %%
print(best.design.name, "after", best.runs, "runs; certain:", best.certain)
