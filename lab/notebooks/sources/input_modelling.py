# %% [markdown]
# # From measured times to a model
# Somebody stood at a desk with a watch, and wrote down how long 150 services took, in whole minutes. Which distribution
# do they follow, how does the model get it, and does it matter?
# %%
from math import log, sqrt

import numpy as np

import sigma_lab as sl
from sigma_lab import inputs, plots

chance = np.random.default_rng(4)
variance = log(1 + (5 / 9) ** 2)
minutes = np.maximum(1, np.round(chance.lognormal(log(9) - variance / 2, sqrt(variance), 150)))
minutes[:10]
# %% [markdown]
# (These were drawn from a lognormal law with mean 9 and deviation 5, so that we know what a fit should find.)
# ## Look first
# %%
plots.histogram({"services": minutes}, 1, "service", "minutes")
# %% [markdown]
# If a time depends on the one before, as when a tired clerk gets slower, no table of a distribution will do. Almost all
# bars should stay inside of the band.
# %%
plots.correlogram(minutes, lags=20, what="services")
# %% [markdown]
# ## Fit
# A tick of the model shall be a second, so a minute has 60 ticks. The fit finds that times were rounded to whole minutes,
# and takes 7 for all that rounds to 7. A fit that took it for exactly 7 would refuse the true law.
# %%
found = inputs.fit(minutes, tick=60)
print("rounded to the", found.rounding, "ticks; neighbours depend:", found.autocorrelation_p < 0.05)
found.table[["family", "numbers", "aic_more", "distance", "p", "fits"]].head(6)
# %% [markdown]
# `aic_more` is how much worse a law describes the times than the best one. `p` is how often samples of the fitted law lie
# as far from it as these times do: below 0.05 the law doesn't fit. Several laws fit 150 times; the best is the true one:
# %%
found.best.words
# %% [markdown]
# ## A table of the model
# The program draws from tables of whole numbers. These words become a table of 200 rows, and it says what that costs:
# %%
print(inputs.discretize(found.best, name="SERVICE").summary)
# %% [markdown]
# ## The model with it
# %%
from sigma_lab.patterns import Flow, Resource
from sigma_lab.terms import draw

m = sl.Model("DESK")
desk = Resource(m, "DESK")
visitor = Flow(m, "VISITOR", most=500)
visitor.arrive(gap=draw(m.stream(), m.table("GAP", "exponential 720")))
visitor.serve(desk, draw(m.stream(), m.table("SERVICE", found.best.words)))
visitor.leave()
m.watch(desk.queue, desk.busy, desk.waited, desk.served)

day = sl.Plan(8 * 3600, runs=200)
mean_wait = sl.ratio("DESK_WAITED[0]", "DESK_SERVED[0]", scale=1 / 60, unit="min")
report = m.check().replicate(day)
print("busy:", report.estimate("DESK_BUSY.average"))
print("wait:", report.estimate(mean_wait))


# %% [markdown]
# ## Does the law matter?
# The same desk with other laws of the same mean: the next best fit, an exponential one, and services that don't vary.
# %%
def wait(words):
    """The mean wait, with services of another law."""
    other = sl.Model.from_text(m.text)
    other.change_table("SERVICE", words)
    return other.replicate(day).estimate(mean_wait)


mean, error = found.best.mean, 60 * minutes.std(ddof=1) / sqrt(len(minutes))
laws = {
    "lognormal (fitted)": found.best.words,
    "shifted gamma (fitted)": found.table.numbers[1],
    "exponential": f"exponential {mean:.6g}",
    "always the same": {round(mean): 1},
    "fitted, an error longer": f"shifted {error:.0f} {found.best.words}",
}
waits = {name: wait(words) for name, words in laws.items()}
for name, found_wait in waits.items():
    print(f"{name:24}", found_wait)
# %%
plots.designs(waits, "mean wait, minutes")
# %% [markdown]
# Which of the fitted laws is taken hardly matters. An exponential law, which many take for want of data, makes the wait a
# quarter longer, and the mean alone makes it too short.
#
# Nor are 150 times many. Their mean has a standard error of 4.5 %. If services are longer by that error, the wait is 15 %
# longer, as the last row shows. No interval above contains this: they are about the runs, not about the data. More data
# help here, and more runs don't.
