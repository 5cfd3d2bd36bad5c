# %% [markdown]
# # Reducing, with reasons
# A reduced model is smaller and shows the same. Each step has a reason, and the program proves what it does: so you may
# read the small model in place of the large one.
# %%
from pathlib import Path

import pandas as pd

import sigma_lab as sl

EXAMPLES = Path("../../examples")
polling = sl.Model.read(EXAMPLES / "polling.sigma").check()
polling
# %% [markdown]
# A link sends a packet, waits for its acknowledgement, and rests. An earlier plan left parts that do nothing any more.
# %%
reduction = polling.reduce()
for sentence in reduction.why():
    print("-", sentence)
# %%
reduction.model


# %%
def size(model):
    """How much there is to read."""
    graph = model.graph
    edges = sum(len(each.edges) for each in graph.vertices)
    return {"events": len(graph.vertices), "variables": len(graph.variables), "edges": edges}


pd.DataFrame({"before": size(polling), "after": size(reduction.model)})
# %% [markdown]
# ## Need I believe it?
# The reduction has a certificate, a list of its steps. `certify` checks it step by step, without the reducer. `compare`
# says of any two models whether they show the same. A theorem stands behind `sound` and behind `same`.
# %%
print("certificate:", reduction.verdict())
print("compare:", polling.compare(reduction.model, sl.Plan(2000, runs=20)))
# %% [markdown]
# ## Narrower ranges
# Whether a condition can hold is decided by the declared ranges. The ferry declares wide ones, so nothing is found:
# %%
ferry = sl.Model.read(EXAMPLES / "ferry.sigma")
ferry.reduce().why()
# %% [markdown]
# `narrow` declares ranges that no run leaves, and then there is something to remove.
# %%
for sentence in ferry.narrow().reduce().why():
    print("-", sentence)
# %% [markdown]
# ## Which order matters
# Two events conflict if one reads or draws what the other writes or draws. If both are due at one moment, their order may
# matter. How often were they, and did the other order change what is watched?
# %%
from sigma_lab.meets import meets

meets(sl.Model.read(EXAMPLES / "bank.sigma"), sl.Plan(600, runs=10))
# %% [markdown]
# A customer came at a minute in which another one left on 363 occasions, and in no run did the order change anything that
# is watched. Had `matters` been true, the model would need a priority that says who goes first.
# ## What an author may have missed
# These are allowed, and often a slip. A note is weaker than a warning.
# %%
from sigma_lab import lint

lint.frame(lint.lint(sl.Model.read(EXAMPLES / "clinic.sigma")))
