# %% [markdown]
# # From a text to a decision
# A bank has two tellers. Is a third one worth it? The model is a text; `./sigma` decides what it means. Python makes
# runs of it, and shows what they say.
# %%
from pathlib import Path

import sigma_lab as sl
from sigma_lab import experiments, plots

EXAMPLES = Path("../../examples")
bank = sl.Model.read(EXAMPLES / "bank.sigma").check()
bank
# %% [markdown]
# Each circle is an event, and each arrow schedules another one. A tick is a minute. In words:
# %%
print(bank.describe())
# %% [markdown]
# A slip in the text is told with its place.
# %%
print(
    sl.Model.from_text(bank.text.replace("when IDLE > 0", "when IDLE == 1"), "slip.sigma").problem()
)
# %% [markdown]
# ## One day
# A run is one day, until nobody is inside. A history has a row for each change of what the model watches.
# %%
day = bank.run(sl.Plan(600))
day.to_frame().tail(5)
# %%
plots.course(day, ["QUEUE"], 60, "hours", quantity="customers who wait")
# %% [markdown]
# ## Two hundred days
# One day proves little. A plan says how many runs there are, and how long.
# %%
plan = sl.Plan(600, runs=200)
days = bank.replicate(plan)
days.summary()
# %% [markdown]
# On average 0.7 customers wait, and a teller is idle for 0.15 of the time. The interval from `low` to `high` holds the
# true mean in 95 of 100 such experiments. Single days differ far more than that:
# %%
plots.histogram(
    {"two tellers": days.values("QUEUE", "average")}, 0.2, "mean queue of a day", "customers"
)
# %%
print("one further day:", days.predict("QUEUE.average"))
print("nine days in ten:", days.quantile("QUEUE.average", 0.9))
# %% [markdown]
# ## A third teller
# The new design is the same text with one number changed. Both have the same seeds, so the same customers come at the
# same minutes, and days are compared with the same days.
# %%
third = sl.Model.from_text(bank.text.replace("var IDLE : 0..2 = 2", "var IDLE : 0..3 = 3")).check()
designs = {"two": days, "three": third.replicate(plan)}
experiments.compare_reports(designs, sl.measure("QUEUE.average"))
# %% [markdown]
# `more` is what three tellers have more than two: their queue is shorter by 0.64 customers, and hardly anybody waits. So a
# third teller saves 0.64 customers times eight hours, or 5.1 hours of waiting a day. Whether that is worth a wage is
# yours to say.
# ## A model of your own
# Patterns write queues, resources and the ways of entities. Here a patient comes every 4 to 12 minutes. One in five is
# urgent and is seen first. The others go home after 45 minutes of waiting.
# %%
from sigma_lab.patterns import Flow, Resource
from sigma_lab.terms import draw

clinic = sl.Model("CLINIC")
doctors = clinic.var("DOCTORS", 1, 9, 2)
clinic.starts_with(doctors)
doctor = Resource(clinic, "DOCTOR", doctors, classes=2)
patient = Flow(clinic, "PATIENT", most=300)
urgency = patient.attribute("URGENCY", 0, 1)
patient.arrive(gap=draw(clinic.stream(), 4, 12), until=600)
patient.set_drawn(urgency, draw(clinic.stream(), clinic.table("TRIAGE", {0: 1, 1: 4})))
patient.serve(
    doctor, draw(clinic.stream(), 8, 24), urgency, by=0, patience=45, impatient=urgency == 1
)
patient.leave()
patient.log(urgency)
clinic.watch(doctor.queue, doctor.busy, doctor.left, patient.stayed, patient.done)
clinic.check()
print(clinic.outline())
# %% [markdown]
# A log has a row for each patient: when they came, how long they waited and were treated, and how it ended.
# %%
patients = patient.entities(clinic.run(sl.Plan(960, start=(2,))))
patients.head(5)
# %%
patients.groupby("end")[["waited", "served"]].agg(["count", "mean"]).round(1)
# %% [markdown]
# How many doctors does it take? `DOCTORS` is a starting value, so each number is a design.
# %%
table = clinic.sweep(
    {"DOCTORS": [1, 2, 3]}, ["DOCTOR_QUEUE[1].average", "DOCTOR_LEFT[1]"], sl.Plan(960, runs=100)
)
table.frame[["DOCTORS", "measure", "value", "low", "high"]].round(2)
# %% [markdown]
# With one doctor half of the patients give up; with two hardly anyone does.
# ## Why a run faults
# A desk has room for one visitor, and services are too long: an event asks for more than its variable's range allows.
# The fault has its event, the change, and the values then.
# %%
from sigma_lab.faults import whyfault
from sigma_lab.trace import trace

desk = sl.Model.read(EXAMPLES / "desk.sigma")
slow = sl.Model.from_text(desk.text.replace("0..20", "0..1").replace("after 4", "after 14"))
print(whyfault(slow, until=30, seed=7))
# %% [markdown]
# A trace has all events until then, with what each changed.
# %%
trace(slow, 0, 13, seed=7)
# %% [markdown]
# Go on with [comparing designs](comparing_designs.ipynb), [input modelling](input_modelling.ipynb) and
# [reducing](reducing.ipynb).
