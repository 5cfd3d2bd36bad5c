"""The way of entities through a model, step by step."""

from __future__ import annotations

from collections.abc import Mapping
from functools import partial

from ..errors import InputError
from ..terms import Term, Value, draw
from ..tree import Name, Source, Variable
from . import durations
from .arriving import Arriving
from .dispatch import give_back
from .durations import Duration
from .lines import Line
from .preemptive import Preemptive
from .resource import Seizable, Team
from .way import Held, Step, named

GIVE_UP_PRIORITY = 9
DELAY_PRIORITY = 4


class Steps(Arriving):
    """Steps that seize, take time, and branch."""

    def set(self, target: Value, value: Value) -> None:
        """Stores a value in this step."""
        self.step().set(target, value)
        self.model.touch()

    def set_drawn(self, target: Value, source: Source) -> None:
        """Stores a drawn value in this step."""
        self.step().draw(target, source)
        self.model.touch()

    def seize(
        self,
        *what: Seizable,
        order: Value = 0,
        amount: Value = 1,
        patience: Duration | None = None,
        impatient: Value = True,
        gone: str | None = None,
        name: str | None = None,
    ) -> None:
        """Waits for a server, or for several resources at once, and takes them in one moment.

        Parameters
        ----------
        what : Resource, Buffer, Team or AnyOf
            Several are a team: all are taken together.
        order : Value
            The class, 0 first.
        amount : Value
            How many of one resource.
        patience : duration, optional
            Who waits longer gives up, and goes to the step `gone`, or leaves.
        impatient : Value
            Who has patience at all, as `urgency == 2`.
        name : str, optional
            The name of the step after it.
        """
        one = self._one(what)
        if isinstance(one, Preemptive):
            raise InputError(
                f"{one.name} interrupts: use `serve`, which knows how long a service takes"
            )
        served = self._join(one, order, amount, patience, impatient, gone, name)
        held = frozenset(
            (one, at)
            for at, claim in enumerate(one.line.claims)
            if any(option.comes_back for option in claim.options)
        )
        served.surely |= held
        served.perhaps |= held
        self._story.append(f"waits for {one.line.name}")

    def _one(self, what: tuple[Seizable, ...]) -> Seizable:
        if not what:
            raise InputError(f"{self.name}: seize what?")
        if len(what) == 1:
            return what[0]
        name = "_AND_".join(each.line.name for each in what)
        for each in self.pool.lines:
            if each.name == name:
                raise InputError(
                    f"{name}: seize a Team twice, which is made once by Team(model, name, ..)"
                )
        return Team(self.model, name, *what)  # type: ignore[arg-type]

    def _join(
        self,
        one: Seizable,
        order: Value,
        amount: Value,
        patience: Duration | None,
        impatient: Value,
        gone: str | None,
        name: str | None,
    ) -> Step:
        step, line = self.step(), one.line
        if any(each is one for each, _ in step.perhaps):
            raise InputError(f"{self.name} may hold {line.name} already, and would wait for itself")
        if isinstance(amount, int) and amount < 1:
            raise InputError(f"{self.name}: one seizes 1 or more: {amount}")
        if not (isinstance(amount, int) and amount == 1) and len(line.claims) > 1:
            raise InputError(f"{line.name}: the amounts of a team are given when it is made")
        if patience is not None:
            durations.check(self.name, patience)
            self._gives_up_at(line, step, order, patience, impatient)
            lost = self._leaving(step) if gone is None else self._new_step(gone, fixed=True).name
            self._steps[lost].comes_from(step)
        served = self._go_on(
            name or f"{self.name}_GETS_{line.name}", step, words=f"gets {line.name}"
        )
        number = line.join(
            step, self.it, order, served.name, lost if patience is not None else None, amount
        )
        step.later(lambda e: line.before_joining(e, self.it, number))
        return served

    def _gives_up_at(
        self, line: Line, step: Step, order: Value, patience: Duration, impatient: Value
    ) -> None:
        line.gives_up = self._gives_up = True
        event, carried = f"{line.name}_GIVE_UP", line.carried(self.it, order)
        durations.after(
            step, event, carried, patience, order, when=impatient, priority=GIVE_UP_PRIORITY
        )

    def _leaving(self, step: Step) -> str:
        """The step of those who give up and leave."""
        name = f"{self.name}_LEAVES"
        if step.perhaps:
            held = named(step.perhaps)
            raise InputError(
                f"{self.name}: who gives up holds {held}: name a step `gone` that releases it"
            )
        if name not in self._steps:
            leaves = self._new_step(name)
            leaves.is_begun = True
            self._finish(leaves)
            self._said[name] = f"{self.name}: one leaves without being served"
        return name

    def release(self, *what: Seizable) -> None:
        """Gives back what was seized: all that is surely held if nothing is named.

        Parameters
        ----------
        what : Resource, Buffer, Team or AnyOf
            A member of a team may be given back before the others.
        """
        step = self.step()
        for one in what or dict.fromkeys(each for each, _ in sorted(step.surely, key=_order)):
            held = {each for each in step.perhaps if each[0] is one} or {
                each for each in step.perhaps if one in _members(each)
            }
            if not held or len({each for each, _ in held}) > 1:
                raise InputError(f"{self.name} doesn't hold {one.line.name} here")
            step.surely -= held
            step.perhaps -= held
            ((line, numbers),) = {
                (each.line, tuple(sorted(at for _, at in held))) for each, _ in held
            }
            step.later(partial(give_back, line=line, numbers=numbers, it=self.it))
            self._story.append(f"releases {one.line.name}")
        self.model.touch()

    def delay(
        self,
        time: Duration,
        by: Value = 0,
        *,
        priority: int = DELAY_PRIORITY,
        name: str | None = None,
    ) -> None:
        """Takes so long.

        Parameters
        ----------
        time : duration
            Ticks, a term, something drawn, or one of these for each number of `by`, as `{0: RED, 1: YELLOW}`.
        by : Value
            The attribute that chooses.
        """
        durations.check(self.name, time)
        self._check_covered(time, by)
        step = self.step()
        new = self._go_on(name or f"{self.name}_GOES_ON", step, words="the delay is over")
        durations.after(step, new.name, (self.it,), time, by, priority=priority)
        self._story.append("takes its time")

    def _check_covered(self, time: Duration, by: Value) -> None:
        known = self._attributes.get(str(by).partition("[")[0])
        if isinstance(time, Mapping) and known is not None:
            missing = [number for number in range(known[0], known[1] + 1) if number not in time]
            if missing:
                raise InputError(
                    f"{self.name}: no duration for {str(by).partition('[')[0]} = {missing[0]}"
                )

    def serve(
        self,
        resource: Seizable,
        time: Duration,
        order: Value = 0,
        *,
        by: Value | None = None,
        patience: Duration | None = None,
        impatient: Value = True,
        gone: str | None = None,
    ) -> None:
        """Seizes, takes so long, and releases; preemptive servers may be interrupted meanwhile."""
        durations.check(self.name, time)
        self._check_covered(time, order if by is None else by)
        if isinstance(resource, Preemptive):
            line = resource.line
            step = self.step()
            needed = durations.store(
                step,
                line.work[self.it],
                time,
                order if by is None else by,
                f"{self.name}_AT_{line.name}"[:28],
            )
            self._variables += [each for each in needed if each not in self._variables]
            self._join(
                resource, order, 1, patience, impatient, gone, f"{self.name}_ENDS_{line.name}"
            )
            self._story.append(f"is served by {line.name}")
            return
        self.seize(resource, order=order, patience=patience, impatient=impatient, gone=gone)
        name = f"{self.name}_ENDS_{resource.line.name}"
        self.delay(time, order if by is None else by, name=name)
        self._said[self.step().name] = f"{self.name}: the service by {resource.line.name} ends"
        self.release(resource)

    def go(self, name: str, when: Value = True, otherwise: str | None = None) -> None:
        """Goes to a step that `at` begins, and else on, or to the step `otherwise`."""
        step = self.step()
        there = self._new_step(name, fixed=True)
        there.comes_from(step)
        step.urgent(name, self.it, when=when)
        self._story.append(f"goes to {name}" + ("" if when is True else f" if {when}"))
        self._step = None
        if when is True:
            return
        condition = when if isinstance(when, Term) else Term(Name(str(when)))
        if otherwise is None:
            rest = self._go_on(f"{self.name}_GOES_ON", step, words=f"doesn't go to {name}")
        else:
            rest = self._new_step(otherwise, fixed=True)
            rest.comes_from(step)
        step.urgent(rest.name, self.it, when=~condition)

    def route(self, weights: Mapping[str, int]) -> None:
        """Goes to one of several steps by chance: `route({"XRAY": 30, "HOME": 70})`."""
        if not weights or min(weights.values()) < 0 or sum(weights.values()) == 0:
            raise InputError(
                f"{self.name}: weights are 0 or more, and some are above 0: {dict(weights)}"
            )
        step = self.step()
        routes = sum(each.name.startswith(f"{self.name}_ROUTE") for each in self._variables)
        picked = f"{self.name}_ROUTE_{routes + 1}"
        self._variables.append(Variable(picked, 0, max(1, sum(weights.values()) - 1), 0))
        chance, below = Term(Name(picked), True), 0
        step.draw(chance, draw(self.model.stream(), 0, max(1, sum(weights.values()) - 1)))
        for name, weight in weights.items():
            self._new_step(name, fixed=True).comes_from(step)
            mine = (
                chance < below + weight
                if below == 0
                else (chance >= below) & (chance < below + weight)
            )
            step.urgent(name, self.it, when=mine)
            below += weight
        self._step = None

    # The end.

    def leave(self) -> None:
        """The end of the way; `stay` is how long this one was inside.

        Raises
        ------
        InputError
            If it surely holds something then, or is in a batch that isn't separated.
        """
        step = self.step()
        if step.surely:
            held = named(step.surely)
            raise InputError(f"{self.name} leaves with {held}: release it")
        if step.batches:
            raise InputError(f"{self.name} leaves in a batch: separate it")
        self._finish(step)
        step.set((self.done, self.done + 1), (self.stayed, self.stayed + self.stay))
        self._step = None
        self._story.append("leaves")


def _order(held: Held) -> tuple[str, int]:
    return held[0].line.name, held[1]


def _members(held: Held) -> tuple[object, ...]:
    return held[0].line.claims[held[1]].options
