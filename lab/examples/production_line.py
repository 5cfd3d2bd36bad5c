"""A line of three machines with buffers between them: how much is the room in the buffers worth?

The first machine breaks down.  The second one is set up for the kind of part, as long as the sequence demands.  Of
the parts that leave the third one, 8 % go back to the first, ahead of new ones.  There is always a new part to begin.
A tick is a second.
"""

from sigma_lab.model import Model
from sigma_lab.patterns import Buffer, Flow, Resource, Setups
from sigma_lab.terms import draw

HOUR = 3600
SETUPS = [[0, 240, 420], [180, 0, 300], [360, 240, 0]]  # from kind, to kind


def build() -> Model:
    """The model; its starting value is the room in each buffer."""
    m = Model("PRODUCTION_LINE", note=__doc__)
    room = m.var("ROOM", 1, 100, 5)
    m.starts_with(room)

    def drawn(name: str, words: str):
        return draw(m.stream(), m.table(name, words))

    first, second, third = (
        Resource(m, "FIRST", classes=2),
        Resource(m, "SECOND"),
        Resource(m, "THIRD"),
    )
    before, behind = Buffer(m, "BEFORE", room), Buffer(m, "BEHIND", room)
    first.breakdowns(drawn("UP", "exponential 14400"), drawn("REPAIR", "lognormal 1800 1200"))
    setups = Setups(m, "SETUP", SETUPS)
    part = Flow(m, "PART", most=250)
    kind, again = part.attribute("KIND", 0, 2), part.attribute("AGAIN", 0, 1)
    part.arrive()
    part.set_drawn(kind, draw(m.stream(), m.table("KINDS", {0: 5, 1: 3, 2: 2})))
    part.at("MAKE")
    part.seize(first, order=1 - again)
    part.step().urgent(part.comes, when=again == 0)  # the next new part waits for the first machine
    part.delay(drawn("FIRST_TIME", "triangular 300 420 720"))
    part.seize(before)
    part.release(first)
    part.seize(second)
    part.release(before)
    part.set_up(setups, kind)
    part.delay(drawn("SECOND_TIME", "gamma 330 80"))
    part.seize(behind)
    part.release(second)
    part.seize(third)
    part.release(behind)
    part.delay(drawn("THIRD_TIME", "weibull 480 3"))
    part.release(third)
    part.set(again, 1)
    part.route({"MAKE": 8, "GOOD": 92})
    part.at("GOOD")
    part.leave()
    with m.extend("OPEN") as e:
        e.urgent(part.comes)
    m.watch(part.done, first.busy, second.busy, third.busy, before.busy, setups.count, setups.spent)
    return m


if __name__ == "__main__":
    print(build().check().text, end="")
