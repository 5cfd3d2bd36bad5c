"""A network of four nodes: messages that are sent again until they are acknowledged.

A message goes through the nodes one after the other.  A node sends one copy at a time, and drops what comes while its
buffer is full.  The last node acknowledges; if no acknowledgement comes in time, the sender sends another copy, at
most four times.  Other traffic loads the second node.  A tick is 1/100 millisecond.
"""

from sigma_lab.model import Model
from sigma_lab.patterns import Flow, Resource
from sigma_lab.terms import clk, draw

TIMEOUT = 6000
TRIES = 5


def build() -> Model:
    """The model; its starting value is how many wait at a node at most."""
    m = Model("NETWORK", note=__doc__)
    room = m.var("ROOM", 0, 100, 8)
    m.starts_with(room)

    def drawn(name: str, words: str):
        return draw(m.stream(), m.table(name, words))

    nodes = [Resource(m, f"NODE_{at}") for at in range(1, 5)]
    message, copy, other = (
        Flow(m, "MESSAGE", most=400),
        Flow(m, "COPY", most=400),
        Flow(m, "OTHER", most=200),
    )
    serial, tries = message.attribute("SERIAL", 0, 10**9), message.attribute("TRY", 0, TRIES)
    of, its_serial = copy.reference("OF"), copy.attribute("COPY_SERIAL", 0, 10**9)
    sent, lost = m.var("SENT", 0, 10**9), m.var("LOST", 0, 10**9)
    delivered, took = m.var("ACKNOWLEDGED", 0, 10**9), m.var("TOOK", 0, 10**12)
    copies, dropped = m.var("COPIES", 0, 10**9), m.var("DROPPED", 0, 10**9)

    message.arrive(gap=drawn("GAP", "exponential 650"))
    message.set(sent, sent + 1)
    message.set(serial, sent)
    message.at("SEND")
    message.set(tries, tries + 1)
    message.step().urgent(copy.comes)
    message.delay(TIMEOUT, name="TIMEOUT")
    message.go("SEND", when=tries < TRIES)
    message.set(lost, lost + 1)
    message.go("FORGOTTEN")
    message.at("DELIVERED", from_outside=True)
    message.set(took, took + clk - message.came)
    message.set(delivered, delivered + 1)
    message.at("FORGOTTEN")
    message.set(serial, 0)  # so that later copies find no message
    message.leave()

    copy.arrive()
    copy.set(of, message.it)
    copy.set(its_serial, serial)
    copy.set(copies, copies + 1)
    for at, node in enumerate(nodes):
        copy.go("DROP", when=node.queue[0] >= room)
        copy.serve(node, drawn(f"TIME_{at + 1}", "exponential 330"))
    copy.delay(draw(m.stream(), 200, 600))
    is_known = message.of(serial, of) == its_serial
    copy.step().cancel("TIMEOUT", of, when=is_known).urgent("DELIVERED", of, when=is_known)
    copy.leave()
    copy.at("DROP")
    copy.set(dropped, dropped + 1)
    copy.leave()

    other.arrive(gap=drawn("OTHER_GAP", "exponential 2000"))
    other.go("OTHER_DROP", when=nodes[1].queue[0] >= room)
    other.serve(nodes[1], drawn("OTHER_TIME", "exponential 330"))
    other.at("OTHER_DROP")
    other.leave()
    m.watch(sent, lost, delivered, took, copies, dropped, nodes[1].queue)
    return m


if __name__ == "__main__":
    print(build().check().text, end="")
