"""The network in SimPy 2."""

from random import Random

from SimPy.Simulation import Process, Resource, Simulation, hold, release, request

TIMEOUT, TRIES, MEAN = 6000.0, 5, 330.0


class Copy(Process):
    def way(self, net, message):
        for node in net.nodes:
            if len(node.waitQ) >= net.room:
                net.dropped += 1
                return
            yield request, self, node
            yield hold, self, net.chance.expovariate(1 / MEAN)
            yield release, self, node
        yield hold, self, net.chance.uniform(200, 600)
        if message.is_open:
            message.is_open = False
            message.interrupt(message)


class Message(Process):
    def way(self, net):
        came, self.is_open = net.now(), True
        net.sent += 1
        for _ in range(TRIES):
            net.copies += 1
            copy = Copy(sim=net)
            net.activate(copy, copy.way(net, self))
            yield hold, self, TIMEOUT
            if self.interrupted():
                net.took.append(net.now() - came)
                return
        self.is_open = False
        net.lost += 1


class Other(Process):
    def way(self, net):
        node = net.nodes[1]
        if len(node.waitQ) < net.room:
            yield request, self, node
            yield hold, self, net.chance.expovariate(1 / MEAN)
            yield release, self, node


class Come(Process):
    def way(self, net, kind, mean):
        while True:
            yield hold, self, net.chance.expovariate(1 / mean)
            one = kind(sim=net)
            net.activate(one, one.way(net))


def run(seed: int, until: float, start: tuple[int, ...]) -> dict[str, float]:
    net = Simulation()
    net.initialize()
    net.chance, net.room = Random(seed), start[0]
    net.nodes = [Resource(sim=net, monitored=at == 1) for at in range(4)]
    net.sent = net.copies = net.dropped = net.lost = 0
    net.took = []
    for kind, mean in ((Message, 650), (Other, 2000)):
        come = Come(sim=net)
        net.activate(come, come.way(net, kind, mean), at=0.0)
    net.simulate(until=until)
    return {
        "copies a message": net.copies / net.sent,
        "dropped of 1000 copies": 1000 * net.dropped / net.copies,
        "time, ms": sum(net.took) / len(net.took) / 100,
        "waiting at node 2": net.nodes[1].waitMon.timeAverage(),
    }
