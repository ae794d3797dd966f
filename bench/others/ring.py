# A ring of STATIONS in SimPy 2: a token goes round, a unit of time for each hop, until HOPS are done.
import sys
from SimPy.Simulation import Process, Store, activate, get, hold, initialize, put, simulate, stopSimulation

stations, hops = int(sys.argv[1]), int(sys.argv[2])


class Station(Process):
    def go(self, left, right, first):
        if first:
            yield put, self, right, [0]
        while True:
            yield get, self, left, 1
            token = self.got[0]
            yield hold, self, 1
            if token + 1 >= hops:
                print(token + 1, "hops")
                stopSimulation()
            yield put, self, right, [token + 1]


initialize()
links = [Store(initialBuffered=[]) for _ in range(stations)]
for i in range(stations):
    it = Station()
    activate(it, it.go(links[i], links[(i + 1) % stations], i == 0))
simulate(until=10 * hops + 10)
