# PAIRS of producers and consumers in SimPy 2: each producer sends a number every 1 to 7 units of time, until
# the clock is at UNTIL.
import sys
from SimPy.Simulation import Process, Store, activate, get, hold, initialize, put, simulate

pairs, until = int(sys.argv[1]), int(sys.argv[2])
taken = 0


class Producer(Process):
    def go(self, link, pause):
        number = 0
        while True:
            yield hold, self, pause
            yield put, self, link, [number]
            number += 1


class Consumer(Process):
    def go(self, link):
        global taken
        while True:
            yield get, self, link, 1
            taken += 1


initialize()
for i in range(pairs):
    link = Store(initialBuffered=[])
    it = Producer()
    activate(it, it.go(link, i % 7 + 1))
    it = Consumer()
    activate(it, it.go(link))
simulate(until=until)
print(taken, "messages")
