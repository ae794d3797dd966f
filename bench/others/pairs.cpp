// PAIRS of producers and consumers in SystemC: each producer sends a number every 1 to 7 units of time, until
// the clock is at UNTIL.
#include <systemc.h>

#include <cstdlib>
#include <iostream>
#include <memory>
#include <vector>

static long taken = 0;

struct Producer : sc_module {
  sc_fifo_out<long> out;
  int pause;
  SC_HAS_PROCESS(Producer);
  Producer(sc_module_name name, int pause) : sc_module(name), pause(pause) { SC_THREAD(go); }
  void go() {
    for (long number = 0;; number++) {
      wait(pause, SC_NS);
      out.write(number);
    }
  }
};

struct Consumer : sc_module {
  sc_fifo_in<long> in;
  SC_HAS_PROCESS(Consumer);
  Consumer(sc_module_name name) : sc_module(name) { SC_THREAD(go); }
  void go() {
    for (;;) {
      in.read();
      taken++;
    }
  }
};

int sc_main(int count, char** words) {
  if (count < 3) return 2;
  int pairs = std::atoi(words[1]);
  std::vector<std::unique_ptr<sc_fifo<long>>> links;
  std::vector<std::unique_ptr<sc_module>> all;
  for (int i = 0; i < pairs; i++) {
    links.emplace_back(new sc_fifo<long>(1));
    auto* producer = new Producer(sc_gen_unique_name("p"), i % 7 + 1);
    auto* consumer = new Consumer(sc_gen_unique_name("c"));
    producer->out(*links[i]);
    consumer->in(*links[i]);
    all.emplace_back(producer);
    all.emplace_back(consumer);
  }
  // (so that what happens at that time is among it)
  sc_start(sc_time(std::atoi(words[2]), SC_NS) + sc_time(1, SC_PS));
  std::cout << taken << " messages" << std::endl;
  return 0;
}
