// A ring of STATIONS in SystemC: a token goes round, a unit of time for each hop, until HOPS are done.
#include <systemc.h>

#include <cstdlib>
#include <iostream>
#include <memory>
#include <vector>

static long hops;

struct Station : sc_module {
  sc_fifo_in<long> left;
  sc_fifo_out<long> right;
  bool first;
  SC_HAS_PROCESS(Station);
  Station(sc_module_name name, bool first) : sc_module(name), first(first) { SC_THREAD(go); }
  void go() {
    if (first) right.write(0);
    for (;;) {
      long token = left.read();
      wait(1, SC_NS);
      if (token + 1 >= hops) {
        std::cout << token + 1 << " hops" << std::endl;
        sc_stop();
      }
      right.write(token + 1);
    }
  }
};

int sc_main(int count, char** words) {
  if (count < 3) return 2;
  int stations = std::atoi(words[1]);
  hops = std::atol(words[2]);
  std::vector<std::unique_ptr<sc_fifo<long>>> links;
  std::vector<std::unique_ptr<Station>> ring;
  for (int i = 0; i < stations; i++) links.emplace_back(new sc_fifo<long>(1));
  for (int i = 0; i < stations; i++) {
    ring.emplace_back(new Station(sc_gen_unique_name("s"), i == 0));
    ring[i]->left(*links[i]);
    ring[i]->right(*links[(i + 1) % stations]);
  }
  sc_start();
  return 0;
}
