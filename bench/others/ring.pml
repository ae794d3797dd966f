/* A ring of STATIONS in Promela, which has no time: a token goes round until HOPS are done. */
chan link[STATIONS] = [0] of { int };

proctype Station(byte i; bool first) {
  int token;
  if
  :: first -> link[(i + 1) % STATIONS]!0
  :: else
  fi;
  do
  :: link[i]?token;
     token++;
     if
     :: token >= HOPS -> printf("%d hops\n", token); break
     :: else -> link[(i + 1) % STATIONS]!token
     fi
  od
}

init {
  byte i;
  atomic {
    for (i : 0 .. STATIONS - 1) {
      run Station(i, i == 0)
    }
  }
}
