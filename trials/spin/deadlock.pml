// Two servers that call each other.
// --stuck
#define THREADS 2
#include "rendezvous.inc"

proctype Caller(byte me; byte server) {
    to[server]!me;
    to[me]?eval(server)
}

init {
    atomic { run Caller(0, 1); run Caller(1, 0) }
}
