// A client that calls a server, which answers without a time limit.
// --stuck
#define THREADS 2
#include "rendezvous.inc"

proctype Caller(byte me; byte server) {
    to[server]!me;
    to[me]?eval(server)
}

proctype Server(byte me) {
    byte last;
end:
    to[me]?last;
    do
    :: to[last]!me;
end_next:
       to[me]?last
    od
}

init {
    atomic { run Caller(0, 1); run Server(1) }
}
