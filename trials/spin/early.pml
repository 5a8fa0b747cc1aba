// A cancellation that may come too early. The sleep before it is left out: it may be over at any moment.
// --stuck
// --with 'thread 1.1 receiving ..': phase[CLIENT] == receiving
// --with 'thread 1.1 ended ..': phase[CLIENT] == ready
#define HOME(t) (t != CLIENT)
#include "letters.inc"

proctype Client() {
    call(CLIENT, SERVER, false)
}

proctype Canceller() {
    begin_order(OTHER, CLIENT);
    phase[OTHER] == ready
}

proctype Server() {
    begin_receive(SERVER, ANYBODY);
end:
    phase[SERVER] == ready
}

init {
    atomic { start_processors(); run Client(); run Canceller(); run Server() }
}
