// A cancellation that comes when the server says that it has the call.
// --stuck
// --with 'thread 1.1 receiving ..': phase[CLIENT] == receiving
// --with 'thread 1.1 ended ..': phase[CLIENT] == ready
#define HOME(t) (t != CLIENT)
#include "letters.inc"

proctype Client() {
    call(CLIENT, SERVER, false)
}

proctype Canceller() {
    begin_receive(OTHER, SERVER);
    phase[OTHER] == ready;
    begin_order(OTHER, CLIENT);
    phase[OTHER] == ready
}

proctype Server() {
    begin_receive(SERVER, ANYBODY);
end:
    phase[SERVER] == ready;
    begin_send(SERVER, OTHER, NOBODY, false, false);
    phase[SERVER] == ready
}

init {
    atomic { start_processors(); run Client(); run Canceller(); run Server() }
}
