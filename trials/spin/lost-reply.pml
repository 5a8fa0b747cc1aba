// A client that sends and receives in two calls, and a server that answers with time zero, on one processor.
// --stuck
// --with 'thread 1.1 receiving ..': phase[CLIENT] == receiving
// --with 'thread 1.1 ended ..': phase[CLIENT] == ready
#define HOME(t) 0
#include "letters.inc"

proctype Client() {
    begin_send(CLIENT, SERVER, NOBODY, false, false);
    phase[CLIENT] == ready;
    begin_receive(CLIENT, SERVER);
    phase[CLIENT] == ready
}

proctype Server() {
    begin_receive(SERVER, ANYBODY);
end:
    phase[SERVER] == ready;
    do
    :: last[SERVER] == NOBODY ->
        begin_receive(SERVER, ANYBODY);
end_receive:
        phase[SERVER] == ready
    :: else ->
        begin_send(SERVER, last[SERVER], ANYBODY, true, false);
        phase[SERVER] != sending;
end_answer:
        phase[SERVER] == ready
    od
}

init {
    atomic { start_processors(); run Client(); run Server() }
}
