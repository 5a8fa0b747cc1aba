// Two locks that two threads take in opposite order.
// --stuck
#include "locks.inc"

init {
    atomic { start_locks(); run Taker(0, ONE, OTHER); run Taker(1, OTHER, ONE) }
}
