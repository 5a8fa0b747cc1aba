// As hostage_one_processor.pml, with an answer that has no time limit.
// --stuck
// --with 'thread 2.1 sending ..': phase[OTHER] == sending
// What 1.1 may come to is not asked: one processor has one run, and SPIN tries orders of its threads in which 1.1 is served.
#define HOME(t) 0
#define FIRST_RECEIVE_IS_ZERO true
#define ANSWER_IS_ZERO false
#include "answers.inc"
