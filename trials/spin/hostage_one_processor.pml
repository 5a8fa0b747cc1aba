// As hostage.pml, on one processor: the answer is refused.
// --stuck
// --with 'thread 2.1 sending ..': phase[OTHER] == sending
// --with 'thread 1.1 ended ..': phase[CLIENT] == ready
#define HOME(t) 0
#define FIRST_RECEIVE_IS_ZERO true
#define ANSWER_IS_ZERO true
#include "answers.inc"
