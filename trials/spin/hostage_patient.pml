// As hostage.pml, with a client that waits for each answer.
// --stuck
// --with 'thread 2.1 sending ..': phase[OTHER] == sending
// --with 'thread 1.1 ended ..': phase[CLIENT] == ready
#define HOME(t) (t != CLIENT)
#define FIRST_RECEIVE_IS_ZERO false
#define ANSWER_IS_ZERO true
#include "answers.inc"
