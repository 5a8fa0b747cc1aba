// A server whose answer of time zero is held up across processors.
// --stuck
// --with 'thread 2.1 sending ..': phase[OTHER] == sending
// --with 'thread 1.1 ended ..': phase[CLIENT] == ready
#define HOME(t) (t != CLIENT)
#define FIRST_RECEIVE_IS_ZERO true
#define ANSWER_IS_ZERO true
#include "answers.inc"
