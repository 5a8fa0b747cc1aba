/* The emulator of the Ipc system call of L4 X.2 as a library: a buffer in, a buffer out.
 *
 * A call does what the program `l4run` does with the same words. The files that the words name are
 * texts in memory, and what the program would print goes into buffers of the caller. It touches no
 * file, starts no thread, waits for nobody, and keeps nothing for the next call.
 *
 *     run      goes in rounds on the calling thread: each processor takes a turn, the lowest first;
 *              where a round does nothing, all clocks go on to the least deadline. So it prints what
 *              `replay --schedule '' --then-rest` prints, with the turns of the run. The program has
 *              several processors work at the same time, and may take another order.
 *     step     takes its lines from the file `-`, and answers all of them.
 *     others   replay, audit, chart, endings, lint, help: as the program does. A chart is drawn as
 *              for an output that is no terminal.
 *
 * WORDS are those behind the name of the program, each ended by a byte 0, one behind the other, as
 * "run\0m.l4\0--report" with the 0 that C puts behind it. What follows the last 0 is no word.
 *
 * FILES have the names that words may have for them, without a 0. At most three are read: the
 * machine text; the trace of audit and chart, the list that `--schedule @NAME` names, or the lines
 * of step; and what `--expect` names. A file without a name is not there. Of two with one name the
 * first is taken. A name among the words that no file has is a fault, `l4run: cannot read NAME`. The
 * name `-` of the standard input is a name like any other.
 *
 * ANSWERS are what goes to the output, to the faults and into the record of `--record`, and the exit
 * status of the program:
 *
 *     0 quiet, passed or whole, or help    2 wrong usage    4 an expectation does not hold
 *     1 a fault, in one line               3 turns were used up, or a search was cut
 *
 * Whatever the words and the files have in them, there is an answer. Where memory is refused, it is
 * the fault `l4run: no memory`. A call after a fault is like any other.
 *
 * BUFFERS: each answer is put to the beginning of its buffer, without a 0 behind it, if it fits. A
 * buffer that is too small stays as it is, and so does what lies behind the answer. `lengths` has the
 * lengths of all three answers, whether they fit or not: call again with as much room. A call with
 * no room at all costs what a call costs.
 *
 * WHAT A CALLER OWES, and nothing checks:
 *
 * - A pointer with its length has as many bytes. No pointer is NULL, also where the length is 0.
 * - `out`, `faults`, `recorded` and `lengths` overlap with nothing else that is passed.
 * - Nobody else writes to what is passed while the call is under way, nor reads what it writes.
 *   Calls of several threads at once are fine, each with buffers of its own.
 * - `malloc`, `realloc` and `free` are those of one C library, and align blocks as C asks for.
 * - It is not called from a signal handler, nor in a child of `fork` of a process with threads.
 * - There is enough stack. A thread of 1 MiB has it.
 *
 * WHAT IS PROVED is that the answer is one of the job that the words ask for (docs/PROOFS.md), if
 * the caller does what it owes. It rests on the proof's toolchain, on clang, and on the C library.
 */
#ifndef L4EMU_H
#define L4EMU_H

#include <stddef.h>
#include <stdint.h>

#ifdef __cplusplus
extern "C" {
#endif

/* The lengths of what a call answered, whether it fits or not. */
struct l4emu_lengths {
    size_t out, faults, recorded;
};

/* Does what the words ask for, and returns the status, 0 to 4. */
uint8_t l4emu_perform(const uint8_t *words, size_t words_length,
                      const uint8_t *first_name, size_t first_name_length,
                      const uint8_t *first, size_t first_length,
                      const uint8_t *second_name, size_t second_name_length,
                      const uint8_t *second, size_t second_length,
                      const uint8_t *third_name, size_t third_name_length,
                      const uint8_t *third, size_t third_length,
                      uint8_t *out, size_t out_room,
                      uint8_t *faults, size_t faults_room,
                      uint8_t *recorded, size_t recorded_room,
                      struct l4emu_lengths *lengths);

/* The same for C, with structs in place of twenty-one arguments. It is no more than that call. */

struct l4emu_bytes {
    const void *at; /* may be NULL where length is 0 */
    size_t length;
};

struct l4emu_file {
    struct l4emu_bytes name, text;
};

struct l4emu_room {
    void *at; /* may be NULL where length is 0 */
    size_t length;
};

struct l4emu_answer {
    struct l4emu_room out, faults, recorded;
};

static inline uint8_t l4emu_call(struct l4emu_bytes words, const struct l4emu_file files[3],
                                 const struct l4emu_answer *answer, struct l4emu_lengths *lengths) {
    uint8_t none[3];
#define L4EMU_GIVEN(bytes) (const uint8_t *)((bytes).at ? (bytes).at : ""), (bytes).length
#define L4EMU_ROOM(room, place) (uint8_t *)((room).at ? (room).at : &none[place]), (room).length
    return l4emu_perform(L4EMU_GIVEN(words), L4EMU_GIVEN(files[0].name), L4EMU_GIVEN(files[0].text),
                         L4EMU_GIVEN(files[1].name), L4EMU_GIVEN(files[1].text),
                         L4EMU_GIVEN(files[2].name), L4EMU_GIVEN(files[2].text),
                         L4EMU_ROOM(answer->out, 0), L4EMU_ROOM(answer->faults, 1),
                         L4EMU_ROOM(answer->recorded, 2), lengths);
#undef L4EMU_GIVEN
#undef L4EMU_ROOM
}

#ifdef __cplusplus
}
#endif
#endif
