// Calls of the library from C: that it finds what it should, answers whatever it is given, and gives back all memory that it took.
//
//     test LOCKS.l4
//
// It is linked with --wrap for malloc, realloc and free, so that it can refuse memory.
#include "../include/l4emu.h"

#include <pthread.h>
#include <stdatomic.h>
#include <stdio.h>
#include <stdlib.h>
#include <string.h>

static void wants(int holds, const char *what) {
    if (holds) return;
    fprintf(stderr, "test: %s\n", what);
    exit(1);
}

// Of this thread: how many blocks it has, and how many more it may take. Below 0 it may take any number.
static _Thread_local long blocks, left = -1;

void *__real_malloc(size_t size);
void *__real_realloc(void *block, size_t size);
void __real_free(void *block);

static int is_refused(void) { return left == 0 || (left > 0 && left-- == 0); }

void *__wrap_malloc(size_t size) {
    void *block = is_refused() ? NULL : __real_malloc(size);
    blocks += block != NULL;
    return block;
}
void *__wrap_realloc(void *block, size_t size) {
    void *other = is_refused() ? NULL : __real_realloc(block, size);
    blocks += !block && other;
    return other;
}
void __wrap_free(void *block) {
    blocks -= block != NULL;
    __real_free(block);
}

enum { ROOM = 1 << 16 };
struct answer {
    uint8_t status;
    struct l4emu_lengths lengths;
    char out[ROOM], faults[ROOM], recorded[ROOM];
};

static struct l4emu_file file(const char *name, const void *text, size_t length) {
    return (struct l4emu_file){{name, strlen(name)}, {text, length}};
}

// The answer to these words, each of which is ended by a 0 but for the last, which C ends.
#define ANSWER(answer, words, ...) \
    answer_to(answer, (struct l4emu_bytes){words, sizeof words}, (const struct l4emu_file[3]){__VA_ARGS__})

static void answer_to(struct answer *answer, struct l4emu_bytes words, const struct l4emu_file files[3]) {
    struct l4emu_answer rooms = {{answer->out, ROOM}, {answer->faults, ROOM}, {answer->recorded, ROOM}};
    long before = blocks;
    answer->status = l4emu_call(words, files, &rooms, &answer->lengths);
    wants(blocks == before, "a call keeps memory");
    wants(answer->lengths.out < ROOM && answer->lengths.faults < ROOM && answer->lengths.recorded < ROOM, "an answer has no room");
    answer->out[answer->lengths.out] = answer->faults[answer->lengths.faults] = answer->recorded[answer->lengths.recorded] = 0;
}

static char *locks;
static size_t locks_length;
#define LOCKS file("m", locks, locks_length)

static void finds_what_gets_stuck(void) {
    struct answer *a = malloc(sizeof *a), *b = malloc(sizeof *b);
    wants(a && b, "no memory");
    ANSWER(a, "endings\0m\0--stuck\0--none", LOCKS);
    wants(a->status == 4 && !a->lengths.faults, "the locks of the example get stuck");
    wants(strstr(a->out, "\nwaiting 1.1#2 21.1\nwaiting 2.1#2 11.1\n") != NULL, "the ending where both wait");
    ANSWER(a, "run\0m\0--record\0list", LOCKS);
    wants(a->status == 0 && a->lengths.recorded > 0, "a run is recorded");
    ANSWER(b, "replay\0m\0--schedule\0@list", LOCKS, file("list", a->recorded, a->lengths.recorded));
    wants(b->status == 0 && !strcmp(a->out, b->out), "a replay of the record prints the same");
    ANSWER(b, "audit\0m\0t", LOCKS, file("t", a->out, a->lengths.out));
    wants(b->status == 0 && !strncmp(b->out, "passed ", 7), "the trace passes its audit");
    ANSWER(b, "run\0m\0--report\0--expect\0wanted", LOCKS, file("wanted", "never waiting ..\n", 17));
    wants(b->status == 4 && b->lengths.faults > 0, "an expectation that is not met is told");
    free(a);
    free(b);
}

static void answers_faulty_input(void) {
    struct answer *a = malloc(sizeof *a);
    char *lines = malloc((1 << 20) + 1);
    wants(a && lines, "no memory");
    memset(lines, 'a', (1 << 20) + 1);
    struct {
        const char *text;
        size_t length;
        const char *fault;
    } faulty[] = {
        {"l5\n", 3, "l4run: line 1: BadLine\n"},
        {"", 0, "l4run: line 1: BadLine\n"},
        {lines, 1 << 20, "l4run: line 1: BadLine\n"},
        {lines, (1 << 20) + 1, "l4run: line 0: TooLong\n"},
        {"\0\xff\xfe\1\n\x80", 6, "l4run: line 1: BadLine\n"},
        {"l4 1 64\ncpus 17\n", 16, "l4run: line 2: BadNumber\n"},
        {"l4 1 64\ncpus 1\nthread 1.1 cpu 0 sp", 35, "l4run: line 3: BadLine\n"},
    };
    for (size_t i = 0; i < sizeof faulty / sizeof *faulty; i++) {
        ANSWER(a, "run\0m", file("m", faulty[i].text, faulty[i].length));
        wants(a->status == 1 && !a->lengths.out && !strcmp(a->faults, faulty[i].fault), faulty[i].fault);
        ANSWER(a, "run\0m", LOCKS);
        wants(a->status == 0, "a call after a fault");
    }
    ANSWER(a, "run\0n", LOCKS);
    wants(a->status == 1 && !strcmp(a->faults, "l4run: cannot read n\n"), "a file that is not there");
    ANSWER(a, "run", LOCKS);
    wants(a->status == 2 && a->lengths.faults > 0, "wrong usage");
    ANSWER(a, "run\0\xff", LOCKS);
    wants(a->status == 2 && !strcmp(a->faults, "l4run: an argument is not UTF-8\n"), "bytes that are no text");
    answer_to(a, (struct l4emu_bytes){NULL, 0}, (struct l4emu_file[3]){{{NULL, 0}, {NULL, 0}}});
    wants(a->status == 2, "no words and no files");
    free(lines);
    free(a);
}

static void leaves_small_buffers(void) {
    struct l4emu_file files[3] = {LOCKS};
    struct l4emu_bytes words = {"run\0m\0--report\0--record\0list", 29};
    struct l4emu_lengths whole, other;
    struct l4emu_answer none = {{NULL, 0}, {NULL, 0}, {NULL, 0}};
    wants(l4emu_call(words, files, &none, &whole) == 0 && whole.out && whole.recorded, "lengths without room");
    char *out = malloc(whole.out), *recorded = malloc(whole.recorded);
    wants(out && recorded, "no memory");
    memset(out, 7, whole.out);
    struct l4emu_answer rooms = {{out, whole.out - 1}, {NULL, 0}, {recorded, whole.recorded}};
    wants(l4emu_call(words, files, &rooms, &other) == 0 && !memcmp(&whole, &other, sizeof whole), "the same lengths");
    for (size_t i = 0; i < whole.out; i++) wants(out[i] == 7, "a buffer that is too small stays as it is");
    wants(!memcmp(recorded, "; l4run", 7), "and another is filled");
    free(out);
    free(recorded);
}

static void *many(void *wanted) {
    struct answer *a = malloc(sizeof *a);
    wants(a != NULL, "no memory");
    for (int i = 0; i < 20; i++) {
        ANSWER(a, "endings\0m\0--stuck", LOCKS);
        wants(!strcmp(a->out, wanted), "calls at once answer the same");
    }
    free(a);
    return NULL;
}
static void is_called_by_four_threads(void) {
    struct answer *a = malloc(sizeof *a);
    wants(a != NULL, "no memory");
    ANSWER(a, "endings\0m\0--stuck", LOCKS);
    pthread_t threads[4];
    for (int i = 0; i < 4; i++) wants(!pthread_create(&threads[i], NULL, many, a->out), "no thread");
    for (int i = 0; i < 4; i++) pthread_join(threads[i], NULL);
    free(a);
}

// Refuses each allocation of a call in turn, and all behind it. The answer is the fault, or the whole answer.
static void refuses_memory(struct l4emu_bytes words, const struct l4emu_file files[3]) {
    struct answer *whole = malloc(sizeof *whole), *a = malloc(sizeof *a);
    wants(whole && a, "no memory");
    answer_to(whole, words, files);
    for (long taken = 0; taken < 100000; taken += 1 + taken / 50) {
        left = taken;
        answer_to(a, words, files);
        left = -1;
        if (a->status == whole->status && !strcmp(a->out, whole->out)) {
            printf("test: %ld allocations are enough for %s\n", taken, (const char *)words.at);
            wants(!strcmp(a->faults, whole->faults) && !strcmp(a->recorded, whole->recorded), "the whole answer");
            free(whole);
            free(a);
            return;
        }
        wants(a->status == 1 && !a->lengths.out && !a->lengths.recorded, "refused memory");
        wants(!strcmp(a->faults, "l4run: no memory\n"), a->faults);
    }
    wants(0, "no memory is enough");
}

int main(int count, char **words) {
    wants(count == 2, "test LOCKS.l4");
    FILE *text = fopen(words[1], "rb");
    locks = malloc(ROOM);
    wants(text && locks && (locks_length = fread(locks, 1, ROOM, text)) > 0, "the example is not there");
    fclose(text);
    finds_what_gets_stuck();
    answers_faulty_input();
    leaves_small_buffers();
    is_called_by_four_threads();
    const struct l4emu_file files[3] = {LOCKS, file("t", "begin 1.1#1\n", 12), file("wanted", "never waiting ..\n", 17)};
#define REFUSES(words) refuses_memory((struct l4emu_bytes){words, sizeof words}, files)
    REFUSES("run\0m\0--report\0--record\0list");
    REFUSES("run\0m\0--waits\0--counts\0--expect\0wanted");
    REFUSES("endings\0m\0--stuck\0--none");
    REFUSES("audit\0m\0t\0--explain");
    REFUSES("lint\0m");
    REFUSES("help\0endings");
    REFUSES("run\0m\0--turn");
    free(locks);
    puts("test: all as wanted");
}
