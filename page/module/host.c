// What the program wants of a system, for a WebAssembly module: a heap, the words of a command line, and files that lie in memory. A call is
// made by l4_call, once in the life of an instance. Two functions of the host are imported, for what is told while a search is under way.
typedef unsigned char u8;
typedef unsigned int u32;
typedef unsigned long u64;
typedef long i64;
typedef unsigned __int128 u128;

#define EXPORT(name) __attribute__((export_name(#name)))
#define IMPORT(name) __attribute__((import_module("host"), import_name(#name)))

// The host's clock, in milliseconds.
IMPORT(now) extern i64 host_now(void);
// A line is told that goes over the one before it, as on a terminal.
IMPORT(tell) extern void host_tell(const u8 *line, u64 length);
// Whether the host asked to be told. Then the standard error is a terminal.
static _Bool is_told;

extern u8 __heap_base;
extern int main(void);

// The instructions themselves, since the compiler turns what is written in C into calls of these very functions.
void *memmove(void *to, const void *from, u64 n) {
    __asm__ volatile("local.get %0\n local.get %1\n local.get %2\n memory.copy 0, 0\n" : : "r"(to), "r"(from), "r"(n) : "memory");
    return to;
}
void *memcpy(void *to, const void *from, u64 n) { return memmove(to, from, n); }
void *memset(void *at, int byte, u64 n) {
    __asm__ volatile("local.get %0\n local.get %1\n local.get %2\n memory.fill 0\n" : : "r"(at), "r"(byte), "r"(n) : "memory");
    return at;
}

// Arithmetic on 128 bits, which the compiler calls.
union Halves {
    u128 whole;
    u64 parts[2];
};
static u128 joined(u64 low, u64 high) { return (union Halves){.parts = {low, high}}.whole; }
static u64 low_of(u128 x) { return (union Halves){.whole = x}.parts[0]; }
static u64 high_of(u128 x) { return (union Halves){.whole = x}.parts[1]; }

u128 __multi3(u128 a, u128 b) {
    // Else the compiler sees a product of 128 bits here, and calls this function for it.
    u64 x = low_of(a), y = low_of(b), mask = 0xffffffff;
    __asm__("" : "+r"(mask));
    u64 ll = (x & mask) * (y & mask), lh = (x & mask) * (y >> 32), hl = (x >> 32) * (y & mask);
    u64 middle = (ll >> 32) + (lh & mask) + (hl & mask);
    u64 high = (x >> 32) * (y >> 32) + (lh >> 32) + (hl >> 32) + (middle >> 32);
    return joined(x * y, high + high_of(a) * y + x * high_of(b));
}
u128 __ashlti3(u128 a, int n) {
    u64 low = low_of(a), high = high_of(a);
    return n >= 64 ? joined(0, low << (n - 64)) : n ? joined(low << n, high << n | low >> (64 - n)) : a;
}
u128 __lshrti3(u128 a, int n) {
    u64 low = low_of(a), high = high_of(a);
    return n >= 64 ? joined(high >> (n - 64), 0) : n ? joined(low >> n | high << (64 - n), high >> n) : a;
}

// The heap: blocks of four sizes in each doubling, and a list of free blocks for each size. A block has 16 bytes before it, the
// first 8 of which are its class.
static u64 top, end;
static u64 most = ~0ul;
static void *free_of[256];

static u32 class_of(u64 n) {
    if (n <= 64) return (u32)((n + 15) / 16) - (n != 0);
    u64 m = n - 1;
    u32 k = 63 - (u32)__builtin_clzl(m);
    return 4 + (k - 6) * 4 + (u32)((m >> (k - 2)) & 3);
}

static u64 size_of(u32 class) {
    if (class < 4) return (class + 1) * 16;
    u32 k = (class - 4) / 4 + 6, part = (class - 4) & 3;
    return (1ul << k) + (part + 1) * (1ul << (k - 2));
}

static u64 room_of(const void *block) { return size_of((u32) * (const u64 *)((const u8 *)block - 16)); }

// A module that was lowered to a memory of 32 bits answers -1 of 32 bits.
static _Bool grows_by(u64 pages) {
    u64 was = __builtin_wasm_memory_grow(0, pages);
    if (was == ~0ul || was == 0xffffffff) return 0;
    end += pages << 16;
    return 1;
}

// Room for so many bytes between `top` and `end`. More is taken at once, where there is more.
static _Bool has_room(u64 n) {
    if (!top) {
        top = ((u64)&__heap_base + 15) & ~15ul;
        end = __builtin_wasm_memory_size(0) << 16;
    }
    if (n <= end - top) return 1;
    u64 pages = (n - (end - top) + 65535) >> 16;
    if (end + (pages << 16) > most) return 0;
    return (pages < 256 && grows_by(256)) || grows_by(pages);
}

static void *take(u64 n) {
    if (n >= 1ul << 40) return 0;
    u32 class = class_of(n);
    void *found = free_of[class];
    if (found) {
        free_of[class] = *(void **)found;
        return found;
    }
    u64 whole = size_of(class) + 16;
    if (!has_room(whole)) return 0;
    u8 *block = (u8 *)top;
    top += whole;
    *(u64 *)block = class;
    return block + 16;
}

static void give(void *block) {
    u64 class = *(u64 *)((u8 *)block - 16);
    *(void **)block = free_of[class];
    free_of[class] = block;
}

static void *retake(void *block, u64 n) {
    u64 room = room_of(block);
    if (n <= room) return block;
    void *to = take(n);
    if (!to) return 0;
    __builtin_memcpy(to, block, room);
    give(block);
    return to;
}

void *malloc(u64 n) { return take(n); }
void free(void *block) {
    if (block) give(block);
}

struct Tried {
    _Bool ok;
    u8 *at;
};
static u8 nowhere;
static struct Tried tried(void *at) { return (struct Tried){at != 0, at ? at : &nowhere}; }
struct Tried rattle_alloc(u64 n, u64 align) { return tried(take(n)); }
struct Tried rattle_realloc(void *block, u64 kept, u64 n, u64 align) {
    void *to = retake(block, n);
    return to ? tried(to) : (struct Tried){0, block};
}
void rattle_dealloc(void *block) { give(block); }

// Words, each ended by 0, and files as NAME 0 NUMBER(8 bytes) LENGTH(8) BYTES, one behind the other. Two names of one file have one number.
static const u8 *words, *words_end, *files, *files_end;
static int error_number;
int rattle_errno(void) { return error_number; }
void rattle_set_errno(int error) { error_number = error; }
static int failed(int error) {
    error_number = error;
    return -1;
}
enum { NO_FILE = 2, BAD_NUMBER = 9, NO_THREAD = 11, TOO_MANY_FILES = 24, NO_TERMINAL = 25, NO_SPACE = 28, NO_PROCESS = 3 };

static u64 length(const u8 *s) {
    u64 n = 0;
    while (s[n]) n++;
    return n;
}

i64 rattle_arg(u64 place, u8 *to, u64 room) {
    for (const u8 *at = words; at < words_end; at += length(at) + 1) {
        if (place-- > 0) continue;
        u64 n = length(at);
        __builtin_memcpy(to, at, n < room ? n : room);
        return n <= room ? (i64)n : -2;
    }
    return -1;
}
i64 rattle_env(const u8 *name, u8 *to, u64 room) { return -1; }
i64 rattle_env_at(u64 place, u8 *to, u64 room) { return -1; }

enum { FILES = 16 };
struct Open {
    const u8 *at;
    u64 left;
    _Bool is_written;
};
static struct Open opened[FILES];
// Output, faults, and what is recorded: each grows.
struct Grown {
    u8 *at;
    u64 used;
};
static struct Grown grown[3];

static _Bool same(const u8 *a, const u8 *b) {
    while (*a && *a == *b) a++, b++;
    return *a == *b;
}

// The bytes of the file of this name. None where there is no such file.
static const u8 *found(const u8 *name, u64 *number, u64 *size) {
    for (const u8 *at = files; at < files_end;) {
        u64 n = length(at);
        const u8 *bytes = at + n + 17;
        __builtin_memcpy(number, at + n + 1, 8);
        __builtin_memcpy(size, at + n + 9, 8);
        if (same(at, name)) return bytes;
        at = bytes + *size;
    }
    return 0;
}

int open(const u8 *name, int flags, ...) {
    int fd = 3;
    while (fd < FILES && (opened[fd].at || opened[fd].is_written)) fd++;
    if (fd == FILES) return failed(TOO_MANY_FILES);
    if (flags & 3) {
        opened[fd].is_written = 1;
        return fd;
    }
    u64 number, size;
    const u8 *bytes = found(name, &number, &size);
    if (!bytes) return failed(NO_FILE);
    opened[fd] = (struct Open){bytes, size, 0};
    return fd;
}

// What the system tells of a file, as far as the program asks: whether it is a regular one, and by which number it is known.
struct Told {
    u8 before[28];
    unsigned short mode;
    u64 number;
    u8 behind[216];
};
_Static_assert(sizeof(struct Told) == 256, "as struct statx of Linux");
int statx(int folder, const u8 *name, int flags, u32 wanted, struct Told *to) {
    u64 number, size;
    if (!found(name, &number, &size)) return failed(NO_FILE);
    memset(to, 0, sizeof *to);
    to->mode = 0100644;
    to->number = number;
    return 0;
}

// Whatever is written to a file is what was recorded, by any name, unless it is removed.
int rename(const u8 *from, const u8 *to) { return 0; }
int unlink(const u8 *name) {
    grown[2].used = 0;
    return 0;
}

i64 read(int fd, u8 *to, u64 room) {
    if (fd == 0 && !opened[0].at) return 0;
    if (fd < 0 || fd >= FILES || !opened[fd].at) return failed(BAD_NUMBER);
    u64 n = opened[fd].left < room ? opened[fd].left : room;
    __builtin_memcpy(to, opened[fd].at, n);
    opened[fd].at += n;
    opened[fd].left -= n;
    return (i64)n;
}

i64 write(int fd, const u8 *from, u64 n) {
    if (is_told && fd == 2 && n && *from == '\r') {
        host_tell(from, n);
        return (i64)n;
    }
    struct Grown *to = fd == 1 ? &grown[0] : fd == 2 ? &grown[1] : &grown[2];
    if (to->used + n > (to->at ? room_of(to->at) : 0)) {
        void *at = to->at ? retake(to->at, 2 * (to->used + n)) : take(2 * n + 4096);
        if (!at) return failed(NO_SPACE);
        to->at = at;
    }
    __builtin_memcpy(to->at + to->used, from, n);
    to->used += n;
    return (i64)n;
}

int close(int fd) {
    if (fd >= 3 && fd < FILES) opened[fd] = (struct Open){0};
    return 0;
}
int isatty(int fd) {
    if (is_told && fd == 2) return 1;
    failed(NO_TERMINAL);
    return 0;
}
int clock_gettime(int clock, i64 *to) {
    i64 now = is_told ? host_now() : 0;
    to[0] = now / 1000;
    to[1] = now % 1000 * 1000000;
    return 0;
}

// A module for x86-64 asks first what its processor has. Here there is none to ask.
static const u32 all_ones[8] = {~0u, ~0u, ~0u, ~0u, ~0u, ~0u, ~0u, ~0u};
const void *__x86_get_cpuid_feature_leaf(u32 leaf) { return all_ones; }
i64 __write(int fd, const u8 *from, u64 n) { return write(fd, from, n); }

// No thread is started: one host thread serves all processors.
int pthread_create(void *thread, void *how, void *call, void *with) { return NO_THREAD; }
int pthread_attr_init(void *how) { return 0; }
int pthread_attr_setguardsize(void *how, u64 n) { return 0; }
int pthread_attr_setstacksize(void *how, u64 n) { return 0; }
int pthread_attr_destroy(void *how) { return 0; }
u64 pthread_self(void) { return 1; }
int pthread_detach(u64 thread) { return 0; }
int pthread_join(u64 thread, void *to) { return NO_PROCESS; }
int sched_yield(void) { return 0; }
i64 __sysv_signal(int number, i64 what) { return 0; }
_Noreturn void abort(void) { __builtin_trap(); }

// The program ends by this call, out of which a module comes by a trap alone: the host reads whether it has ended, and how.
static int is_over, status_of;
_Noreturn void _exit(int status) {
    is_over = 1;
    status_of = status;
    __builtin_trap();
}

// Room for what the host hands over.
EXPORT(l4_room) u8 *l4_room(u64 n) { return take(n); }
// No more memory than so many bytes is asked for.
EXPORT(l4_limit) void l4_limit(u64 bytes) { most = bytes; }
// The standard error is a terminal from now on: as on one, a fault is explained, and the host is told how far a search has come, once a second.
EXPORT(l4_tell) void l4_tell(void) { is_told = 1; }
// Runs the command of these words over these files, and ends by a trap. Its standard input is the file /dev/stdin, or nothing.
EXPORT(l4_call) int l4_call(const u8 *w, u64 words_length, const u8 *f, u64 files_length) {
    words = w, words_end = w + words_length;
    files = f, files_end = f + files_length;
    int fd = open((const u8 *)"/dev/stdin", 0);
    if (fd >= 0) {
        opened[0] = opened[fd];
        opened[fd] = (struct Open){0};
    }
    return main();
}
EXPORT(l4_is_over) int l4_is_over(void) { return is_over; }
EXPORT(l4_status) int l4_status(void) { return status_of; }
// What was written: 0 the output, 1 the faults, 2 what was recorded.
EXPORT(l4_at) u8 *l4_at(u32 which) { return grown[which].at; }
EXPORT(l4_length) u64 l4_length(u32 which) { return grown[which].used; }
