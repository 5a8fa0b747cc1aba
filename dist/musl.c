// What musl lacks or does otherwise than glibc, for a program that is linked with nothing of the system: the words of a command line, of
// which musl hands none to a constructor; a signal's disposition; what the system tells of a file, which a musl of Debian does not ask yet;
// and what glibc knows of the processor, for which the program asks first.
#define _GNU_SOURCE
#include <cpuid.h>
#include <signal.h>
#include <string.h>
#include <sys/syscall.h>
#include <sys/types.h>
#include <unistd.h>

static int count;
static char **words;
extern int l4run_main(void);

ssize_t rattle_arg(size_t place, char *to, size_t room) {
    if (place >= (size_t)count) return -1;
    size_t n = strlen(words[place]);
    memcpy(to, words[place], n < room ? n : room);
    return n <= room ? (ssize_t)n : -2;
}

long __sysv_signal(int number, long what) { return (long)signal(number, (void (*)(int))what); }

// Weak: later versions of musl have it.
__attribute__((weak)) int statx(int folder, const char *name, int flags, unsigned wanted, void *to) {
    return (int)syscall(SYS_statx, folder, name, flags, wanted, to);
}

ssize_t __write(int fd, const void *from, size_t n) { return write(fd, from, n); }

const void *__x86_get_cpuid_feature_leaf(unsigned leaf) {
    static struct {
        unsigned has[4], active[4];
    } found;
    static const unsigned leaves[] = {1, 7, 0x80000001};
    unsigned *has = found.has;
    memset(&found, 0, sizeof found);
    if (leaf < 3) __get_cpuid_count(leaves[leaf], 0, &has[0], &has[1], &has[2], &has[3]);
    memcpy(found.active, has, sizeof found.active);
    return &found;
}

int main(int argc, char **argv) {
    count = argc;
    words = argv;
    return l4run_main();
}
