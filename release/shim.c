/* What an object of the release wants beside a C library. Rattle's kit links the same names out of
 * its own files; their contracts stand in the kit, in rattle/libc/src/heap.rt and rattle/os/src/c.rt,
 * and shim_test.c tests each function against its own. A program is linked with -Wl,--wrap=main. */
#define _GNU_SOURCE
#include <errno.h>
#include <signal.h>
#include <stddef.h>
#include <stdint.h>
#include <stdlib.h>
#include <sys/syscall.h>
#include <sys/types.h>
#include <unistd.h>

/* What glibc has, and other C libraries haven't; the second one has been there since 2.33. */
#ifndef __GLIBC__
#define LACKS_GLIBC 1
#define LACKS_FEATURES 1
#elif !__GLIBC_PREREQ(2, 33)
#define LACKS_FEATURES 1
#endif

/* Whether there was memory, and where it is; else p is some pointer that isn't null. */
struct tried {
    _Bool ok;
    void *p;
};

struct tried rattle_alloc(size_t size, size_t align);
struct tried rattle_realloc(void *old, size_t kept, size_t size, size_t align);
void rattle_dealloc(void *p);
int rattle_errno(void);
void rattle_set_errno(int error);
size_t rattle_arg_count(void);
ssize_t rattle_arg(size_t number, char *to, size_t room);
int __real_main(int count, char **words);
int __wrap_main(int count, char **words);

_Static_assert(_Alignof(max_align_t) >= 16, "malloc has to align for 16");

static char nowhere;
static size_t word_count;
static char **all_words;

static struct tried tried_at(void *p) {
    return (struct tried){p != NULL, p ? p : &nowhere};
}

/* Memory of this size, which may be 0, at a multiple of `align`, which divides 16: malloc gives that
 * by itself. No block is of 0 bytes, as malloc may answer null for that. */
struct tried rattle_alloc(size_t size, size_t align) {
    return tried_at(malloc(size ? size : align));
}

/* Makes the block one of `size` bytes, whose first `kept` are as they were. Where there is no memory
 * the block stays. */
struct tried rattle_realloc(void *old, size_t kept, size_t size, size_t align) {
    (void)kept; /* realloc keeps all that the smaller of both sizes holds */
    return tried_at(realloc(old, size ? size : align));
}

void rattle_dealloc(void *p) {
    free(p);
}

int rattle_errno(void) {
    return errno;
}

void rattle_set_errno(int error) {
    errno = error;
}

/* How many words the command line has, the program's name among them. */
size_t rattle_arg_count(void) {
    return word_count;
}

/* Puts a word of the command line at the front of `to`, and returns its length; -1 where there is no
 * such word, and -2 where it is longer than `room`: then `to` is full. */
ssize_t rattle_arg(size_t number, char *to, size_t room) {
    size_t length = 0;
    if (number >= word_count || !all_words[number]) return -1;
    for (const char *word = all_words[number]; word[length]; length++) {
        if (length == room) return -2;
        to[length] = word[length];
    }
    return (ssize_t)length;
}

/* Keeps the words of the command line, and begins the program: the linker has the C library call this
 * in the place of the object's main. */
int __wrap_main(int count, char **words) {
    word_count = count > 0 ? (size_t)count : 0, all_words = words;
    return __real_main(count, words);
}

#ifdef LACKS_GLIBC
typedef void (*handler)(int);
ssize_t __write(int fd, const void *bytes, size_t length);
handler __sysv_signal(int number, handler takes);
int statx(int folder, const char *path, int flags, unsigned mask, void *told);

ssize_t __write(int fd, const void *bytes, size_t length) {
    return write(fd, bytes, length);
}

/* What a file is, as the system tells it. */
int statx(int folder, const char *path, int flags, unsigned mask, void *told) {
    return (int)syscall(SYS_statx, folder, path, flags, mask, told);
}

/* As System V has it: the handler is taken away by the first signal, and holds none back. */
handler __sysv_signal(int number, handler takes) {
    struct sigaction now = {.sa_handler = takes, .sa_flags = (int)(SA_RESETHAND | SA_NODEFER)}, before;
    sigemptyset(&now.sa_mask);
    return sigaction(number, &now, &before) ? SIG_ERR : before.sa_handler;
}
#endif

#if defined LACKS_FEATURES && defined __x86_64__
#include <cpuid.h>

/* What a leaf of the processor's features has, and what of it can be used, by eax, ebx, ecx and edx. */
struct features {
    unsigned has[4], active[4];
};
const struct features *__x86_get_cpuid_feature_leaf(unsigned leaf);

/* A program looks, as it begins, whether the processor is an x86-64-v2: by ecx of these two leaves. Those
 * bits want nothing of the system, so that what the processor has can be used. Of others nothing is told. */
const struct features *__x86_get_cpuid_feature_leaf(unsigned leaf) {
    enum { BASIC, NONE, EXTENDED, ECX = 2 };
    static struct features all[3];
    struct features *told = &all[leaf < 3 ? leaf : NONE];
    unsigned eax, ebx, ecx, edx, wanted = leaf == BASIC ? 0x982201 : leaf == EXTENDED ? 1 : 0;
    if (wanted && __get_cpuid(leaf == BASIC ? 1 : 0x80000001, &eax, &ebx, &ecx, &edx)) told->has[ECX] = told->active[ECX] = ecx & wanted;
    return told;
}
#endif
