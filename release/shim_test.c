/* Tests each function of shim.c against its contract, as the kit states it. Prints a line for what isn't as
 * it has to be, and last 'N passed, M failed'; release/test builds and runs it. */
#define _GNU_SOURCE
#include <stdio.h>
#include <stdlib.h>
#include <string.h>

static int freed;

static void counted_free(void *p) {
    freed++;
    free(p);
}

#define free counted_free
#include "shim.c"
#undef free

static int passed, failed, begun;

static void tell(const char *what, int is_right) {
    if (is_right) passed++;
    else failed++, printf("FAILED: %s\n", what);
}

int __real_main(int count, char **words) {
    begun++;
    return count == 4 && !strcmp(words[3], "abc") ? 7 : 1;
}

static void test_alloc(void) {
    for (size_t align = 1; align <= 16; align *= 2) {
        struct tried got = rattle_alloc(100, align), none = rattle_alloc(0, align), other = rattle_alloc(0, align);
        tell("alloc: there is memory", got.ok && got.p);
        memset(got.p, 0xa5, 100);
        tell("alloc: it lies at a multiple of its alignment", (uintptr_t)got.p % align == 0);
        tell("alloc: a block of no bytes is one of its own", none.ok && none.p && other.ok && other.p && none.p != other.p && none.p != got.p);
        rattle_dealloc(got.p), rattle_dealloc(none.p), rattle_dealloc(other.p);
    }
    struct tried all = rattle_alloc((size_t)1 << 62, 16);
    tell("alloc: where there is no memory, that is told", !all.ok);
    tell("alloc: its pointer isn't null then", all.p != NULL);
}

static int has_front(const unsigned char *p, size_t length) {
    for (size_t at = 0; at < length; at++)
        if (p[at] != (unsigned char)(at * 7)) return 0;
    return 1;
}

static void test_realloc(void) {
    struct tried block = rattle_alloc(100, 8);
    for (size_t at = 0; at < 100; at++) ((unsigned char *)block.p)[at] = (unsigned char)(at * 7);
    struct tried longer = rattle_realloc(block.p, 100, 100000, 8);
    tell("realloc: a longer block has what the old one had", longer.ok && has_front(longer.p, 100));
    struct tried all = rattle_realloc(longer.p, 100, (size_t)1 << 62, 8);
    tell("realloc: where there is no memory, that is told", !all.ok && all.p);
    tell("realloc: the block stays as it was then", has_front(longer.p, 100));
    struct tried shorter = rattle_realloc(longer.p, 10, 10, 8);
    tell("realloc: a shorter block has the front of the old one", shorter.ok && has_front(shorter.p, 10));
    struct tried none = rattle_realloc(shorter.p, 0, 0, 8), again = none;
    if (none.ok) again = rattle_realloc(none.p, 0, 10, 8);
    tell("realloc: a block of no bytes is one, and can be made longer", none.ok && none.p && again.ok && again.p);
    if (again.ok) rattle_dealloc(again.p);
}

static void test_dealloc(void) {
    int before = freed;
    rattle_dealloc(rattle_alloc(10, 1).p);
    tell("dealloc: the block is freed", freed == before + 1);
}

static void test_errno(void) {
    errno = EAGAIN;
    tell("errno: it is C's", rattle_errno() == EAGAIN);
    rattle_set_errno(ENAMETOOLONG);
    tell("set_errno: it is C's", errno == ENAMETOOLONG);
}

static void test_words(void) {
    char name[] = "name", empty[] = "", word[] = "words", last[] = "abc", to[8] = "#######", *words[] = {name, empty, word, last, NULL};
    tell("main: it is begun with its words, and its status is handed on", __wrap_main(4, words) == 7 && begun == 1);
    tell("arg_count: the name counts", rattle_arg_count() == 4);
    tell("arg: a word, and its length", rattle_arg(2, to, sizeof to) == 5 && !memcmp(to, "words##", 7));
    tell("arg: one that just fits", rattle_arg(3, to, 3) == 3 && !memcmp(to, "abcds", 5));
    tell("arg: one that doesn't fit fills the room", rattle_arg(2, to, 4) == -2 && !memcmp(to, "words", 4) && to[4] == 's');
    tell("arg: an empty word", rattle_arg(1, to, sizeof to) == 0 && rattle_arg(1, to, 0) == 0);
    tell("arg: no room for a word", rattle_arg(2, to, 0) == -2);
    tell("arg: there is no such word", rattle_arg(4, to, sizeof to) == -1 && rattle_arg((size_t)-1, to, sizeof to) == -1);
    tell("main: without a word there is none", __wrap_main(0, words) == 1 && rattle_arg_count() == 0 && rattle_arg(0, to, sizeof to) == -1);
}

#ifdef LACKS_GLIBC
static int caught;

static void catch_it(int number) {
    caught = number;
}

static void test_signals(void) {
    struct sigaction now;
    signal(SIGUSR1, SIG_IGN);
    tell("sysv_signal: what was there before is told", __sysv_signal(SIGUSR1, catch_it) == SIG_IGN);
    sigaction(SIGUSR1, NULL, &now);
    tell("sysv_signal: it holds none back, and is taken away by the first", now.sa_flags & SA_NODEFER && now.sa_flags & (int)SA_RESETHAND);
    raise(SIGUSR1);
    tell("sysv_signal: the handler is called", caught == SIGUSR1);
    tell("sysv_signal: once", __sysv_signal(SIGUSR1, SIG_IGN) == SIG_DFL);
    raise(SIGUSR1);
    tell("sysv_signal: no such signal", __sysv_signal(-1, SIG_IGN) == SIG_ERR);
}

static void test_write(void) {
    int ends[2];
    char got[4] = "";
    tell("write: so many bytes go out", !pipe(ends) && __write(ends[1], "abcd", 3) == 3 && read(ends[0], got, 4) == 3 && !strcmp(got, "abc"));
    tell("write: what fails is told", __write(-1, "a", 1) == -1 && errno == EBADF);
}

/* (its kind stands behind seven numbers of four bytes; 040000 is a folder's) */
static void test_statx(void) {
    enum { HERE = -100, BASIC = 0x7ff, MODE = 28 };
    unsigned char told[256] = {0};
    unsigned short mode;
    tell("statx: there is a root", statx(HERE, "/", 0, BASIC, told) == 0);
    memcpy(&mode, told + MODE, sizeof mode);
    tell("statx: that is a folder", (mode & 0170000) == 0040000);
    tell("statx: what isn't there is told", statx(HERE, "/no/such", 0, BASIC, told) == -1 && errno == ENOENT);
}
#endif

#if defined LACKS_FEATURES && defined __x86_64__
static void test_features(void) {
    __builtin_cpu_init();
    unsigned basic = __x86_get_cpuid_feature_leaf(0)->active[2], has = __x86_get_cpuid_feature_leaf(0)->has[2], none = 0;
    tell("features: SSE3", !!(basic & 1) == !!__builtin_cpu_supports("sse3"));
    tell("features: SSSE3", !!(basic & 1 << 9) == !!__builtin_cpu_supports("ssse3"));
    tell("features: SSE4.1 and SSE4.2", !!(basic & 1 << 19) == !!__builtin_cpu_supports("sse4.1") && !!(basic & 1 << 20) == !!__builtin_cpu_supports("sse4.2"));
    tell("features: POPCNT", !!(basic & 1 << 23) == !!__builtin_cpu_supports("popcnt"));
    tell("features: the two tell the same, and none but those", basic == has && !(basic & ~0x982201u) && !(__x86_get_cpuid_feature_leaf(2)->active[2] & ~1u));
    for (unsigned leaf = 0; leaf < 12; leaf++)
        for (int at = 0; at < 4; at++) none |= (leaf == 0 || leaf == 2) && at == 2 ? 0 : __x86_get_cpuid_feature_leaf(leaf)->active[at];
    tell("features: nothing is told of others", none == 0);
}
#endif

int main(void) {
    test_alloc(), test_realloc(), test_dealloc(), test_errno(), test_words();
#ifdef LACKS_GLIBC
    test_signals(), test_write(), test_statx();
#endif
#if defined LACKS_FEATURES && defined __x86_64__
    test_features();
#endif
    printf("%d passed, %d failed\n", passed, failed);
    return failed != 0;
}
