#include "answers.h"

#include "bytes.h"
#include "notice.h"
#include "say.h"

#include <pthread.h>
#include <unistd.h>

/* So many notices are told in one write, which a pipe keeps whole. */
enum { AT_ONCE = 4096 / TOLD_BYTES };

void answer(const void *bytes, size_t length) {
    static pthread_mutex_t lock = PTHREAD_MUTEX_INITIALIZER;
    pthread_mutex_lock(&lock);
    if (write_all(STDOUT_FILENO, bytes, length)) give_up_by_errno("the link");
    pthread_mutex_unlock(&lock);
}

void tell_witness(void *none, const struct ending *endings, size_t count) {
    uint8_t notices[AT_ONCE][TOLD_BYTES];
    (void)none;
    for (size_t at = 0, here = 0; at < count; at++) {
        put_told(notices[here++], (struct told){endings[at].is_done ? DONE : FAILED, endings[at].write, endings[at].block});
        if (here < AT_ONCE && at + 1 < count) continue;
        answer(notices, here * sizeof *notices);
        here = 0;
    }
}
