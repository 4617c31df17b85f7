#include "local.h"

#include "bytes.h"
#include "drive.h"
#include "notice.h"
#include "say.h"

#include <pthread.h>
#include <stdatomic.h>
#include <stdlib.h>
#include <string.h>
#include <unistd.h>

/* A job file has at most 16,384 bytes. */
enum { MAX_TEXT = 65536 };

static atomic_bool has_ended_link;

struct child start_own_drive(const struct hello *hello, bool cached) {
    static char text[MAX_TEXT];
    if (hello->text_length > sizeof text) give_up("the link", "no job is as the witness says");
    if (read_all(STDIN_FILENO, text, hello->text_length) != (ssize_t)hello->text_length) give_up("the link", "it ended within the job file");
    const struct job job = {.number = hello->job, .text = text, .text_length = hello->text_length};
    return start_drive("write", hello->run, &job, CHILD_READS | CHILD_WRITES | way_of_orders(hello->depth, cached));
}

/* Each notice that came back is one that this agent has told. */
static void *hand_all_back(void *given) {
    const struct child *drive = given;
    uint8_t bytes[TOLD_BYTES];
    while (read_all(STDIN_FILENO, bytes, sizeof bytes) == sizeof bytes) {
        const struct told told = read_told(bytes);
        if (told.kind != DONE && told.kind != FAILED) break; /* (it came otherwise than it was sent) */
        put_notice(bytes, told.kind, told.write);
        if (write_all(drive->to, bytes, NOTICE_BYTES)) break;
    }
    has_ended_link = true;
    close(drive->to);
    return NULL;
}

void hand_back(struct child *drive) {
    pthread_t thread;
    int error = pthread_create(&thread, NULL, hand_all_back, drive);
    if (error) give_up("threads", strerror(error));
    pthread_detach(thread);
}

void tell_last_words(const void *bytes, size_t length) {
    char words[160] = "it ended";
    if (has_ended_link) return;
    if (length > sizeof words - 1) length = sizeof words - 1;
    if (length) memcpy(words, bytes, length), words[length] = 0;
    words[strcspn(words, "\n")] = 0;
    say("drive, on this machine: %s", words);
}
