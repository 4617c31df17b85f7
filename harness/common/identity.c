#include "identity.h"

#include "bytes.h"

#include <ctype.h>
#include <inttypes.h>
#include <stdio.h>
#include <string.h>
#include <sys/stat.h>
#include <sys/sysmacros.h>

/* Reads a line of a file of the system's, without the spaces at its ends. Returns whether it says
 * anything. */
static bool read_line(const char *path, char *text, size_t size) {
    char read[256];
    ssize_t count = read_file(path, read, sizeof read - 1);
    read[count < 0 ? 0 : count] = 0;
    read[strcspn(read, "\n")] = 0;
    const char *front = read + strspn(read, " ");
    size_t length = strlen(front);
    while (length && isspace((unsigned char)front[length - 1])) length--;
    snprintf(text, size, "%.*s", (int)length, front);
    return length > 0;
}

static void add(char drive[MAX_DRIVE], const char *name, const char *text) {
    size_t have = strlen(drive);
    snprintf(drive + have, MAX_DRIVE - have, "%s%s %s", have ? ", " : "", name, text);
}

/* Adds what a device says of itself, in files that have other names from one kind of device to
 * another. A partition's device stands above it. */
static void add_device(dev_t device, char drive[MAX_DRIVE]) {
    static const char *const said[][2] = {{"model", "device/model"}, {"serial", "device/serial"}, {"number", "wwid"}, {"number", "device/wwid"}, {"file", "loop/backing_file"}, {"start", "start"}, {"sectors", "size"}};
    const char *last = "";
    for (size_t at = 0; at < sizeof said / sizeof *said; at++) {
        char path[256], text[128];
        for (int up = 0; up < 2 && strcmp(last, said[at][0]); up++) {
            snprintf(path, sizeof path, "/sys/dev/block/%u:%u/%s%s", major(device), minor(device), up ? "../" : "", said[at][1]);
            if (!read_line(path, text, sizeof text)) continue;
            add(drive, said[at][0], text);
            last = said[at][0];
        }
    }
}

void tell_drive(const struct target *target, char drive[MAX_DRIVE]) {
    struct stat is;
    char text[64];
    drive[0] = 0;
    if (fstat(target->fd, &is)) return;
    if (!S_ISBLK(is.st_mode)) {
        snprintf(text, sizeof text, "%" PRIu64, (uint64_t)is.st_ino);
        add(drive, target->is_folder ? "folder" : "file", text);
    }
    add_device(target->device, drive);
}

void tell_boot(char boot[MAX_BOOT]) {
    if (!read_line("/proc/sys/kernel/random/boot_id", boot, MAX_BOOT)) boot[0] = 0;
}
