/* A file system that loses at a cut what it wasn't asked to keep: one folder, by FUSE, for the tests.
 *
 * losing-fs MOUNTPOINT KEPT [LIE..] mounts itself and serves until it is killed, which is the cut: KEPT
 * is a file that has what stays, and the next one over it goes on from that. A file's bytes and size are
 * kept by an fsync of it, and all names by an fsync of the folder: so a name may be kept of a file that
 * isn't, which then is empty. LIE: `files`, an fsync of a file keeps nothing; `halves`, its size and half
 * of its bytes; `names`, that of the folder keeps nothing; `early`, which is no lie: what was done is kept
 * unasked, by chance. Once it serves, it prints a line. */
#include <errno.h>
#include <fcntl.h>
#include <linux/fuse.h>
#include <stdbool.h>
#include <stdint.h>
#include <stdio.h>
#include <stdlib.h>
#include <string.h>
#include <sys/mman.h>
#include <sys/mount.h>
#include <sys/stat.h>
#include <unistd.h>

/* File N is the kernel's node N + 2, and the folder node 1. */
enum { MOST = 512, ROOM = 1 << 19, ROOT = 1, FIRST = 2, MAX_NAME = 64, MOST_WRITTEN = 1 << 17, REQUEST = MOST_WRITTEN + 4096 };

struct image {
    struct {
        bool is_used;
        uint32_t file;
        char name[MAX_NAME];
    } names[MOST];
    struct {
        uint64_t size;
        uint8_t bytes[ROOM];
    } files[MOST];
};

static struct image *now, *kept; /* what there is, and what a cut leaves of it */
static uint64_t lookups[MOST], generations[MOST], generation;
static bool lies_of_files, lies_by_halves, lies_of_names, keeps_early;
static int device;

static void answer(const struct fuse_in_header *asked, int error, const void *bytes, size_t length) {
    static uint8_t out[REQUEST];
    const struct fuse_out_header head = {.len = (uint32_t)(sizeof head + length), .error = -error, .unique = asked->unique};
    memcpy(out, &head, sizeof head);
    if (length) memcpy(out + sizeof head, bytes, length);
    if (write(device, out, head.len) < 0 && errno == ENODEV) exit(0);
}

static int find(const struct image *image, const char *name) {
    for (int at = 0; at < MOST; at++)
        if (image->names[at].is_used && !strcmp(image->names[at].name, name)) return at;
    return -1;
}

static bool is_named(const struct image *image, uint32_t file) {
    for (int at = 0; at < MOST; at++)
        if (image->names[at].is_used && image->names[at].file == file) return true;
    return false;
}

static void keep_file(uint32_t file, uint64_t bytes) {
    memcpy(kept->files[file].bytes, now->files[file].bytes, bytes);
    memset(kept->files[file].bytes + bytes, 0, ROOM - bytes);
    kept->files[file].size = now->files[file].size;
}

/* Keeps the bytes of one write, whatever was written before it. */
static void keep_bytes(uint32_t file, uint64_t from, uint64_t length) {
    memcpy(kept->files[file].bytes + from, now->files[file].bytes + from, length);
    if (from + length > kept->files[file].size) kept->files[file].size = from + length;
}

static void keep_names(void) {
    memcpy(kept->names, now->names, sizeof kept->names);
}

static bool by_chance(void) {
    return keeps_early && random() % 4 == 0;
}

static struct fuse_attr attributes_of(uint64_t node) {
    struct fuse_attr is = {.ino = node, .mode = S_IFDIR | 0755, .nlink = 2, .blksize = 4096};
    if (node != ROOT) is.mode = S_IFREG | 0644, is.nlink = 1, is.size = now->files[node - FIRST].size, is.blocks = (is.size + 511) / 512;
    return is;
}

static struct fuse_entry_out entry_of(uint32_t file) {
    lookups[file]++;
    return (struct fuse_entry_out){.nodeid = file + FIRST, .generation = generations[file], .attr = attributes_of(file + FIRST)};
}

/* Gives a new file this name, of which there is none yet. Returns it, or -1 where there is no room. */
static int make_file(const char *name) {
    uint32_t file = 0;
    int at = 0;
    while (file < MOST && (lookups[file] || is_named(now, file) || is_named(kept, file))) file++;
    while (at < MOST && now->names[at].is_used) at++;
    if (file == MOST || at == MOST || strlen(name) >= MAX_NAME) return -1;
    now->names[at].is_used = true, now->names[at].file = file;
    strcpy(now->names[at].name, name);
    now->files[file].size = kept->files[file].size = 0;
    generations[file] = ++generation;
    return (int)file;
}

static void create(const struct fuse_in_header *asked, const char *name) {
    struct {
        struct fuse_entry_out entry;
        struct fuse_open_out open;
    } out = {0};
    int at = find(now, name), file = at < 0 ? make_file(name) : (int)now->names[at].file;
    if (file < 0) {
        answer(asked, ENOSPC, NULL, 0);
        return;
    }
    out.entry = entry_of((uint32_t)file);
    answer(asked, 0, &out, sizeof out);
}

static void look_up(const struct fuse_in_header *asked, const char *name) {
    int at = find(now, name);
    struct fuse_entry_out entry = {0};
    if (at >= 0) entry = entry_of(now->names[at].file);
    answer(asked, at < 0 ? ENOENT : 0, &entry, at < 0 ? 0 : sizeof entry);
}

static void tell_attributes(const struct fuse_in_header *asked) {
    const struct fuse_attr_out out = {.attr = attributes_of(asked->nodeid)};
    answer(asked, 0, &out, sizeof out);
}

static void set_attributes(const struct fuse_in_header *asked, const struct fuse_setattr_in *in) {
    const uint64_t file = asked->nodeid - FIRST;
    if (in->valid & FATTR_SIZE && in->size > ROOM) {
        answer(asked, ENOSPC, NULL, 0);
        return;
    }
    if (in->valid & FATTR_SIZE) {
        if (in->size < now->files[file].size) memset(now->files[file].bytes + in->size, 0, now->files[file].size - in->size);
        now->files[file].size = in->size;
    }
    tell_attributes(asked);
}

static void read_file(const struct fuse_in_header *asked, const struct fuse_read_in *in) {
    const uint64_t size = now->files[asked->nodeid - FIRST].size, left = in->offset < size ? size - in->offset : 0;
    answer(asked, 0, now->files[asked->nodeid - FIRST].bytes + in->offset, left < in->size ? left : in->size);
}

static void write_file(const struct fuse_in_header *asked, const struct fuse_write_in *in) {
    const uint32_t file = (uint32_t)(asked->nodeid - FIRST);
    const struct fuse_write_out out = {.size = in->size};
    if (in->offset + in->size > ROOM) {
        answer(asked, ENOSPC, NULL, 0);
        return;
    }
    memcpy(now->files[file].bytes + in->offset, in + 1, in->size);
    if (in->offset + in->size > now->files[file].size) now->files[file].size = in->offset + in->size;
    if (by_chance()) keep_bytes(file, in->offset, in->size);
    answer(asked, 0, &out, sizeof out);
}

static void sync_one(const struct fuse_in_header *asked) {
    const uint32_t file = (uint32_t)(asked->nodeid - FIRST);
    if (asked->opcode == FUSE_FSYNCDIR && !lies_of_names) keep_names();
    if (asked->opcode == FUSE_FSYNC && !lies_of_files) keep_file(file, now->files[file].size / (lies_by_halves ? 2 : 1));
    answer(asked, 0, NULL, 0);
}

/* Gives a file another name, in the place of whose has it; or, where `to` is NULL, takes its name away. */
static void rename_one(const struct fuse_in_header *asked, const char *from, const char *to) {
    int at = find(now, from), other = to ? find(now, to) : -1;
    if (at >= 0 && other >= 0) now->names[other].is_used = false;
    if (at >= 0 && to) snprintf(now->names[at].name, MAX_NAME, "%s", to);
    else if (at >= 0) now->names[at].is_used = false;
    if (by_chance()) keep_names();
    answer(asked, at < 0 ? ENOENT : 0, NULL, 0);
}

static void list(const struct fuse_in_header *asked, const struct fuse_read_in *in) {
    static uint8_t out[REQUEST];
    size_t used = 0;
    for (uint64_t at = in->offset; at < MOST; at++) {
        if (!now->names[at].is_used) continue;
        const size_t length = strlen(now->names[at].name), size = FUSE_DIRENT_ALIGN(FUSE_NAME_OFFSET + length);
        const struct fuse_dirent entry = {.ino = now->names[at].file + FIRST, .off = at + 1, .namelen = (uint32_t)length, .type = S_IFREG >> 12};
        if (used + size > in->size) break;
        memcpy(out + used, &entry, FUSE_NAME_OFFSET);
        memcpy(out + used + FUSE_NAME_OFFSET, now->names[at].name, length);
        used += size;
    }
    answer(asked, 0, out, used);
}

static void forget(uint64_t node, uint64_t count) {
    if (node >= FIRST && node < FIRST + MOST) lookups[node - FIRST] -= count < lookups[node - FIRST] ? count : lookups[node - FIRST];
}

static void forget_these(const struct fuse_batch_forget_in *in) {
    const struct fuse_forget_one *all = (const void *)(in + 1);
    for (uint32_t at = 0; at < in->count; at++) forget(all[at].nodeid, all[at].nlookup);
}

static void begin(const struct fuse_in_header *asked) {
    const struct fuse_init_out out = {.major = FUSE_KERNEL_VERSION, .minor = 31, .max_readahead = 0, .flags = FUSE_BIG_WRITES, .max_background = 64, .congestion_threshold = 64, .max_write = MOST_WRITTEN, .time_gran = 1};
    answer(asked, 0, &out, sizeof out);
}

static void serve(const struct fuse_in_header *asked, const void *in) {
    const struct fuse_open_out open = {0};
    const struct fuse_statfs_out room = {.st = {.bsize = 4096, .frsize = 4096, .blocks = MOST, .bfree = MOST, .bavail = MOST, .namelen = MAX_NAME - 1}};
    const char *name = in;
    switch (asked->opcode) {
    case FUSE_INIT: begin(asked); break;
    case FUSE_LOOKUP: look_up(asked, name); break;
    case FUSE_FORGET: forget(asked->nodeid, ((const struct fuse_forget_in *)in)->nlookup); break;
    case FUSE_BATCH_FORGET: forget_these(in); break;
    case FUSE_GETATTR: tell_attributes(asked); break;
    case FUSE_SETATTR: set_attributes(asked, in); break;
    case FUSE_CREATE: create(asked, (const char *)in + sizeof(struct fuse_create_in)); break;
    case FUSE_OPEN: case FUSE_OPENDIR: answer(asked, 0, &open, sizeof open); break;
    case FUSE_READ: read_file(asked, in); break;
    case FUSE_READDIR: list(asked, in); break;
    case FUSE_WRITE: write_file(asked, in); break;
    case FUSE_FSYNC: case FUSE_FSYNCDIR: sync_one(asked); break;
    case FUSE_RENAME: name += sizeof(struct fuse_rename_in), rename_one(asked, name, name + strlen(name) + 1); break;
    case FUSE_RENAME2: name += sizeof(struct fuse_rename2_in), rename_one(asked, name, name + strlen(name) + 1); break;
    case FUSE_UNLINK: rename_one(asked, name, NULL); break;
    case FUSE_STATFS: answer(asked, 0, &room, sizeof room); break;
    case FUSE_FLUSH: case FUSE_RELEASE: case FUSE_RELEASEDIR: answer(asked, 0, NULL, 0); break;
    case FUSE_INTERRUPT: break;
    default: answer(asked, ENOSYS, NULL, 0);
    }
}

/* Opens what a cut leaves, and takes that for what there is now. */
static void open_images(const char *path) {
    int fd = open(path, O_RDWR | O_CREAT | O_CLOEXEC, 0644);
    if (fd < 0 || ftruncate(fd, sizeof *kept)) perror(path), exit(2);
    kept = mmap(NULL, sizeof *kept, PROT_READ | PROT_WRITE, MAP_SHARED, fd, 0);
    now = mmap(NULL, sizeof *now, PROT_READ | PROT_WRITE, MAP_PRIVATE | MAP_ANONYMOUS | MAP_NORESERVE, -1, 0);
    if (kept == MAP_FAILED || now == MAP_FAILED) perror(path), exit(2);
    memcpy(now->names, kept->names, sizeof now->names);
    for (uint32_t file = 0; file < MOST; file++) {
        if (!is_named(kept, file)) continue;
        memcpy(now->files[file].bytes, kept->files[file].bytes, kept->files[file].size);
        now->files[file].size = kept->files[file].size;
    }
}

int main(int count, char **words) {
    static uint64_t request[REQUEST / sizeof(uint64_t)];
    char options[96];
    if (count < 3) return fputs("usage: losing-fs MOUNTPOINT KEPT [files] [halves] [names] [early]\n", stderr), 2;
    for (int at = 3; at < count; at++) {
        lies_of_files = lies_of_files || !strcmp(words[at], "files"), lies_by_halves = lies_by_halves || !strcmp(words[at], "halves");
        lies_of_names = lies_of_names || !strcmp(words[at], "names"), keeps_early = keeps_early || !strcmp(words[at], "early");
    }
    open_images(words[2]);
    device = open("/dev/fuse", O_RDWR | O_CLOEXEC);
    snprintf(options, sizeof options, "fd=%d,rootmode=40000,user_id=%u,group_id=%u,allow_other", device, getuid(), getgid());
    if (device < 0 || mount("losing", words[1], "fuse", MS_NODEV | MS_NOSUID, options)) return perror(words[1]), 2;
    puts("serves"), fflush(stdout);
    for (;;) {
        const ssize_t length = read(device, request, sizeof request);
        if (length < 0 && errno == ENODEV) return 0; /* (it was unmounted) */
        if (length >= (ssize_t)sizeof(struct fuse_in_header)) serve((const void *)request, (const struct fuse_in_header *)request + 1);
    }
}
