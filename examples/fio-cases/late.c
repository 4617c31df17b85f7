/* Stands in front of the C library, by LD_PRELOAD: counts the writes that begin once fio has opened
 * the file of a verify state. The count is a number of 8 bytes in the file that LATE names, behind
 * one that is 1 once that file was opened. */
#define _GNU_SOURCE
#include <dlfcn.h>
#include <fcntl.h>
#include <stdarg.h>
#include <stdlib.h>
#include <string.h>
#include <sys/mman.h>
#include <unistd.h>

typedef int opens(const char *, int, ...);
static opens *real_open;
static volatile long *page;

static void prepare(void)
{
	if (page) return;
	real_open = (opens *)dlsym(RTLD_NEXT, "open");
	int file = real_open(getenv("LATE"), O_RDWR | O_CREAT, 0644);
	if (file < 0 || ftruncate(file, 4096)) _exit(70);
	page = mmap(0, 4096, PROT_READ | PROT_WRITE, MAP_SHARED, file, 0);
	close(file);
}

static int opened(const char *name, int flags, int mode)
{
	prepare();
	if ((flags & (O_WRONLY | O_RDWR)) && strstr(name, "-verify.state")) page[0] = 1;
	return real_open(name, flags, mode);
}

#define OPENS(name) int name(const char *path, int flags, ...) \
{ va_list more; va_start(more, flags); int mode = va_arg(more, int); va_end(more); return opened(path, flags, mode); }
OPENS(open)
OPENS(open64)

static ssize_t written(int file, const void *bytes, size_t length, off_t offset)
{
	static ssize_t (*real)(int, const void *, size_t, off_t);
	prepare();
	if (!real) real = (ssize_t (*)(int, const void *, size_t, off_t))dlsym(RTLD_NEXT, "pwrite64");
	if (page[0]) __sync_fetch_and_add(&page[1], 1);
	return real(file, bytes, length, offset);
}
ssize_t pwrite(int file, const void *bytes, size_t length, off_t offset) { return written(file, bytes, length, offset); }
ssize_t pwrite64(int file, const void *bytes, size_t length, off_t offset) { return written(file, bytes, length, offset); }
