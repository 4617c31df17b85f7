/* Stands in front of libaio, by LD_PRELOAD: a disk whose writes end when and in which order the
 * environment says. Writes have numbers, from 0, as they are submitted; a list is "2,1,0".
 *
 *   HELD=LIST   these never end and never land, until there is a file releaseN in the folder
 *   BELOW=N     nor do those from N on
 *   ORDER=LIST  these end in this order
 *   LIES=LIST   these are told as done and never land
 *
 * Each end is told on standard error, as `done 3`. The kernel's asynchronous calls aren't used: a
 * write is carried out when its end is fetched. The library behind this one is never called. */
#define _GNU_SOURCE
#include <errno.h>
#include <stdio.h>
#include <stdlib.h>
#include <string.h>
#include <time.h>
#include <unistd.h>

/* libaio's own layouts, as its header has them */
struct iocb { void *data; unsigned key, flags; short op, priority; int fd; void *bytes; unsigned long length; long long offset; char more[32]; };
struct io_event { void *data; struct iocb *of; unsigned long result, other; };
enum { READ = 0, WRITE = 1, ROOM = 4096 };

static struct { struct iocb *call; long number; } waiting[ROOM];
static int waits;
static long submitted;
static char ended[1 << 20];

static int is_listed(const char *name, long number)
{
	const char *list = getenv(name);
	char *end;
	while (list && *list) {
		if (strtol(list, &end, 10) == number && end != list) return 1;
		if (end == list) break;
		list = *end ? end + 1 : end;
	}
	return 0;
}

static int is_released(long number)
{
	char path[64];
	snprintf(path, sizeof path, "release%ld", number);
	return access(path, F_OK) == 0;
}

/* Whether all writes before this one in ORDER have ended. */
static int is_its_turn(long number)
{
	const char *list = getenv("ORDER");
	char *end;
	if (!is_listed("ORDER", number)) return 1;
	while (*list) {
		long other = strtol(list, &end, 10);
		if (end == list || other == number) return 1;
		if (!ended[other]) return 0;
		list = *end ? end + 1 : end;
	}
	return 1;
}

static int may_end(long number)
{
	const char *below = getenv("BELOW");
	if (number < 0) return 1;
	if (is_listed("HELD", number) && !is_released(number)) return 0;
	if (below && number >= atol(below)) return 0;
	return is_its_turn(number);
}

static long carry_out(struct iocb *it, long number)
{
	long result = 0;
	if (it->op == READ) result = pread(it->fd, it->bytes, it->length, it->offset);
	if (it->op != WRITE) return result < 0 ? -errno : result;
	result = is_listed("LIES", number) ? (long)it->length : pwrite(it->fd, it->bytes, it->length, it->offset);
	ended[number] = 1;
	fprintf(stderr, "done %ld\n", number);
	return result < 0 ? -errno : result;
}

int io_queue_init(int depth, void **queue) { (void)depth; *queue = calloc(1, ROOM); return 0; }
int io_setup(int depth, void **queue) { return io_queue_init(depth, queue); }
int io_destroy(void *queue) { (void)queue; return 0; }
int io_cancel(void *queue, struct iocb *it, struct io_event *end) { (void)queue; (void)it; (void)end; return -EAGAIN; }

int io_submit(void *queue, long count, struct iocb **calls)
{
	(void)queue;
	for (long i = 0; i < count; i++) {
		waiting[waits].number = calls[i]->op == WRITE ? submitted++ : -1;
		waiting[waits++].call = calls[i];
	}
	return count;
}

static int end_one(struct io_event *end)
{
	for (int i = 0; i < waits; i++) {
		struct iocb *it = waiting[i].call;
		if (!may_end(waiting[i].number)) continue;
		end->data = it->data;
		end->of = it;
		end->result = carry_out(it, waiting[i].number);
		end->other = 0;
		memmove(&waiting[i], &waiting[i + 1], sizeof waiting[0] * (waits - i - 1));
		waits--;
		return 1;
	}
	return 0;
}

int io_getevents(void *queue, long least, long most, struct io_event *ends, struct timespec *time)
{
	int count = 0;
	(void)queue;
	(void)time;
	while (count < most && end_one(&ends[count])) count++;
	if (count < least) usleep(2000);
	return count;
}
