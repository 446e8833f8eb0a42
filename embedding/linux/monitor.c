#include "monitor.h"
#include <fcntl.h>
#include <pthread.h>
#include <stdio.h>
#include <stdlib.h>
#include <sys/stat.h>
#include <time.h>
#include <unistd.h>

#define SECONDS 60	/* that a wait lasts, at most */

struct monitor_options monitor_options;
struct monitor_counts monitor_counts;

static struct served {
	struct guest_region regions[2];
	struct guest_ram ram;
	struct rpmb_next next;
	uint32_t done, faults, places;
	uint64_t descriptors;
	unsigned long taken;
	bool active;	/* it kicked its queue, or waits */
	bool copying;
	uint8_t bytes[RPMB_LARGEST_PART];
} served[MONITOR_GUESTS];

static pthread_mutex_t lock = PTHREAD_MUTEX_INITIALIZER;	/* of all here but copies and writes */
static pthread_cond_t bell = PTHREAD_COND_INITIALIZER;		/* there is something to do */
static pthread_cond_t news = PTHREAD_COND_INITIALIZER;		/* a line changed, or there is nothing */
static struct rpmb_host host;
static size_t guest_count;
static int file = -1, syncs_left;
static bool due, failing, idle = true;

/* writes that were taken from the outbox and aren't made yet */
#define HELD 4096
static struct { uint64_t at; size_t length; uint8_t *bytes; } held[HELD];
static int held_count;

static uint64_t now(void)
{
	struct timespec t;
	clock_gettime(CLOCK_MONOTONIC, &t);
	return t.tv_sec * 1000000000ull + t.tv_nsec;
}
static _Noreturn void stop(const char *what)
{
	fprintf(stderr, "monitor: %s\n", what);
	exit(74);
}
static void must(uint32_t fault, const char *what)
{
	if (fault == RPMB_OK) return;
	fprintf(stderr, "monitor: %s: %s\n", what, rpmb_fault_text(fault));
	exit(74);
}

static void write_all(uint64_t at, const uint8_t *bytes, size_t length)
{
	while (length) {
		ssize_t n = pwrite(file, bytes, length, at);
		if (n <= 0) stop("pwrite");
		at += n;
		bytes += n;
		length -= n;
	}
}

void monitor_open(const struct rpmb_guest *guests, size_t count, const char *path, bool format)
{
	uint64_t length = rpmb_image_length(guests, count);
	uint8_t *image = length ? malloc(length) : NULL;
	struct stat s;
	if (!image) stop("no such board, or no memory");
	file = open(path, O_RDWR | O_CREAT | O_CLOEXEC, 0600);
	if (file < 0) stop(path);
	if (format) {
		must(rpmb_format(guests, count, image, length), "rpmb_format");
		if (ftruncate(file, 0)) stop("ftruncate");
		write_all(0, image, length);
	}
	if (fsync(file) || fstat(file, &s)) stop("fsync");
	if ((uint64_t)s.st_size != length) stop("the file isn't as long as the image");
	if (pread(file, image, length, 0) != (ssize_t)length) stop("pread");
	must(rpmb_open(guests, count, image, length, &host), "rpmb_open");
	free(image);
	guest_count = count;
	due = false;
	for (size_t g = 0; g < count; g++) {
		served[g].next.what = RPMB_REST;
		served[g].taken = 0;
	}
}

void monitor_close(void)
{
	rpmb_close(&host);
	close(file);
	while (held_count) free(held[--held_count].bytes);
}

void monitor_ram(int guest, const struct guest_region *regions, size_t count)
{
	if (count > 2) stop("regions");
	memcpy(served[guest].regions, regions, count * sizeof *regions);
	served[guest].ram = (struct guest_ram){ served[guest].regions, count };
}

/* Whether an earlier write than the i-th touches the same bytes: which one, or -1. */
static int overlapped(int i)
{
	uint64_t from = held[i].at, to = from + held[i].length;
	for (int j = 0; j < i; j++)
		if (held[j].at < to && from < held[j].at + held[j].length) return j;
	return -1;
}

static void take_outbox(void)
{
	static uint8_t bytes[RPMB_LARGEST_WRITE];
	uint64_t at;
	size_t n;
	while ((n = rpmb_outbox(&host, &at, bytes, sizeof bytes))) {
		if (held_count == HELD) stop("too many writes before a sync");
		held[held_count].at = at;
		held[held_count].length = n;
		held[held_count].bytes = memcpy(malloc(n), bytes, n);
		monitor_counts.overlaps += overlapped(held_count) >= 0;
		/* a sync that was under way by now would miss it: this monitor's comes later */
		monitor_counts.late += due;
		held_count++;
		monitor_counts.outbox++;
	}
}

/* Any of them, but that an earlier one which it overlaps comes first. */
static int any_write(void)
{
	int i = monitor_options.ordered ? 0 : random() % held_count;
	for (int j = overlapped(i); j >= 0; j = overlapped(i)) i = j;
	return i;
}

/* None of them is promised before the sync. Those are made that leave so many. */
static void make_writes(int left)
{
	while (held_count > left) {
		int i = any_write();
		write_all(held[i].at, held[i].bytes, held[i].length);
		free(held[i].bytes);
		held_count--;
		memmove(held + i, held + i + 1, (held_count - i) * sizeof *held);
	}
}

/* Some of the writes are made, and one of them in part; the others never are. */
static void make_some(void)
{
	if (held_count) make_writes(random() % (held_count + 1));
	if (held_count) {
		size_t from = random() % held[0].length, length = held[0].length - from;
		write_all(held[0].at + from, held[0].bytes + from, random() % (length + 1));
	}
	while (held_count) free(held[--held_count].bytes);
}

void monitor_stop(void)
{
	make_some();
	monitor_close();
}

/* Copies what is asked for. The lock is free meanwhile: the guest's processor makes its exits. */
static void copy(struct served *s)
{
	uint64_t t = now();
	s->copying = true;
	pthread_mutex_unlock(&lock);
	if (s->next.what == RPMB_READ)
		s->done = guest_copy_in(&s->ram, s->next.at, s->bytes, s->next.len);
	else
		s->done = guest_copy_out(&s->ram, s->next.at, s->bytes, s->next.len);
	pthread_mutex_lock(&lock);
	s->copying = false;
	pthread_cond_broadcast(&news);
	if (s->next.what == RPMB_READ) monitor_counts.copied_in += s->next.len;
	else monitor_counts.copied_out += s->next.len;
	monitor_counts.copy_ns += now() - t;
}

/* One call, and what it asks for. */
static void step(struct served *s)
{
	uint64_t t = now();
	rpmb_serve(&host, s - served, s->done, s->bytes, sizeof s->bytes, &s->next);
	monitor_counts.serve_ns += now() - t;
	monitor_counts.calls++;
	take_outbox();
	if (s->next.what == RPMB_READ && s->next.at == s->descriptors && s->next.len == 16 * s->places)
		s->taken++;
	if (s->next.what == RPMB_CALL) monitor_counts.interrupts++;
	if (s->next.what == RPMB_CALL || s->next.what == RPMB_REST) pthread_cond_broadcast(&news);
	if (s->next.what == RPMB_READ || s->next.what == RPMB_WRITE) copy(s);
}

static void serve(struct served *s)
{
	s->active = false;	/* a kick from here on is one more */
	do step(s);
	while (s->next.what != RPMB_REST);
	monitor_counts.serves++;
	if (s->next.sync) due = true;
	if (s->next.fault == RPMB_OK) return;
	monitor_counts.faults++;
	s->faults |= 1u << s->next.fault;
}

/* The writes, and a sync of them. Registers are read and written meanwhile. */
static void sync_file(void)
{
	uint64_t t = now();
	bool fails = failing;
	pthread_mutex_unlock(&lock);
	if (fails) make_some();
	else make_writes(0);
	bool well = !fails && fsync(file) == 0;
	pthread_mutex_lock(&lock);
	monitor_counts.disk_ns += now() - t;
	monitor_counts.syncs++;
	due = failing = false;
	syncs_left--;
	must(rpmb_completed(&host, well), "rpmb_completed");
	for (size_t g = 0; g < guest_count; g++)
		if (rpmb_waiting(&host, g)) served[g].active = true;
	due = rpmb_go_on(&host);
	take_outbox();
}

static bool has_work(void)
{
	for (size_t g = 0; g < guest_count; g++)
		if (served[g].active) return true;
	return due && syncs_left > 0;
}

static void *run(void *unused)
{
	(void)unused;
	pthread_mutex_lock(&lock);
	for (;;) {
		for (size_t g = 0; g < guest_count; g++)
			if (served[g].active) serve(&served[g]);
		if (due && syncs_left > 0) sync_file();
		if (has_work()) continue;
		idle = true;
		syncs_left = 0;
		pthread_cond_broadcast(&news);
		while (!has_work()) pthread_cond_wait(&bell, &lock);
	}
	return NULL;
}

void monitor_start(void)
{
	pthread_t thread;
	if (pthread_create(&thread, NULL, run, NULL)) stop("no thread");
}

/* With the lock. */
static void ring(void)
{
	idle = false;
	pthread_cond_signal(&bell);
}

uint32_t monitor_read(int guest, uint32_t offset, uint8_t width)
{
	pthread_mutex_lock(&lock);
	uint64_t t = now();
	uint32_t value = rpmb_read(&host, guest, offset, width);
	monitor_counts.register_ns += now() - t;
	monitor_counts.reads++;
	pthread_mutex_unlock(&lock);
	return value;
}

/* Where the descriptors stand, which are read once of each chain that is taken. */
static void note_queue(struct served *s, uint32_t offset, uint32_t value)
{
	if (offset == 0x38) s->places = value;
	if (offset == 0x80) s->descriptors = value;
	if (offset == 0x84) s->descriptors |= (uint64_t)value << 32;
}

void monitor_write(int guest, uint32_t offset, uint8_t width, uint32_t value)
{
	pthread_mutex_lock(&lock);
	/* behind a reset, or without its queue, the driver takes its memory back */
	while (served[guest].copying && (offset == 0x70 || offset == 0x44))
		pthread_cond_wait(&news, &lock);
	uint64_t t = now();
	uint32_t kick = rpmb_write(&host, guest, offset, width, value);
	monitor_counts.register_ns += now() - t;
	monitor_counts.writes++;
	note_queue(&served[guest], offset, value);
	if (kick == RPMB_RESET) served[guest].taken = 0;
	if (kick == RPMB_NOTIFY) {
		monitor_counts.kicks++;
		served[guest].active = true;
		ring();
	}
	pthread_mutex_unlock(&lock);
}

bool monitor_line(int guest)
{
	pthread_mutex_lock(&lock);
	bool high = rpmb_interrupt(&host, guest) != 0;
	pthread_mutex_unlock(&lock);
	return high;
}

static bool is_called(void)
{
	for (size_t g = 0; g < guest_count; g++)
		if (rpmb_interrupt(&host, g)) return true;
	return false;
}

static bool wait_until(bool line)
{
	struct timespec end;
	clock_gettime(CLOCK_REALTIME, &end);
	end.tv_sec += SECONDS;
	pthread_mutex_lock(&lock);
	while (!idle && !(line && is_called()))
		if (pthread_cond_timedwait(&news, &lock, &end)) stop("nothing goes on");
	bool rests = idle;
	pthread_mutex_unlock(&lock);
	return rests;
}

bool monitor_wait(void) { return wait_until(true); }
void monitor_rest(void) { wait_until(false); }

void monitor_settle(int syncs)
{
	pthread_mutex_lock(&lock);
	syncs_left = syncs;
	if (due) ring();
	pthread_mutex_unlock(&lock);
}

bool monitor_awaits(void)
{
	pthread_mutex_lock(&lock);
	bool awaits = due;
	pthread_mutex_unlock(&lock);
	return awaits;
}

void monitor_fail(void)
{
	pthread_mutex_lock(&lock);
	failing = true;
	pthread_mutex_unlock(&lock);
}

unsigned long monitor_taken(int guest)
{
	pthread_mutex_lock(&lock);
	unsigned long taken = served[guest].taken;
	pthread_mutex_unlock(&lock);
	return taken;
}

uint32_t monitor_fault(int guest)
{
	uint32_t fault = RPMB_OK;
	pthread_mutex_lock(&lock);
	while (fault < 32 && !(served[guest].faults >> fault & 1)) fault++;
	if (fault == 32) fault = RPMB_OK;
	served[guest].faults &= ~(1u << fault);
	pthread_mutex_unlock(&lock);
	return fault;
}

void monitor_times(long n, double *read, double *write, double *nothing)
{
	volatile uint32_t sink;
	pthread_mutex_lock(&lock);
	uint64_t t[4] = { now() };
	for (long i = 0; i < n; i++) sink = rpmb_read(&host, 0, 0x70, 4);
	t[1] = now();
	for (long i = 0; i < n; i++) sink = rpmb_write(&host, 0, 0x30, 4, 0);
	t[2] = now();
	for (long i = 0; i < n; i++) serve(&served[0]);
	t[3] = now();
	pthread_mutex_unlock(&lock);
	(void)sink;
	*read = (double)(t[1] - t[0]) / n;
	*write = (double)(t[2] - t[1]) / n;
	*nothing = (double)(t[3] - t[2]) / n;
}
