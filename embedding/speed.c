/* Times requests of guests over the library, by the calls that a monitor makes for them: .ci/speed calls it.
 *
 *     speed GUESTS LENGTH ANSWER WARM REQUESTS [IMAGE]
 *
 * Each of GUESTS guests asks for each request of the file REQUESTS in turn: the first has 1,024 bytes, each other one
 * LENGTH, and its answer has ANSWER bytes. The key and WARM requests behind it aren't timed. The image is in memory, or
 * it is the one in the file IMAGE, to which writes and syncs go. A sync serves all guests that wait for one.
 *
 * It prints how many requests were timed, their nanoseconds, the writes, bytes and syncs of the image in that time, and
 * the most memory that the process had, in KiB. Reading a request and looking at its answer aren't timed. */
#include "guest_ram.h"
#include "rpmb_host.h"
#include <fcntl.h>
#include <stdio.h>
#include <stdlib.h>
#include <sys/stat.h>
#include <time.h>
#include <unistd.h>

enum { MOST = 64, MEMORY = 65536, PLACES = 2 };
/* where a guest puts its queue, its request and its answer */
enum { DESCRIPTORS = 0x1000, DRIVER = 0x2000, DEVICE = 0x3000, REQUEST = 0x4000, ANSWER = 0x8000,
       LONGEST = ANSWER - REQUEST };

static struct rpmb_guest board[MOST];
static struct rpmb_host host;
static _Alignas(8) unsigned char ram[MOST][MEMORY];
static uint16_t guests, asked;          /* asked: how many requests each has offered */
static unsigned char *image;
static size_t length;
static int file = -1;                   /* the image's file; -1: it is in memory alone */
static uint64_t writes, bytes_written, syncs;

static void check(int holds, const char *what)
{
	if (!holds) {
		fprintf(stderr, "speed: %s\n", what);
		exit(1);
	}
}

static void check_fault(uint32_t fault)
{
	check(fault == RPMB_OK, rpmb_fault_text(fault));
}

/* The monitor's half. */

static void empty_outbox(void)
{
	static unsigned char bytes[RPMB_LARGEST_WRITE];
	uint64_t at;
	size_t len;

	for (; (len = rpmb_outbox(&host, &at, bytes, sizeof bytes)) != 0; writes++, bytes_written += len) {
		if (file < 0)
			memcpy(image + at, bytes, len);
		else
			check(pwrite(file, bytes, len, (off_t)at) == (ssize_t)len, "pwrite");
	}
}

/* Serves a guest to its next sync. Whether a sync is awaited. */
static int serve(uint16_t guest)
{
	static unsigned char bytes[RPMB_LARGEST_PART];
	const struct guest_ram its = { &(struct guest_region){ 0, MEMORY, ram[guest] }, 1 };
	struct rpmb_next next;
	uint32_t done = 0;

	do {
		rpmb_serve(&host, guest, done, bytes, sizeof bytes, &next);
		empty_outbox();
		if (next.what == RPMB_READ)
			done = guest_copy_in(&its, next.at, bytes, next.len);
		if (next.what == RPMB_WRITE)
			done = guest_copy_out(&its, next.at, bytes, next.len);
	} while (next.what != RPMB_REST);
	check_fault(next.fault);
	return next.sync;
}

/* Syncs until no guest waits for it. */
static void settle(int awaited)
{
	while (awaited) {
		check(file < 0 || fsync(file) == 0, "fsync");
		check_fault(rpmb_completed(&host, 1));
		syncs++;
		awaited = 0;
		for (uint16_t guest = 0; guest < guests; guest++)
			if (rpmb_waiting(&host, guest))
				awaited = serve(guest);
	}
}

/* The guests' half. */

static void put(unsigned char *to, uint64_t number, int bytes)
{
	for (; bytes > 0; bytes--, number >>= 8)
		*to++ = (unsigned char)number;
}

/* Brings a device into service: VIRTIO_F_VERSION_1 alone, and a queue of 2 places (VIRTIO 1.2, 3.1.1 and 4.2.3). */
static void negotiate(uint16_t guest)
{
	static const uint32_t writes_of[][2] = {
		{ 0x070, 0 }, { 0x070, 1 }, { 0x070, 3 }, { 0x024, 1 }, { 0x020, 1 }, { 0x070, 11 },
		{ 0x030, 0 }, { 0x038, PLACES }, { 0x080, DESCRIPTORS }, { 0x090, DRIVER }, { 0x0a0, DEVICE },
		{ 0x044, 1 }, { 0x070, 15 },
	};

	for (size_t i = 0; i < sizeof writes_of / sizeof writes_of[0]; i++)
		rpmb_write(&host, guest, writes_of[i][0], 4, writes_of[i][1]);
	check(rpmb_read(&host, guest, 0x070, 4) == 15, "the device isn't in service");
}

/* The chain's two descriptors (2.7.5): a request of so many bytes, and room for its answer. */
static void describe(uint16_t guest, size_t len, size_t room)
{
	unsigned char *its = ram[guest] + DESCRIPTORS;

	put(its, REQUEST, 8), put(its + 8, len, 4), put(its + 12, 1, 2), put(its + 14, 1, 2);
	put(its + 16, ANSWER, 8), put(its + 24, room, 4), put(its + 28, 2, 2), put(its + 30, 0, 2);
}

/* Offers the chain once more: each place of the available ring has it. Whether a sync is awaited. */
static int offer(uint16_t guest, const unsigned char *request, size_t len)
{
	memcpy(ram[guest] + REQUEST, request, len);
	put(ram[guest] + DRIVER + 2, asked, 2);
	return rpmb_write(&host, guest, 0x050, 4, 0) == RPMB_NOTIFY ? serve(guest) : 0;
}

/* Takes the interrupt, as the guest's driver does. */
static void acknowledge(uint16_t guest)
{
	check(rpmb_interrupt(&host, guest) == 1, "no interrupt");
	rpmb_write(&host, guest, 0x064, 4, 1);
}

/* The used index has come along, and the last frame has the result 0x0000. */
static void look(uint16_t guest, size_t room)
{
	const unsigned char *its = ram[guest], *end = its + ANSWER + room;

	check(its[DEVICE + 2] == asked % 256 && its[DEVICE + 3] == asked / 256, "no answer");
	check(end[-4] == 0 && end[-3] == 0, "a refusal");
}

static uint64_t now(void)
{
	struct timespec it;

	check(clock_gettime(CLOCK_MONOTONIC, &it) == 0, "no clock");
	return (uint64_t)it.tv_sec * 1000000000u + (uint64_t)it.tv_nsec;
}

/* Has each guest ask for this. The nanoseconds. */
static uint64_t ask(const unsigned char *request, size_t len, size_t room)
{
	uint64_t start = now(), took;
	int awaited = 0;

	asked++;
	for (uint16_t guest = 0; guest < guests; guest++)
		awaited |= offer(guest, request, len);
	settle(awaited);
	for (uint16_t guest = 0; guest < guests; guest++)
		acknowledge(guest);
	took = now() - start;
	for (uint16_t guest = 0; guest < guests; guest++)
		look(guest, room);
	return took;
}

static void open_board(const char *path)
{
	for (uint16_t guest = 0; guest < guests; guest++)
		board[guest] = (struct rpmb_guest){ .memory = MEMORY, .queue = PLACES, .capacity = 1,
			.max_wr_cnt = 16, .max_rd_cnt = 16 };
	length = rpmb_image_length(board, guests);
	image = malloc(length);
	check(length != 0 && image != NULL, "no memory");
	if (path) {
		file = open(path, O_RDWR);
		check(file >= 0 && pread(file, image, length, 0) == (ssize_t)length, path);
	} else {
		check_fault(rpmb_format(board, guests, image, length));
	}
	check_fault(rpmb_open(board, guests, image, length, &host));
	for (uint16_t guest = 0; guest < guests; guest++)
		negotiate(guest);
}

static void describe_all(size_t len, size_t room)
{
	for (uint16_t guest = 0; guest < guests; guest++)
		describe(guest, len, room);
}

/* The most memory that the process had (proc_pid_status(5)). */
static unsigned long peak(void)
{
	char line[256];
	unsigned long found = 0;
	FILE *it = fopen("/proc/self/status", "r");

	while (it && fgets(line, sizeof line, it))
		sscanf(line, "VmHWM: %lu", &found);
	if (it)
		fclose(it);
	return found;
}

int main(int argc, char **argv)
{
	static unsigned char request[LONGEST];
	uint64_t count = 0, took = 0;
	unsigned long warm;
	size_t len, room;
	FILE *requests;

	check(argc == 6 || argc == 7, "speed GUESTS LENGTH ANSWER WARM REQUESTS [IMAGE]");
	guests = (uint16_t)atoi(argv[1]), len = (size_t)atol(argv[2]), room = (size_t)atol(argv[3]);
	warm = strtoul(argv[4], NULL, 10);
	requests = fopen(argv[5], "rb");
	check(guests >= 1 && guests <= MOST && len <= LONGEST && room <= LONGEST && requests != NULL, argv[5]);
	open_board(argc == 7 ? argv[6] : NULL);
	if (fread(request, 1024, 1, requests) == 1) {
		describe_all(1024, 512);
		ask(request, 1024, 512);
		describe_all(len, room);
	}
	for (; fread(request, len, 1, requests) == 1; count++) {
		if (count == warm)
			took = writes = bytes_written = syncs = 0;
		took += ask(request, len, room);
	}
	count = count > warm ? (count - warm) * guests : 0;
	printf("%llu %llu %llu %llu %llu %lu\n", (unsigned long long)count, (unsigned long long)took,
	       (unsigned long long)writes, (unsigned long long)bytes_written, (unsigned long long)syncs, peak());
	rpmb_close(&host);
	return 0;
}
