/* What C lays out is what the library reads: two guests that differ in every field, each of which is read back through
 * its device, and what a serve asks for, step by step and field by field.
 *
 * Nothing else compares the header's structs with the library's: both know their fields by name alone. */
#include "guest_ram.h"
#include "rpmb_host.h"
#include <stdio.h>
#include <stdlib.h>

/* feature bits (VIRTIO 1.2, 6) */
#define INDIRECT_DESC (1ull << 28)
#define EVENT_IDX (1ull << 29)
#define VERSION_1 (1ull << 32)
#define ACCESS_PLATFORM (1ull << 33)
#define RING_PACKED (1ull << 34)
#define IN_ORDER (1ull << 35)

/* where a driver puts its queue, its request, and its answers of 512 bytes */
enum { DESCRIPTORS = 0x1000, DRIVER = 0x2000, DEVICE = 0x3000, REQUEST = 0x4000, ANSWER = 0x5000, RAM = 0x9000 };

static const struct rpmb_guest board[] = {
	{ .memory = 0x123456789000, .withheld = INDIRECT_DESC | IN_ORDER, .queue = 8, .most = 2, .capacity = 3,
	  .max_wr_cnt = 5, .max_rd_cnt = 7, .platform = 0 },
	{ .memory = 0x9000, .withheld = EVENT_IDX | RING_PACKED, .queue = 64, .most = 9, .capacity = 11,
	  .max_wr_cnt = 13, .max_rd_cnt = 15, .platform = 1 },
};
static struct rpmb_host host;
static _Alignas(8) unsigned char memories[2][RAM];
static const struct guest_ram rams[] = {
	{ (const struct guest_region[]){ { 0, RAM, memories[0] } }, 1 },
	{ (const struct guest_region[]){ { 0, RAM, memories[1] } }, 1 },
};
static unsigned writes, syncs, taken; /* taken: chains, of each of which the device reads all descriptors */

_Static_assert(offsetof(struct rpmb_guest, memory) == 0 && offsetof(struct rpmb_guest, withheld) == 8
               && offsetof(struct rpmb_guest, queue) == 16 && offsetof(struct rpmb_guest, most) == 18
               && offsetof(struct rpmb_guest, capacity) == 20 && offsetof(struct rpmb_guest, max_wr_cnt) == 21
               && offsetof(struct rpmb_guest, max_rd_cnt) == 22 && offsetof(struct rpmb_guest, platform) == 23
               && sizeof(struct rpmb_guest) == 24, "struct rpmb_guest");
_Static_assert(offsetof(struct rpmb_next, at) == 0 && offsetof(struct rpmb_next, len) == 8
               && offsetof(struct rpmb_next, fault) == 12 && offsetof(struct rpmb_next, what) == 16
               && offsetof(struct rpmb_next, sync) == 17 && offsetof(struct rpmb_next, waiting) == 18
               && offsetof(struct rpmb_next, spare) == 19 && sizeof(struct rpmb_next) == 24, "struct rpmb_next");
_Static_assert(offsetof(struct rpmb_queue, descriptors) == 0 && offsetof(struct rpmb_queue, driver) == 8
               && offsetof(struct rpmb_queue, device) == 16 && offsetof(struct rpmb_queue, size) == 24
               && offsetof(struct rpmb_queue, spare) == 28 && sizeof(struct rpmb_queue) == 32, "struct rpmb_queue");

static void check(int holds, const char *what)
{
	if (!holds) {
		printf("failed: %s\n", what);
		exit(1);
	}
}

static void check_number(uint64_t is, uint64_t wanted, const char *what)
{
	if (is != wanted) {
		printf("failed: %s: 0x%llx in place of 0x%llx\n", what, (unsigned long long)is, (unsigned long long)wanted);
		exit(1);
	}
}

static void open_board(void)
{
	size_t length = rpmb_image_length(board, 2);
	unsigned char *image = malloc(length);

	check(length != 0 && image != NULL, "the image's length");
	check_number(rpmb_format(board, 2, image, length), RPMB_OK, "rpmb_format");
	check_number(rpmb_open(board, 2, image, length, &host), RPMB_OK, "rpmb_open");
	free(image);
}

/* 1. The fields of struct rpmb_guest. */

static uint64_t features_of(uint16_t guest)
{
	uint64_t features;

	rpmb_write(&host, guest, 0x014, 4, 0);                        /* DeviceFeaturesSel */
	features = rpmb_read(&host, guest, 0x010, 4);
	rpmb_write(&host, guest, 0x014, 4, 1);
	return features | (uint64_t)rpmb_read(&host, guest, 0x010, 4) << 32;
}

/* Brings the device up to its queue of so many places, with VERSION_1 alone (3.1.1, 4.2.3). Whether that is ready. */
static int make_queue(uint16_t guest, uint64_t descriptors, uint32_t places)
{
	const uint32_t writes_of[][2] = {
		{ 0x070, 0 }, { 0x070, 1 }, { 0x070, 3 }, { 0x024, 1 }, { 0x020, 1 }, { 0x070, 11 },
		{ 0x030, 0 }, { 0x038, places }, { 0x080, (uint32_t)descriptors }, { 0x084, (uint32_t)(descriptors >> 32) },
		{ 0x090, DRIVER }, { 0x0a0, DEVICE }, { 0x044, 1 },
	};

	for (size_t i = 0; i < sizeof writes_of / sizeof writes_of[0]; i++)
		check_number(rpmb_write(&host, guest, writes_of[i][0], 4, writes_of[i][1]),
		             i == 0 ? RPMB_RESET : RPMB_NOTHING, "what a register's write asks for");
	return rpmb_read(&host, guest, 0x044, 4) == 1;
}

/* The same by one call, and what it leaves: a device in service, or one that was reset. */
static void check_start(uint16_t guest, uint64_t features, uint64_t descriptors, uint32_t is_up)
{
	const struct rpmb_queue queue = { .descriptors = descriptors, .driver = DRIVER, .device = DEVICE, .size = 2 };

	check_number(rpmb_start(&host, guest, features, &queue), is_up, "rpmb_start");
	check_number(rpmb_read(&host, guest, 0x070, 4), is_up ? 15 : 0, "Status then");
	check_number(rpmb_read(&host, guest, 0x044, 4), is_up, "QueueReady then");
	rpmb_stop(&host, guest);
	check_number(rpmb_read(&host, guest, 0x070, 4), 0, "Status after rpmb_stop");
	check_number(rpmb_read(&host, guest, 0x044, 4), 0, "QueueReady after rpmb_stop");
}

static void check_guest(uint16_t guest, uint64_t features)
{
	const struct rpmb_guest *g = &board[guest];

	check_number(features_of(guest), features, "the features of `withheld` and `platform`");
	check_number(rpmb_features(&host, guest), features, "rpmb_features");
	check_number(rpmb_read(&host, guest, 0x034, 4), g->queue, "QueueNumMax, of `queue`");
	/* struct virtio_rpmb_config (5.12.4) */
	check_number(rpmb_read(&host, guest, 0x100, 1), g->capacity, "capacity");
	check_number(rpmb_read(&host, guest, 0x101, 1), g->max_wr_cnt, "max_wr_cnt");
	check_number(rpmb_read(&host, guest, 0x102, 1), g->max_rd_cnt, "max_rd_cnt");
	check(make_queue(guest, g->memory - 32, 2), "a queue at the end of `memory`");
	check(!make_queue(guest, g->memory - 16, 2), "a queue that passes `memory`");
	check_start(guest, features, g->memory - 32, 1);
	check_start(guest, VERSION_1, g->memory - 16, 0);
	check_start(guest, features & ~VERSION_1, g->memory - 32, 0);
}

/* 2. The fields of struct rpmb_next. */

static void put(uint16_t guest, uint64_t at, uint64_t number, int bytes)
{
	for (; bytes > 0; bytes--, number >>= 8)
		memories[guest][at++] = (unsigned char)number;
}

static unsigned get16(uint16_t guest, uint64_t at)
{
	return memories[guest][at] + 256u * memories[guest][at + 1];
}

/* the same in big endian, as frames have it (5.12.6) */
static unsigned get_be16(uint16_t guest, uint64_t at)
{
	return 256u * memories[guest][at] + memories[guest][at + 1];
}

static void negotiate(uint16_t guest)
{
	memset(memories[guest], 0, RAM);
	check(make_queue(guest, DESCRIPTORS, board[guest].queue), "the queue is ready");
	rpmb_write(&host, guest, 0x070, 4, 15);
	check_number(rpmb_read(&host, guest, 0x070, 4), 15, "Status");
}

/* Offers a chain of the frames at REQUEST and of one for their answer (2.7). Where that is. */
static uint64_t offer(uint16_t guest, uint32_t frames)
{
	unsigned places = board[guest].queue, next = get16(guest, DRIVER + 2), place = 2 * next % places;
	uint64_t at = DESCRIPTORS + 16 * place, answer = ANSWER + 256 * place;

	put(guest, at, REQUEST, 8), put(guest, at + 8, 512 * frames, 4);
	put(guest, at + 12, 1, 2), put(guest, at + 14, place + 1, 2); /* VIRTQ_DESC_F_NEXT */
	put(guest, at + 16, answer, 8), put(guest, at + 24, 512, 4);
	put(guest, at + 28, 2, 2), put(guest, at + 30, 0, 2);         /* VIRTQ_DESC_F_WRITE */
	put(guest, DRIVER + 4 + 2 * (next % places), place, 2), put(guest, DRIVER + 2, next + 1, 2);
	return answer;
}

static void take_outbox(void)
{
	static unsigned char bytes[RPMB_LARGEST_WRITE];
	uint64_t at = 7;

	while (rpmb_outbox(&host, &at, bytes, sizeof bytes) != 0)
		at = 7, writes++;
	check(at == 7, "where no write waits, `at` stays");
}

/* One call, and what it asked for is done. */
static struct rpmb_next step(uint16_t guest, uint32_t *done)
{
	static unsigned char bytes[RPMB_LARGEST_PART];
	struct rpmb_next next;

	memset(&next, 0xff, sizeof next);
	rpmb_serve(&host, guest, *done, bytes, sizeof bytes, &next);
	*done = 0;
	taken += next.what == RPMB_READ && next.at == DESCRIPTORS;
	if (next.what == RPMB_READ)
		*done = guest_copy_in(&rams[guest], next.at, bytes, next.len);
	if (next.what == RPMB_WRITE)
		*done = guest_copy_out(&rams[guest], next.at, bytes, next.len);
	check_number(next.waiting, rpmb_waiting(&host, guest), "`waiting`");
	check(next.sync <= 1, "`sync`");
	for (size_t i = 0; i < sizeof next.spare; i++)
		check_number(next.spare[i], 0, "`spare`");
	check(next.what == RPMB_REST || next.fault == RPMB_OK, "`fault`, before it rests");
	check((next.what == RPMB_READ || next.what == RPMB_WRITE) == (next.len != 0), "`len`");
	take_outbox();
	return next;
}

/* Serves to the rest. */
static struct rpmb_next serve(uint16_t guest)
{
	struct rpmb_next next;
	uint32_t done = 0;

	do
		next = step(guest, &done);
	while (next.what != RPMB_REST);
	return next;
}

/* All that one chain of a counter's request takes, in a queue of 8 places. */
static const struct rpmb_next counter_steps[] = {
	{ .what = RPMB_READ, .at = DRIVER + 2, .len = 2 },       /* the available ring's index, */
	{ .what = RPMB_READ, .at = DRIVER + 4, .len = 2 },       /* and its entry */
	{ .what = RPMB_READ, .at = DESCRIPTORS, .len = 16 * 8 },
	{ .what = RPMB_READ, .at = REQUEST, .len = 512 },
	{ .what = RPMB_READ, .at = DRIVER + 2, .len = 2 },       /* there is no further one */
	{ .what = RPMB_WRITE, .at = ANSWER, .len = 512 },
	{ .what = RPMB_WRITE, .at = DEVICE + 4, .len = 8 },      /* the used ring's element, */
	{ .what = RPMB_WRITE, .at = DEVICE + 2, .len = 2 },      /* and its index */
	{ .what = RPMB_READ, .at = DRIVER, .len = 2 },           /* whether the driver wants an interrupt */
	{ .what = RPMB_CALL },
	{ .what = RPMB_READ, .at = DRIVER + 2, .len = 2 },       /* none was offered meanwhile */
	{ .what = RPMB_REST },
};

static void check_steps(uint16_t guest)
{
	struct rpmb_next next;
	uint32_t done = 0;

	put(guest, REQUEST + 507, 1, 1), put(guest, REQUEST + 511, 2, 1); /* VIRTIO_RPMB_REQ_GET_WRITE_COUNTER */
	check_number(offer(guest, 1), ANSWER, "the first chain's answer");
	check_number(rpmb_write(&host, guest, 0x050, 4, 0), RPMB_NOTIFY, "QueueNotify");
	for (size_t i = 0; i < sizeof counter_steps / sizeof counter_steps[0]; i++) {
		next = step(guest, &done);
		check_number(next.what, counter_steps[i].what, "`what`");
		check_number(next.at, counter_steps[i].at, "`at`");
		check_number(next.len, counter_steps[i].len, "`len`");
		check(next.waiting || i != 4, "`waiting`, where a chain was taken");
	}
	check_number(next.fault, RPMB_OK, "`fault`");
	check_number(next.sync, 0, "`sync`");
	check_number(next.waiting, 0, "`waiting`");
	check_number(get_be16(guest, ANSWER + 510), 0x0200, "the counter's answer");
}

/* So many chains that wait for a sync: where they are more than `most`, the last one isn't taken before. */
static void check_most(uint16_t guest, unsigned chains)
{
	struct rpmb_next next;
	uint64_t answer = 0;
	unsigned most = board[guest].most;

	negotiate(guest), writes = syncs = taken = 0;
	put(guest, REQUEST + 507, 1, 1), put(guest, REQUEST + 511, 1, 1); /* PROGRAM_KEY and RESULT_READ */
	put(guest, REQUEST + 512 + 511, 5, 1);
	for (unsigned i = 0; i < chains; i++)
		answer = offer(guest, 2);
	next = serve(guest);
	check_number(taken, chains < most ? chains : most, "the chains that are taken, by `most`");
	check_number(next.sync, 1, "`sync`, while a key waits");
	check_number(next.waiting, 1, "`waiting`");
	check_number(get16(guest, DEVICE + 2), 0, "no answer before a sync");
	check(writes > 0, "a write comes before a sync");
	for (; next.sync; syncs++) {
		check_number(rpmb_completed(&host, 1), RPMB_OK, "rpmb_completed");
		next = serve(guest);
		check_number(next.waiting, get16(guest, DEVICE + 2) < chains, "`waiting`");
	}
	check(syncs >= 2, "syncs come before the answer");
	check_number(next.fault, RPMB_OK, "`fault`");
	check_number(get16(guest, DEVICE + 2), chains, "all answers");
	check_number(get_be16(guest, answer + 510), 0x0100, "the last answer");
	check_number(rpmb_completed(&host, 1), RPMB_NOT_AWAITED, "no sync is awaited");
}

/* Opens the board anew, so that no guest has its key. */
static void check_mosts(void)
{
	for (uint16_t guest = 0; guest < 2; guest++)
		for (unsigned more = 0; more < 3; more++) {
			rpmb_close(&host);
			open_board();
			check_most(guest, board[guest].most - 1 + more);
		}
}

static void check_faults(uint16_t guest)
{
	static unsigned char bytes[RPMB_LARGEST_PART];
	struct rpmb_next next;

	put(guest, DRIVER + 2, get16(guest, DRIVER + 2) + board[guest].queue + 1, 2); /* more than it has places (2.7.13) */
	check_number(serve(guest).fault, RPMB_STOPPED, "`fault` of a driver that broke its queue's rules");
	rpmb_serve(&host, guest, 0, bytes, sizeof bytes - 1, &next);
	check_number(next.fault, RPMB_OUT_OF_RANGE, "`fault` without room");
	check_number(next.what, RPMB_REST, "`what`, without room");
	rpmb_serve(&host, 2, 0, bytes, sizeof bytes, &next);
	check_number(next.fault, RPMB_NO_GUEST, "`fault` of a guest that there isn't");
	check(next.what == RPMB_REST && next.waiting == 0 && next.sync == 0, "nothing is asked for then");
}

int main(void)
{
	open_board();
	check_guest(0, EVENT_IDX | VERSION_1 | RING_PACKED);
	check_guest(1, INDIRECT_DESC | VERSION_1 | ACCESS_PLATFORM | IN_ORDER);
	printf("each field of a guest is read back\n");
	negotiate(0);
	check_steps(0);
	check_mosts();
	check_faults(1);
	printf("each field of a serve is told\n");
	rpmb_close(&host);
	check(host.at == NULL, "the handle is closed");
	return 0;
}
