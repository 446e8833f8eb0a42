/* What the library takes at the limits that rpmb_host.h names, and how it tells what it refuses. No contract can say
 * that there is memory: here there is, so nothing is refused for the want of it.
 *
 * Each guest here has its RAM at the top of its addresses, and none below. */
#include "guest_ram.h"
#include "kvm/sha256.h"
#include "rpmb_host.h"
#include <stdio.h>
#include <stdlib.h>

enum { GUESTS = 64, RAM = 0x20000, FRAMES = 17 };
/* where a driver puts its queue, its requests and its answers, from the first byte of its RAM on */
enum { DRIVER = 0x1000, DEVICE = 0x2000, TABLE = 0x3000, ANSWERS = 0x7000, REQUESTS = 0x8000 };
enum { EACH_REQUEST = 512 * FRAMES, MOST_STEPS = 1000 };

static const struct rpmb_guest plain = {
	.memory = RAM, .queue = 2, .capacity = 1, .max_wr_cnt = 16, .max_rd_cnt = 16,
};
static const unsigned char key[32] = "a key that this program keeps..";
static struct rpmb_host host;

/* A guest's driver: of a split queue, or of a packed one. */
struct driver {
	uint16_t guest, places, offered;
	int packed;
	struct guest_region region;
	unsigned char *ram;
	struct rpmb_next next;     /* what its serve asked for last */
	uint32_t done;
	unsigned char bytes[RPMB_LARGEST_PART];
};
static struct driver drivers[GUESTS];
static size_t largest;         /* write of the outbox */

static void check(int holds, const char *what)
{
	if (!holds) {
		printf("failed: %s\n", what);
		exit(1);
	}
}

static void check_fault(uint32_t fault, uint32_t wanted, const char *what)
{
	if (fault != wanted) {
		printf("failed: %s: %s in place of %s\n", what, rpmb_fault_text(fault), rpmb_fault_text(wanted));
		exit(1);
	}
}

static void *room_for(size_t bytes)
{
	void *room = calloc(1, bytes);

	check(room != NULL, "memory");
	return room;
}

/* A fresh image of these guests. */
static unsigned char *fresh(const struct rpmb_guest *guests, size_t count, size_t *length)
{
	unsigned char *image;

	*length = rpmb_image_length(guests, count);
	check(*length != 0, "the image's length");
	image = room_for(*length);
	check_fault(rpmb_format(guests, count, image, *length), RPMB_OK, "rpmb_format");
	return image;
}

/* Opens a board, whose guests have their RAM. */
static void open_fresh(const struct rpmb_guest *guests, size_t count)
{
	size_t length;
	unsigned char *image = fresh(guests, count, &length);

	check_fault(rpmb_open(guests, count, image, length, &host), RPMB_OK, "rpmb_open");
	free(image);
	for (uint16_t i = 0; i < count; i++) {
		drivers[i] = (struct driver){ .guest = i, .ram = room_for(RAM) };
		drivers[i].region = (struct guest_region){ guests[i].memory - RAM, RAM, drivers[i].ram };
	}
}

static void close_board(size_t count)
{
	rpmb_close(&host);
	check(host.at == NULL, "the handle is closed");
	for (size_t i = 0; i < count; i++)
		free(drivers[i].ram);
}

/* The guests' half. */

static void put(struct driver *d, uint64_t at, uint64_t number, int bytes)
{
	for (; bytes > 0; bytes--, number >>= 8)
		d->ram[at++] = (unsigned char)number;
}

static void set_area(struct driver *d, uint32_t offset, uint64_t at)
{
	at += d->region.at;
	rpmb_write(&host, d->guest, offset, 4, (uint32_t)at);
	rpmb_write(&host, d->guest, offset + 4, 4, (uint32_t)(at >> 32));
}

static void serve(struct driver *d);

/* Brings a device into service (3.1.1), with VERSION_1, INDIRECT_DESC, RING_PACKED where it is a packed queue, and
 * EVENT_IDX where that is wanted. It is served behind each register, where that is. */
static void negotiate_with(struct driver *d, uint16_t places, int packed, uint32_t event_idx, int is_served)
{
	const uint64_t at = d->region.at;
	const uint32_t writes_of[][2] = {
		{ 0x070, 0 }, { 0x070, 1 }, { 0x070, 3 }, { 0x024, 0 }, { 0x020, 1u << 28 | event_idx << 29 },
		{ 0x024, 1 }, { 0x020, packed ? 5 : 1 }, { 0x070, 11 }, { 0x030, 0 }, { 0x038, places },
		{ 0x080, (uint32_t)at }, { 0x084, (uint32_t)(at >> 32) },
		{ 0x090, (uint32_t)(at + DRIVER) }, { 0x094, (uint32_t)((at + DRIVER) >> 32) },
		{ 0x0a0, (uint32_t)(at + DEVICE) }, { 0x0a4, (uint32_t)((at + DEVICE) >> 32) }, { 0x044, 1 },
	};

	memset(d->ram, 0, RAM);
	d->places = places, d->packed = packed, d->offered = 0, d->next.what = RPMB_REST;
	for (size_t i = 0; i < sizeof writes_of / sizeof writes_of[0]; i++) {
		rpmb_write(&host, d->guest, writes_of[i][0], 4, writes_of[i][1]);
		if (is_served)
			serve(d);
	}
	check(rpmb_read(&host, d->guest, 0x044, 4) == 1, "the queue is ready");
	rpmb_write(&host, d->guest, 0x070, 4, 15);
	check(rpmb_read(&host, d->guest, 0x070, 4) == 15, "the device is in service");
}

static void negotiate(struct driver *d, uint16_t places, int packed)
{
	negotiate_with(d, places, packed, 0, 0);
}

/* Writes one descriptor of a chain of two (2.7.5, 2.8.13). */
static void describe(struct driver *d, unsigned place, uint64_t at, uint32_t len, unsigned flags, unsigned next)
{
	put(d, 16 * place, d->region.at + at, 8), put(d, 16 * place + 8, len, 4);
	put(d, 16 * place + 12, d->packed ? 0 : flags, 2);
	put(d, 16 * place + 14, d->packed ? flags + 128 : next, 2);   /* VIRTQ_DESC_F_AVAIL: the ring's first round */
}

/* Offers a chain of the request of this number, which has so many frames, and of one frame for its answer. */
static void offer(struct driver *d, unsigned number, uint32_t frames)
{
	unsigned place = 2 * number % d->places;

	describe(d, place + 1, ANSWERS + 512 * number, 512, 2, 0);    /* VIRTQ_DESC_F_WRITE */
	describe(d, place, REQUESTS + EACH_REQUEST * number, 512 * frames, 1, place + 1); /* VIRTQ_DESC_F_NEXT */
	if (!d->packed) {
		put(d, DRIVER + 4 + 2 * (d->offered % d->places), place, 2);
		put(d, DRIVER + 2, ++d->offered, 2);
	}
}

static unsigned char *request(struct driver *d, unsigned number, unsigned type)
{
	unsigned char *it = d->ram + REQUESTS + EACH_REQUEST * number;

	memset(it, 0, EACH_REQUEST);
	it[507] = 1, it[511] = (unsigned char)type;
	return it;
}

static void offer_counter(struct driver *d)
{
	request(d, 0, 2);                                             /* VIRTIO_RPMB_REQ_GET_WRITE_COUNTER */
	offer(d, 0, 1);
}

static void offer_key(struct driver *d)
{
	unsigned char *it = request(d, 0, 1);                         /* PROGRAM_KEY */

	memcpy(it + 196, key, 32);
	it[1023] = 5;                                                 /* RESULT_READ */
	offer(d, 0, 2);
}

/* The largest write: 16 blocks under this counter. */
static void offer_write(struct driver *d, unsigned number, unsigned counter)
{
	unsigned char *it = request(d, number, 3), *last = it + 512 * 15;

	for (unsigned char *frame = it; frame <= last; frame += 512) {
		memset(frame + 228, (int)(counter + 1), 256);
		frame[503] = (unsigned char)counter, frame[505] = (unsigned char)(16 * number);
		frame[507] = 16, frame[511] = 3;
	}
	hmac256(key, it + 228, 284, 16, last + 196);
	last[1023] = 5;
	offer(d, number, FRAMES);
}

/* The answer to this chain has this type, and this result. */
static void check_answer(const struct driver *d, unsigned number, unsigned type, unsigned result, const char *what)
{
	const unsigned char *end = d->ram + ANSWERS + 512 * number + 508;

	check(end[0] == 0 && end[1] == result && end[2] == type && end[3] == 0, what);
}

/* The monitor's half. */

static void take_outbox(void)
{
	static unsigned char bytes[RPMB_LARGEST_WRITE];
	uint64_t at;
	size_t len;

	while ((len = rpmb_outbox(&host, &at, bytes, sizeof bytes)) != 0)
		if (len > largest)
			largest = len;
}

static void call(struct driver *d)
{
	rpmb_serve(&host, d->guest, d->done, d->bytes, sizeof d->bytes, &d->next);
	take_outbox();
}

/* Copies what was asked for; where `is_there` is 0 the guest has no RAM there. Whether anything was. */
static int copy(struct driver *d, uint32_t is_there)
{
	const struct guest_ram ram = { &d->region, 1 };

	d->done = is_there;
	if (is_there && d->next.what == RPMB_READ)
		d->done = guest_copy_in(&ram, d->next.at, d->bytes, d->next.len);
	if (is_there && d->next.what == RPMB_WRITE)
		d->done = guest_copy_out(&ram, d->next.at, d->bytes, d->next.len);
	return d->next.what == RPMB_READ || d->next.what == RPMB_WRITE;
}

/* Goes on to the next rest. */
static void serve(struct driver *d)
{
	int steps = 0;

	do {
		copy(d, 1);
		call(d);
		check(++steps < MOST_STEPS, "a serve comes to its rest");
	} while (d->next.what != RPMB_REST);
}

/* Goes on until no sync is awaited. */
static void settle(struct driver *d)
{
	for (serve(d); d->next.sync; serve(d))
		check_fault(rpmb_completed(&host, 1), RPMB_OK, "rpmb_completed");
	check_fault(d->next.fault, RPMB_OK, "a serve");
	check(!d->next.waiting, "all is answered");
}

static void check_counter(struct driver *d, uint16_t places, int packed, unsigned result)
{
	negotiate(d, places, packed);
	offer_counter(d);
	settle(d);
	check_answer(d, 0, 2, result, "the counter's answer");
}

/* 1. The most guests, and one more. The last of them makes the largest writes. */

static void check_no_guest(uint16_t guest)
{
	struct driver d = { .guest = guest };

	check(rpmb_read(&host, guest, 0x000, 4) == 0, "a read of a guest that there isn't");
	check(rpmb_write(&host, guest, 0x070, 4, 0) == RPMB_NOTHING, "a write of a guest that there isn't");
	check(rpmb_interrupt(&host, guest) == 0, "the line of a guest that there isn't");
	check(rpmb_waiting(&host, guest) == 0, "nothing waits of a guest that there isn't");
	memset(&d.next, 0xff, sizeof d.next);
	call(&d);
	check_fault(d.next.fault, RPMB_NO_GUEST, "a serve of a guest that there isn't");
	check(d.next.what == RPMB_REST && !d.next.len && !d.next.waiting, "which asks for nothing");
}

static void check_no_board(const struct rpmb_guest *guests, size_t count)
{
	size_t length;
	unsigned char *image = fresh(guests, GUESTS, &length);

	check(rpmb_image_length(guests, count) == 0, "no board, no length");
	check_fault(rpmb_format(guests, count, image, length), RPMB_BAD_BOARD, "a format of no board");
	check_fault(rpmb_open(guests, count, image, length, &host), RPMB_BAD_BOARD, "an opening of no board");
	check(host.at == NULL, "the handle stays empty");
	free(image);
}

static void check_guests(void)
{
	static struct rpmb_guest guests[GUESTS + 1];
	struct driver *last = &drivers[GUESTS - 1];

	for (int i = 0; i <= GUESTS; i++)
		guests[i] = plain, guests[i].memory = ((uint64_t)i << 32) + RAM, guests[i].queue = 0;
	open_fresh(guests, GUESTS);
	for (uint16_t i = 0; i < GUESTS; i++)
		check_counter(&drivers[i], i % 2 ? 256 : 2, i % 3 == 0, 7);   /* VIRTIO_RPMB_RES_NO_AUTH_KEY */
	negotiate(last, 256, 0);
	offer_key(last);
	settle(last);
	check_answer(last, 0, 1, 0, "the key's answer");
	for (unsigned i = 0; i < 8; i++)
		offer_write(last, i, i);
	settle(last);
	for (unsigned i = 0; i < 8; i++)
		check_answer(last, i, 3, 0, "a write of 16 blocks");
	check(largest == RPMB_LARGEST_WRITE, "the largest write");
	check_no_guest(GUESTS), check_no_guest(65535);
	close_board(GUESTS);
	check_no_board(guests, GUESTS + 1), check_no_board(guests, 0);
	printf("a board of 64 guests\n");
}

/* 2. The most memory, and rings at its top; the longest queue and the largest table. */

/* A table of 1,024 descriptors, of which the chain has the first and the last. */
static void offer_table(struct driver *d)
{
	const uint64_t ends[2] = { TABLE, TABLE + 16 * 1023 };

	request(d, 0, 2);
	describe(d, 0, TABLE, 16 * 1024, 4, 0);                       /* VIRTQ_DESC_F_INDIRECT */
	put(d, ends[0], d->region.at + REQUESTS, 8), put(d, ends[0] + 8, 512, 4);
	put(d, ends[0] + 12, 1, 2), put(d, ends[0] + 14, 1023, 2);
	put(d, ends[1], d->region.at + ANSWERS, 8), put(d, ends[1] + 8, 512, 4);
	put(d, ends[1] + 12, 2, 2), put(d, ends[1] + 14, 0, 2);
	put(d, DRIVER + 4, 0, 2), put(d, DRIVER + 2, 1, 2);
}

static void check_memory(void)
{
	struct rpmb_guest guest = plain;

	guest.memory = 1ull << 63, guest.queue = 256, guest.capacity = 128, guest.most = 65535;
	open_fresh(&guest, 1);
	check_counter(&drivers[0], 256, 0, 7);
	check_counter(&drivers[0], 255, 1, 7);
	negotiate(&drivers[0], 256, 0);
	offer_table(&drivers[0]);
	settle(&drivers[0]);
	check_answer(&drivers[0], 0, 2, 7, "the counter's answer by a table");
	rpmb_write(&host, 0, 0x070, 4, 0), rpmb_write(&host, 0, 0x070, 4, 3);
	rpmb_write(&host, 0, 0x024, 4, 1), rpmb_write(&host, 0, 0x020, 4, 1), rpmb_write(&host, 0, 0x070, 4, 11);
	rpmb_write(&host, 0, 0x038, 4, 2), set_area(&drivers[0], 0x080, RAM - 16);
	set_area(&drivers[0], 0x090, DRIVER), set_area(&drivers[0], 0x0a0, DEVICE), rpmb_write(&host, 0, 0x044, 4, 1);
	check(rpmb_read(&host, 0, 0x044, 4) == 0, "a queue that passes the end of memory isn't ready");
	close_board(1);
	guest = plain, guest.queue = 257;
	check(rpmb_image_length(&guest, 1) == 0, "a queue of 257 places");
	guest.queue = 1;
	check(rpmb_image_length(&guest, 1) == 0, "a queue of one place");
	printf("a memory of 2^63 bytes\n");
}

/* 3. What happens between two calls of a serve. */

/* A serve whose `at`-th copy finds no RAM, and where `stays` says so each behind it: this device alone stops, is asked for
 * no more, and a reset heals it. Whether there was one. */
static int check_absent(struct driver *d, struct driver *other, int packed, int at, int stays)
{
	int copies = 0, was_there = 0;

	negotiate(other, 4, !packed);
	negotiate(d, 4, packed);
	offer_key(d);
	for (d->done = 0, call(d); d->next.what != RPMB_REST || d->next.sync; call(d)) {
		was_there |= copies == at && (d->next.what == RPMB_READ || d->next.what == RPMB_WRITE);
		copies += copy(d, stays ? copies < at : copies != at);
		check(copies < 1000, "a serve comes to an end");
		if (d->next.what == RPMB_REST)
			check_fault(rpmb_completed(&host, 1), RPMB_OK, "rpmb_completed");
	}
	check_fault(d->next.fault, was_there ? RPMB_STOPPED : RPMB_OK, "a serve of a guest without RAM there");
	check(rpmb_read(&host, d->guest, 0x070, 4) == (was_there ? 15 | 64 : 15), "Status has DEVICE_NEEDS_RESET");
	offer_counter(other);
	settle(other);
	check_answer(other, 0, 2, 7, "the other guest's counter");
	negotiate(d, 4, packed);
	offer_counter(d);
	settle(d);
	return was_there;
}

/* A reset behind so many calls of a serve, or a queue that is taken away: nothing more is asked for. Whether something
 * was. */
static int check_reset(struct driver *d, uint32_t offset, int packed, int at)
{
	int was_there;

	negotiate(d, 4, packed);
	offer_counter(d);
	for (call(d); at > 0 && d->next.what != RPMB_REST; at--)
		copy(d, 1), call(d);
	was_there = d->next.what != RPMB_REST;
	copy(d, 0);            /* an answer that counts for nothing then */
	rpmb_write(&host, d->guest, offset, 4, 0);
	call(d);
	check(d->next.what == RPMB_REST, "nothing is asked for after a reset");
	check_fault(d->next.fault, RPMB_OK, "a serve after a reset");
	check(!rpmb_waiting(&host, d->guest), "nothing waits after a reset");
	negotiate(d, 4, packed);
	offer_counter(d);
	settle(d);
	check_answer(d, 0, 2, 0, "the counter's answer behind a reset");
	return was_there;
}

/* A call with too little room, before each step: it changes nothing. */
static void check_room(struct driver *d, int packed)
{
	struct rpmb_next refused, asked;
	unsigned char before[64];

	negotiate(d, 4, packed);
	offer_counter(d);
	for (call(d); d->next.what != RPMB_REST; call(d)) {
		copy(d, 1);
		memcpy(before, d->bytes, sizeof before);
		asked = d->next;
		rpmb_serve(&host, d->guest, d->done, d->bytes, RPMB_LARGEST_PART - 1, &refused);
		check_fault(refused.fault, RPMB_OUT_OF_RANGE, "a serve without room");
		check(refused.what == RPMB_REST && refused.len == 0, "which asks for nothing");
		check(!memcmp(before, d->bytes, sizeof before), "and leaves the bytes");
		d->next = asked;
	}
	check_fault(d->next.fault, RPMB_OK, "the serve goes on");
	check(d->ram[ANSWERS + 510] == 2, "and answers");
}

static void check_between(void)
{
	struct rpmb_guest guests[2] = { plain, plain };
	int copies;

	guests[0].memory = 1ull << 33, guests[0].queue = 4, guests[1] = guests[0];
	for (int packed = 0; packed < 2; packed++) {
		for (copies = 0;; copies++) {
			open_fresh(guests, 2);
			if (!check_absent(&drivers[0], &drivers[1], packed, copies, 1))
				break;
			close_board(2);
			open_fresh(guests, 2);
			check_absent(&drivers[0], &drivers[1], packed, copies, 0);
			close_board(2);
		}
		check(copies >= 7, "each copy of a key's serve is refused");
		for (uint32_t offset = 0x044; offset <= 0x070; offset += 0x02c) {   /* QueueReady, Status */
			for (copies = 0; check_reset(&drivers[0], offset, packed, copies);)
				copies++;
			check(copies >= 7, "a reset comes behind each call of a serve");
		}
		check_room(&drivers[0], packed);
		for (uint32_t event_idx = 0; event_idx < 2; event_idx++) {
			negotiate_with(&drivers[0], 4, packed, event_idx, 1);
			offer_counter(&drivers[0]);
			settle(&drivers[0]);
			check_answer(&drivers[0], 0, 2, 0, "the counter's answer behind serves before it was in service");
		}
		close_board(2);
	}
	printf("no RAM, resets and no room between two calls, and serves before there is a queue\n");
}

/* 4. Which image it is: one of another board is never told as none, which a monitor would format. */

static void check_images(void)
{
	struct rpmb_guest guests[2] = { plain, plain }, others[2];
	size_t length;
	unsigned char *image;

	guests[1].capacity = 2;
	others[0] = guests[1], others[1] = guests[0];
	image = fresh(guests, 2, &length);
	check(rpmb_image_length(others, 2) == length, "both images are as long");
	check_fault(rpmb_open(others, 2, image, length, &host), RPMB_OTHER_CONFIG, "another board's image");
	check_fault(rpmb_open(guests, 2, image, length - 1, &host), RPMB_BAD_LENGTH, "an image that is too short");
	check_fault(rpmb_open(guests, 1, image, length, &host), RPMB_BAD_LENGTH, "an image that is too long");
	check_fault(rpmb_format(guests, 2, image, length - 1), RPMB_BAD_LENGTH, "a format that is too short");
	image[0] ^= 1;
	check_fault(rpmb_open(guests, 2, image, length, &host), RPMB_NOT_FORMATTED, "an image of another magic");
	check_fault(rpmb_open(others, 2, image, length, &host), RPMB_NOT_FORMATTED, "and of another board");
	memset(image, 0, length);
	check_fault(rpmb_open(guests, 2, image, length, &host), RPMB_NOT_FORMATTED, "zeros");
	check(host.at == NULL, "the handle stays empty");
	free(image);
	printf("another board's image, and none\n");
}

/* 5. Regions that follow one another: a copy goes over their border, and none past their end. */

static void check_regions(void)
{
	unsigned char low[16], high[16], bytes[16] = "over the border";
	const struct guest_region regions[] = { { 0, sizeof low, low }, { sizeof low, sizeof high, high } };
	const struct guest_ram both = { regions, 2 };

	check(guest_copy_out(&both, 8, bytes, 16) && !memcmp(low + 8, "over the", 8) && !memcmp(high, " border", 8), "out");
	memset(bytes, 0, sizeof bytes);
	check(guest_copy_in(&both, 8, bytes, 16) && !memcmp(bytes, "over the border", 16), "in");
	check(!guest_copy_in(&both, 24, bytes, 16) && !guest_copy_out(&both, 24, bytes, 16), "past the end");
	printf("copies over the border of two regions\n");
}

/* 6. A device goes on behind another opening: as it was saved, or at the place where its queue stood. */

static void open_anew(const struct rpmb_guest *guests, size_t count)
{
	size_t length;
	unsigned char *image = fresh(guests, count, &length);

	rpmb_close(&host);
	check_fault(rpmb_open(guests, count, image, length, &host), RPMB_OK, "another opening");
	free(image);
}

static void check_next(struct driver *d, uint32_t place)
{
	request(d, 1, 2);
	offer(d, 1, 1);
	settle(d);
	check_answer(d, 1, 2, 7, "the answer to the next chain");
	check(rpmb_place(&host, d->guest) == place, "the place behind it");
}

static void check_state(const struct driver *d, const uint32_t *state)
{
	uint32_t other[RPMB_STATE_WORDS];

	check_fault(rpmb_load(&host, 0, state, RPMB_STATE_WORDS), RPMB_OTHER_CONFIG, "another guest's state");
	check_fault(rpmb_load(&host, 2, state, RPMB_STATE_WORDS), RPMB_NO_GUEST, "a state of a guest that there isn't");
	check_fault(rpmb_load(&host, 1, state, RPMB_STATE_WORDS - 1), RPMB_BAD_STATE, "a state that is cut short");
	check(rpmb_place(&host, 1) == RPMB_NO_PLACE && !rpmb_move(&host, 1, 0), "no queue yet");
	check_fault(rpmb_load(&host, 1, state, RPMB_STATE_WORDS), RPMB_OK, "rpmb_load");
	check_fault(rpmb_save(&host, 1, other, RPMB_STATE_WORDS), RPMB_OK, "rpmb_save");
	check(!memcmp(state, other, sizeof other), "the same state");
	check(rpmb_interrupt(&host, 1) == 1 && rpmb_read(&host, d->guest, 0x070, 4) == 15, "its line, its Status");
}

static void check_going_on(int packed)
{
	/* VERSION_1, RING_PACKED; a chain takes two places of a packed ring, of which four make a lap */
	const uint64_t features = 1ull << 32 | (uint64_t)packed << 34;
	const uint32_t first = packed ? 0x8002 : 1, second = packed ? 0 : 2;
	const struct rpmb_guest guests[2] = { plain, plain };
	struct driver *d = &drivers[1];
	const struct rpmb_queue queue = { .driver = DRIVER, .device = DEVICE, .size = 4 };
	uint32_t state[RPMB_STATE_WORDS];

	open_fresh(guests, 2);
	check_counter(d, 4, packed, 7);
	check(rpmb_place(&host, 1) == first, "the place behind the first chain");
	check_fault(rpmb_save(&host, 1, state, 1), RPMB_OUT_OF_RANGE, "too little room for a state");
	check_fault(rpmb_save(&host, 2, state, RPMB_STATE_WORDS), RPMB_NO_GUEST, "a guest that there isn't");
	check_fault(rpmb_save(&host, 1, state, RPMB_STATE_WORDS), RPMB_OK, "rpmb_save");
	open_anew(guests, 2);
	check_state(d, state);
	check_next(d, second);
	check_counter(d, 4, packed, 7);
	open_anew(guests, 2);
	check(rpmb_start(&host, 1, features, &queue) == 1, "rpmb_start");
	check(!packed || !rpmb_move(&host, 1, 4), "a place behind the last one");
	check(rpmb_interrupt(&host, 1) == 0, "a device in service, and nothing to tell");
	check(rpmb_move(&host, 1, (uint16_t)first) == 1, "rpmb_move");
	check(rpmb_interrupt(&host, 1) == 1, "its driver looks at what was used before");
	check_next(d, second);
	negotiate(d, 4, packed);
	offer_key(d);
	serve(d);
	check(d->next.waiting, "the key waits for a sync");
	check_fault(rpmb_save(&host, 1, state, RPMB_STATE_WORDS), RPMB_NOT_AT_REST, "a guest that waits");
	check(rpmb_place(&host, 1) == RPMB_NO_PLACE && !rpmb_move(&host, 1, 0), "it has no place");
	settle(d);
	check_fault(rpmb_save(&host, 1, state, RPMB_STATE_WORDS), RPMB_OK, "behind its answer");
	close_board(2);
}

int main(void)
{
	check_guests();
	check_memory();
	check_between();
	check_images();
	check_regions();
	check_going_on(0);
	check_going_on(1);
	printf("devices that go on, on both rings\n");
	return 0;
}
