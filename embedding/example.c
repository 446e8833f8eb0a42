/* A monitor and its guest in small: how the calls of rpmb_host.h fit together.
 *
 *     example           the image is in memory
 *     example FILE      it is in this file, which is made anew
 *
 * The guest's half plays a driver by hand: it brings the device into service by its registers (VIRTIO 1.2, 3.1.1 and
 * 4.2.3), and offers chains of a request and an answer in a split queue of 2 places (2.7). Its queue stands in low
 * memory, its frames above 4 GiB. It breaks its queue too, and the disk is full for a while: the monitor goes on. */
#include "guest_ram.h"
#include "rpmb_host.h"
#include <fcntl.h>
#include <stdio.h>
#include <stdlib.h>
#include <unistd.h>

enum { PLACES = 2, LOW = 65536, HIGH = 65536 };
/* where the guest puts its queue and its two frames; between both pieces of its RAM there is none */
enum { DESCRIPTORS = 0x1000, DRIVER = 0x2000, DEVICE = 0x3000 };
static const uint64_t HIGH_AT = 0x140000000, REQUEST = 0x140001000, ANSWER = 0x140002000, NOWHERE = 0x100000;

static _Alignas(8) unsigned char low[LOW], high[HIGH];
static const struct guest_ram ram = {
	(const struct guest_region[]){ { 0, LOW, low }, { 0x140000000, HIGH, high } }, 2
};
static const struct rpmb_guest board[] = {
	{ .memory = 0x140000000 + HIGH, .queue = PLACES, .capacity = 1, .max_wr_cnt = 16, .max_rd_cnt = 16 },
};
static struct rpmb_host host;
static unsigned char *image;      /* the image's bytes */
static size_t length;
static int file = -1;             /* its file; -1: it is in memory alone */
static int writes, syncs;         /* made since the last request */
static int stops, is_full;        /* the monitor stops before the next sync; the disk takes no more */
static uint32_t fault;            /* that the last serve told */
static int line;                  /* the guest's interrupt line */

static void check(int holds, const char *what)
{
	if (!holds) {
		printf("failed: %s\n", what);
		exit(1);
	}
}

static void check_fault(uint32_t fault)
{
	check(fault == RPMB_OK, rpmb_fault_text(fault));
}

/* The monitor's half. */

/* Whether the write is made. A monitor that stops before its next sync may have made none: here it makes none. */
static int keep(uint64_t at, const unsigned char *bytes, size_t len)
{
	if (stops)
		return 1;
	if (is_full)
		return 0;
	if (file >= 0)
		return pwrite(file, bytes, len, (off_t)at) == (ssize_t)len;
	memcpy(image + at, bytes, len);
	return 1;
}

static void open_board(void)
{
	if (file >= 0)
		check(fsync(file) == 0 && pread(file, image, length, 0) == (ssize_t)length, "the image is read");
	check_fault(rpmb_open(board, 1, image, length, &host));
}

/* Makes all writes that wait. Whether each was made. */
static int empty_outbox(void)
{
	static unsigned char bytes[RPMB_LARGEST_WRITE];
	uint64_t at;
	size_t len;
	int all = 1;

	for (; (len = rpmb_outbox(&host, &at, bytes, sizeof bytes)) != 0; writes++)
		all = keep(at, bytes, len) && all;
	return all;
}

/* The line of virtio-mmio. A monitor with notifications of another kind sends one at each RPMB_CALL instead. */
static void set_line(void)
{
	line = rpmb_interrupt(&host, 0) != 0;
}

/* Does what a serve of the guest asks for, until it rests: the loop that a monitor copies. A fault ends nothing: the
 * guest goes on. Behind RPMB_NO_MEMORY a timer serves it again, which isn't shown here: its driver kicks no more for what
 * it offered. Whether a sync is awaited. */
static int serve(int *all)
{
	static unsigned char bytes[RPMB_LARGEST_PART];
	struct rpmb_next next;
	uint32_t done = 0;

	do {
		rpmb_serve(&host, 0, done, bytes, sizeof bytes, &next);
		*all = empty_outbox() && *all;
		if (next.what == RPMB_READ)
			done = guest_copy_in(&ram, next.at, bytes, next.len);
		else if (next.what == RPMB_WRITE)
			done = guest_copy_out(&ram, next.at, bytes, next.len);
		else
			set_line();
	} while (next.what != RPMB_REST);
	fault = next.fault;
	return next.sync;
}

static void on_notify(void)
{
	int all = 1;

	while (serve(&all) && !stops) {
		all = all && (file < 0 || fsync(file) == 0);
		check_fault(rpmb_completed(&host, all ? 1 : 0));
		syncs += all;
	}
}

/* An exit of the guest's processor at a register: by 4 bytes. */
static uint32_t get_register(uint32_t offset)
{
	return rpmb_read(&host, 0, offset, 4);
}

static void set_register(uint32_t offset, uint32_t value)
{
	uint32_t kick = rpmb_write(&host, 0, offset, 4, value);

	set_line();
	if (kick == RPMB_NOTIFY)
		on_notify();
}

/* The guest's half. */

static unsigned char *its(uint64_t at)
{
	return at < LOW ? low + at : high + (at - HIGH_AT);
}

static void put(uint64_t at, uint64_t number, int bytes)
{
	for (; bytes > 0; bytes--, number >>= 8)
		*its(at++) = (unsigned char)number;
}

static unsigned get16(uint64_t at)
{
	return its(at)[0] + 256u * its(at)[1];
}

/* the same in big endian, as frames have it (5.12.6) */
static unsigned get_be16(uint64_t at)
{
	return 256u * its(at)[0] + its(at)[1];
}

static void negotiate(void)
{
	static const uint32_t writes_of[][2] = {
		{ 0x070, 0 },           /* Status: reset, */
		{ 0x070, 1 }, { 0x070, 3 }, /* ACKNOWLEDGE, DRIVER */
		{ 0x024, 1 }, { 0x020, 1 }, /* DriverFeatures: VIRTIO_F_VERSION_1 (32) alone */
		{ 0x070, 11 },          /* FEATURES_OK */
		{ 0x030, 0 }, { 0x038, PLACES }, /* QueueSel, QueueNum */
		{ 0x080, DESCRIPTORS }, { 0x090, DRIVER }, { 0x0a0, DEVICE },
		{ 0x044, 1 },           /* QueueReady */
		{ 0x070, 15 },          /* DRIVER_OK */
	};

	check(get_register(0x000) == 0x74726976, "MagicValue");
	check(get_register(0x008) == 28, "DeviceID");
	memset(low, 0, LOW);
	for (size_t i = 0; i < sizeof writes_of / sizeof writes_of[0]; i++)
		set_register(writes_of[i][0], writes_of[i][1]);
	check(get_register(0x070) == 15 && get_register(0x044) == 1, "the device is in service");
}

/* Offers a chain of these frames and of one for the answer, at this address. Whether the answer came. */
static int offer(uint32_t frames, uint64_t answer)
{
	unsigned next = get16(DRIVER + 2), used = get16(DEVICE + 2);

	put(DESCRIPTORS, REQUEST, 8), put(DESCRIPTORS + 8, 512 * frames, 4);
	put(DESCRIPTORS + 12, 1, 2), put(DESCRIPTORS + 14, 1, 2);     /* VIRTQ_DESC_F_NEXT: place 1 */
	put(DESCRIPTORS + 16, answer, 8), put(DESCRIPTORS + 24, 512, 4);
	put(DESCRIPTORS + 28, 2, 2), put(DESCRIPTORS + 30, 0, 2);     /* VIRTQ_DESC_F_WRITE */
	put(DRIVER + 4 + 2 * (next % PLACES), 0, 2), put(DRIVER + 2, next + 1, 2);
	writes = syncs = 0;
	set_register(0x050, 0);                                       /* QueueNotify */
	if (get16(DEVICE + 2) == used)
		return 0;
	check(line, "the interrupt line is high");
	set_register(0x064, 1);                                       /* InterruptACK */
	check(!line, "the interrupt line is low");
	return 1;
}

static void show(const char *what)
{
	printf("%s: response 0x%04x, result %u, after %d writes and %d syncs\n", what, get_be16(ANSWER + 510),
	       get_be16(ANSWER + 508), writes, syncs);
}

static void make_counter_request(void)
{
	memset(its(REQUEST), 0, 512);
	memset(its(REQUEST + 484), 0xa5, 16);                         /* nonce */
	*its(REQUEST + 507) = 1;                                      /* block_count */
	*its(REQUEST + 511) = 2;                                      /* VIRTIO_RPMB_REQ_GET_WRITE_COUNTER */
}

static void ask_counter(unsigned result)
{
	make_counter_request();
	check(offer(1, ANSWER), "the counter's answer comes");
	show("counter asked for");
	check(get_be16(ANSWER + 510) == 0x0200 && get_be16(ANSWER + 508) == result, "the counter's answer");
	check(memcmp(its(ANSWER + 484), its(REQUEST + 484), 16) == 0, "the answer has the request's nonce");
}

static void see_stopped(const char *how)
{
	check(fault == RPMB_STOPPED, "the device waits for a reset");
	check(get_register(0x070) == (15 | 64), "Status has DEVICE_NEEDS_RESET");
	printf("%s: %s\n", how, rpmb_fault_text(fault));
	negotiate();
	ask_counter(7);
}

/* A guest that offers what it never made, or room where it has no RAM: the device stops. The monitor goes on. */
static void break_queue(void)
{
	unsigned next = get16(DRIVER + 2);

	put(DRIVER + 4 + 2 * (next % PLACES), 999, 2), put(DRIVER + 2, next + 1, 2); /* there is no place 999 */
	set_register(0x050, 0);
	see_stopped("the guest broke its queue");
	make_counter_request();
	check(!offer(1, NOWHERE), "no answer comes");
	see_stopped("the guest wants its answer where it has no RAM");
}

static int program_key(void)
{
	memset(its(REQUEST), 0, 1024);
	memset(its(REQUEST + 196), 0x11, 32);                         /* key */
	*its(REQUEST + 507) = 1;
	*its(REQUEST + 511) = 1;                                      /* VIRTIO_RPMB_REQ_PROGRAM_KEY */
	*its(REQUEST + 1023) = 5;                                     /* and VIRTIO_RPMB_REQ_RESULT_READ */
	return offer(2, ANSWER);
}

static void make_image(const char *path)
{
	length = rpmb_image_length(board, 1);
	image = malloc(length);
	check(length != 0 && image != NULL, "memory");
	check_fault(rpmb_format(board, 1, image, length));
	if (path) {
		file = open(path, O_RDWR | O_CREAT | O_TRUNC, 0600);
		check(file >= 0, "open");
		check(keep(0, image, length) && fsync(file) == 0, "the image is kept");
	}
	printf("formatted an image of %zu bytes\n", length);
}

static void stop_before_the_sync(void)
{
	stops = 1;
	check(!program_key(), "no answer before its key is kept");
	check(rpmb_waiting(&host, 0) == 1, "the guest waits");
	printf("key programmed: the monitor stops, with %d write taken and not made\n", writes);
	rpmb_close(&host);
	stops = 0;
}

static void fill_the_disk(void)
{
	is_full = 1;
	check(program_key(), "the failure's answer comes");
	show("the disk is full");
	check(get_be16(ANSWER + 508) != 0, "the key isn't programmed");
	rpmb_close(&host);
	is_full = 0;
}

static void reopen(const char *what)
{
	open_board();
	negotiate();
	printf("%s\n", what);
}

int main(int argc, char **argv)
{
	make_image(argc > 1 ? argv[1] : NULL);
	reopen("opened; the device is in service");
	ask_counter(7);                                               /* VIRTIO_RPMB_RES_NO_AUTH_KEY */
	stop_before_the_sync();

	reopen("opened again");
	ask_counter(7);
	break_queue();
	fill_the_disk();

	reopen("there is room: opened again");
	check(program_key(), "the key's answer comes");
	show("key programmed");
	check(get_be16(ANSWER + 510) == 0x0100 && get_be16(ANSWER + 508) == 0, "the key's answer");
	check(rpmb_completed(&host, 1) == RPMB_NOT_AWAITED, "no sync is awaited now");
	ask_counter(0);
	rpmb_close(&host);

	reopen("opened a third time");
	ask_counter(0);
	rpmb_close(&host);
	check(host.at == NULL, "the handle is closed");
	free(image);
	if (file >= 0)
		close(file);
	return 0;
}
