/* SPDX-License-Identifier: Apache-2.0
 *
 * client DEVICE key|counter|bench N [BLOCKS]|single N|null N|crash LEAST N|loop FILE [anew]: the RPMB client of a
 * guest, by mmc's ioctls: MMC_IOC_MULTI_CMD, or with `single` one MMC_IOC_CMD after another.
 *
 * bench, single: how long the ioctls of a request take, without the client's own MACs; null: the same of counter requests
 * whose answer isn't looked at, for a back end that gives none.
 *
 * crash: checks the counter and the blocks of the last write, and goes on writing three blocks that hold the counter
 * until it is killed or N writes are made. It tells each that it knows of on a line of standard output.
 *
 * loop: programs the key, and asks, writes and reads until FILE is there; with `anew` a write may say COUNT_FAILURE,
 * where the counter says that it was done: a back end that was killed over it takes it anew. */
#include <fcntl.h>
#include <linux/mmc/ioctl.h>
#include <stdbool.h>
#include <stdio.h>
#include <stdlib.h>
#include <string.h>
#include <sys/ioctl.h>
#include <sys/random.h>
#include <time.h>
#include <unistd.h>
#include "../../embedding/kvm/sha256.h"

enum { FRAME = 512, BODY = 228, BODY_BYTES = 284, MOST_BLOCKS = 16, FIRST = 8 };
enum { KEY = 1, COUNTER = 2, DATA_WRITE = 3, DATA_READ = 4, RESULT = 5, COUNT_FAILURE = 3, SAMPLES = 4096 };

static const uint8_t key[32] = "AAAABBBBCCCCDDDDEEEEFFFFGGGGHHHH";
static int device, single, blocks = 3;
static double took, longest; /* by the ioctls of the last request, and the most of any, us */
static bool may_be_anew;
static int anew, requests;

static void stop(const char *what, long value)
{
	printf("error %s %ld\n", what, value);
	fflush(stdout);
	exit(3);
}

static void put(uint8_t *frame, int at, uint32_t value, int bytes)
{
	for (int i = bytes - 1; i >= 0; i--, value >>= 8)
		frame[at + i] = (uint8_t)value;
}

static uint32_t get(const uint8_t *frame, int at, int bytes)
{
	uint32_t value = 0;

	for (int i = 0; i < bytes; i++)
		value = value << 8 | frame[at + i];
	return value;
}

static struct mmc_ioc_cmd command(int opcode, const uint8_t *frames, int count)
{
	struct mmc_ioc_cmd c = { .write_flag = opcode == 25, .opcode = opcode, .blksz = FRAME, .blocks = count };

	mmc_ioc_cmd_set_data(c, frames);
	return c;
}

static double now(void)
{
	struct timespec t;

	clock_gettime(CLOCK_MONOTONIC, &t);
	return t.tv_sec * 1e6 + t.tv_nsec / 1e3;
}

/* A request and its reply in one ioctl, as mmc-utils do it. */
static void exchange(uint8_t *request, int frames, int with_result, uint8_t *reply, int reply_frames)
{
	struct { struct mmc_ioc_multi_cmd head; struct mmc_ioc_cmd cmds[3]; } all = { 0 };
	uint8_t result[FRAME] = { 0 };
	int n = 0;

	put(result, 510, RESULT, 2);
	all.cmds[n++] = command(25, request, frames);
	if (with_result)
		all.cmds[n++] = command(25, result, 1);
	all.cmds[n++] = command(18, reply, reply_frames);
	all.head.num_of_cmds = n;
	took = now();
	for (int i = 0; single && i < n; i++)
		if (ioctl(device, MMC_IOC_CMD, &all.cmds[i]))
			stop("ioctl", i);
	if (!single && ioctl(device, MMC_IOC_MULTI_CMD, &all))
		stop("ioctl", get(request, 510, 2));
	took = now() - took;
	longest = took > longest ? took : longest;
	requests++;
}

/* The result: 0, or that of a write that was made anew. */
static uint32_t check(const uint8_t *reply, int frames, uint32_t type, const uint8_t *nonce)
{
	const uint8_t *last = reply + FRAME * (frames - 1);
	const uint32_t result = get(last, 508, 2);
	uint8_t mac[32];

	if (get(last, 510, 2) != type)
		stop("response", get(last, 510, 2));
	if (result && !(may_be_anew && type == 0x300 && result == COUNT_FAILURE))
		stop("result", result);
	hmac256(key, reply + BODY, BODY_BYTES, frames, mac);
	if (memcmp(mac, last + 196, 32))
		stop("mac", type);
	if (nonce && memcmp(nonce, last + 484, 16))
		stop("nonce", type);
	return result;
}

static uint32_t read_counter(void)
{
	uint8_t request[FRAME] = { 0 }, reply[FRAME];

	if (getrandom(request + 484, 16, 0) != 16)
		stop("getrandom", 0);
	put(request, 506, 1, 2);
	put(request, 510, COUNTER, 2);
	exchange(request, 1, 0, reply, 1);
	check(reply, 1, 0x200, request + 484);
	return get(reply, 500, 4);
}

static void write_blocks(uint32_t counter)
{
	uint8_t request[MOST_BLOCKS * FRAME] = { 0 }, reply[FRAME];

	for (int i = 0; i < blocks; i++) {
		uint8_t *frame = request + i * FRAME;
		memset(frame + 228, (int)(counter + 1 + i), 256);
		put(frame, 228, counter + 1, 4);
		put(frame, 500, counter, 4);
		put(frame, 504, FIRST, 2);
		put(frame, 506, blocks, 2);
		put(frame, 510, DATA_WRITE, 2);
	}
	hmac256(key, request + BODY, BODY_BYTES, blocks, request + FRAME * (blocks - 1) + 196);
	exchange(request, blocks, 1, reply, 1);
	const bool was_done = check(reply, 1, 0x300, NULL);
	const uint32_t is = was_done ? read_counter() : get(reply, 500, 4);
	if (is != counter + 1)
		stop("counter of a write", is);
	anew += was_done;
}

static void read_blocks(uint32_t counter)
{
	uint8_t request[FRAME] = { 0 }, reply[MOST_BLOCKS * FRAME];

	if (getrandom(request + 484, 16, 0) != 16)
		stop("getrandom", 0);
	put(request, 504, FIRST, 2);
	put(request, 506, blocks, 2);
	put(request, 510, DATA_READ, 2);
	exchange(request, 1, 0, reply, blocks);
	check(reply, blocks, 0x400, request + 484);
	for (int i = 0; i < blocks; i++)
		if (get(reply + i * FRAME, 228, 4) != counter)
			stop("block", get(reply + i * FRAME, 228, 4));
}

static void program_key(void)
{
	uint8_t request[FRAME] = { 0 }, reply[FRAME];

	memcpy(request + 196, key, 32);
	put(request, 506, 1, 2);
	put(request, 510, KEY, 2);
	exchange(request, 1, 1, reply, 1);
	check(reply, 1, 0x100, NULL);
}

static int compare(const void *a, const void *b)
{
	double x = *(const double *)a, y = *(const double *)b;

	return x < y ? -1 : x > y;
}

static void tell(const char *what, double *us, int n)
{
	double sum = 0;

	for (int i = 0; i < n; i++)
		sum += us[i];
	qsort(us, n, sizeof *us, compare);
	printf("%s: %d, us: least %.0f, median %.1f, mean %.0f, 99%% %.0f, most %.0f\n", what, n, us[0], us[n / 2],
	       sum / n, us[n * 99 / 100], us[n - 1]);
}

static double us[SAMPLES];

static void null(int n)
{
	uint8_t request[FRAME] = { 0 }, reply[FRAME];

	put(request, 510, COUNTER, 2);
	for (int i = 0; i < n; i++) {
		exchange(request, 1, 0, reply, 1);
		us[i] = took;
	}
	tell("null exchanges", us, n);
}

static void bench(int n)
{
	uint32_t counter = read_counter();

	for (int i = 0; i < n; i++) {
		if (read_counter() != counter)
			stop("counter", counter);
		us[i] = took;
	}
	tell("counter requests", us, n);
	for (int i = 0; i < n; i++) {
		write_blocks(counter++);
		us[i] = took;
	}
	for (int i = 0; i < n; i++)
		printf("%s%.0f", i ? " " : "each write: ", us[i]);
	printf("\nblocks: %d; ", blocks);
	tell("writes", us, n);
	for (int i = 0; i < n; i++) {
		read_blocks(counter);
		us[i] = took;
	}
	tell("reads", us, n);
}

static void crash(uint32_t least, int writes)
{
	uint32_t counter = read_counter();

	printf("counter %u\n", counter);
	if (counter < least)
		stop("gone back", counter);
	if (counter)
		read_blocks(counter);
	for (; writes > 0; writes--) {
		write_blocks(counter++);
		printf("wrote %u\n", counter);
		read_blocks(counter);
	}
	printf("end\n");
}

static void loop(const char *until)
{
	program_key();
	for (uint32_t counter = 0; access(until, F_OK); counter++) {
		if (read_counter() != counter)
			stop("counter", counter);
		blocks = 1 + counter % MOST_BLOCKS;
		write_blocks(counter);
		read_blocks(counter + 1);
		if (!counter)
			printf("begun\n");
	}
	printf("end: %d requests, the longest %.0f ms, %d writes taken anew\n", requests, longest / 1e3, anew);
}

int main(int argc, char **argv)
{
	int n = 0;

	if (argc < 3)
		return 2;
	if (argc > 4 && !strcmp(argv[2], "bench"))
		blocks = atoi(argv[4]);
	if (blocks < 1 || blocks > MOST_BLOCKS)
		return 2;
	setvbuf(stdout, NULL, _IOLBF, 0);
	device = open(argv[1], O_RDWR);
	if (device < 0)
		stop("open", 0);
	if (!strcmp(argv[2], "key"))
		program_key();
	else if (!strcmp(argv[2], "counter"))
		printf("counter %u\n", read_counter());
	else if (!strcmp(argv[2], "loop") && argc > 3) {
		may_be_anew = argc > 4;
		loop(argv[3]);
	} else if (argc > 3 && (n = atoi(argv[3]), n < 1 || n > SAMPLES) && strcmp(argv[2], "crash"))
		stop("N", n);
	else if (!strcmp(argv[2], "null") && argc > 3)
		null(n);
	else if ((single = !strcmp(argv[2], "single"), single || !strcmp(argv[2], "bench")) && argc > 3)
		bench(n);
	else if (!strcmp(argv[2], "crash") && argc > 4)
		crash(strtoul(argv[3], NULL, 10), atoi(argv[4]));
	else
		return 2;
	return 0;
}
