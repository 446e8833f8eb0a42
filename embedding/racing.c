/* Guests whose processors run while they are served: a thread each, and one for the monitor.
 *
 *     racing [REQUESTS [SEED]]
 *
 * Two guests are honest. They keep their queues full, sleep until an interrupt, and notify only where their device
 * wants it: a kick or an interrupt that is lost leaves one asleep, and each answer is looked at. Now and then they reset
 * their devices under way, and take their memory back. Two others change what they like at any moment: descriptors,
 * indexes, tables, buffers, registers. They harm nobody but themselves: the honest guests' answers stay right, no byte
 * is written that RPMB_WRITE didn't tell, and a reset heals their devices. */
#include "guest_ram.h"
#include "kvm/sha256.h"
#include "rpmb_host.h"
#include <pthread.h>
#include <stdio.h>
#include <stdlib.h>
#include <time.h>

enum { HONEST = 2, GUESTS = 4, PLACES = 16, SLOTS = PLACES / 2, LOW = 0x10000, HIGH = 0x10000, SECONDS = 20 };
/* a guest's low memory: its queue, a table, requests and answers; high memory has the frames of every second slot */
enum { DESCRIPTORS = 0, DRIVER = 0x1000, DEVICE = 0x2000, TABLE = 0x3000, REQUESTS = 0x4000, ANSWERS = 0x8000 };
enum { UNTOUCHED = 0xc000, TURN = 64 };
#define HIGH_AT 0x180000000ull

struct guest {
	uint16_t number;
	int has_event_idx, is_packed;
	uint32_t random;
	_Alignas(8) unsigned char low[LOW], high[HIGH];
	struct guest_region regions[2];
	struct guest_ram ram;
	/* the driver's */
	uint16_t offered, reaped, writes;
	uint32_t asked, answered, sleeps, begun;
	int is_fresh;              /* it doesn't know how many of its writes were accepted */
	int busy[SLOTS], type_of[SLOTS];
	uint16_t counter_of[SLOTS];
	/* the monitor's, all of it under `calls` */
	pthread_cond_t line;
	int is_active, is_copying;
	struct rpmb_next next;
	uint32_t done;
	unsigned char bytes[RPMB_LARGEST_PART], told[LOW - UNTOUCHED];
	unsigned long stops, resets;
};

static const unsigned char key[32] = "a key that honest guests share..";
static struct guest guests[GUESTS], pace;                 /* pace: the monitor's, for its pauses alone */
static struct rpmb_host host;
static pthread_mutex_t calls = PTHREAD_MUTEX_INITIALIZER; /* one call of the library at a time */
static pthread_cond_t bell = PTHREAD_COND_INITIALIZER;    /* a guest is active, or all is done */
static int awake = HONEST;                                /* honest guests that aren't done */
static int is_over;

static void check(int holds, const char *what)
{
	if (!holds) {
		printf("failed: %s\n", what);
		exit(1);
	}
}

static uint32_t random_of(struct guest *g, uint32_t below)
{
	g->random = g->random * 1664525u + 1013904223u;
	return (g->random >> 8) % below;
}

/* Now and then for a moment, so that each thread may find the others at any place. */
static void pause_some(struct guest *g)
{
	for (uint32_t spins = random_of(g, 4) ? 0 : random_of(g, 2000); spins; spins--)
		atomic_signal_fence(memory_order_seq_cst);
}

/* Registers, as the processor's exits. Behind a reset, or where its queue is taken away, a driver takes its memory
 * back: so the copy that is under way comes first. */

static uint32_t set_register(struct guest *g, uint32_t offset, uint32_t value)
{
	uint32_t kick;

	pthread_mutex_lock(&calls);
	while (g->is_copying && (offset == 0x070 || offset == 0x044))
		pthread_cond_wait(&g->line, &calls);
	kick = rpmb_write(&host, g->number, offset, 4, value);
	if (kick == RPMB_NOTIFY) {
		g->is_active = 1;
		pthread_cond_signal(&bell);
	}
	pthread_mutex_unlock(&calls);
	return kick;
}

static uint32_t get_register(struct guest *g, uint32_t offset)
{
	uint32_t value;

	pthread_mutex_lock(&calls);
	value = rpmb_read(&host, g->number, offset, 4);
	pthread_mutex_unlock(&calls);
	return value;
}

/* Brings the device into service (VIRTIO 1.2, 3.1.1 and 4.2.3). The driver's area stands in high memory. */
static void negotiate(struct guest *g)
{
	const uint32_t writes_of[][2] = {
		{ 0x070, 0 }, { 0x070, 1 }, { 0x070, 3 }, { 0x024, 0 }, { 0x020, (1u << 28) | (uint32_t)g->has_event_idx << 29 },
		{ 0x024, 1 }, { 0x020, 1u | (uint32_t)g->is_packed << 2 }, { 0x070, 11 }, { 0x030, 0 }, { 0x038, PLACES },
		{ 0x080, DESCRIPTORS }, { 0x084, 0 }, { 0x090, (uint32_t)HIGH_AT + DRIVER }, { 0x094, HIGH_AT >> 32 },
		{ 0x0a0, DEVICE }, { 0x0a4, 0 }, { 0x044, 1 }, { 0x070, 15 },
	};

	memset(g->low + DESCRIPTORS, 0, TABLE - DESCRIPTORS);
	memset(g->high + DRIVER, 0, DEVICE - DRIVER);
	g->offered = g->reaped = 0;
	for (size_t i = 0; i < sizeof writes_of / sizeof writes_of[0]; i++)
		set_register(g, writes_of[i][0], writes_of[i][1]);
}

/* An honest guest's driver, over a split queue (2.7). Numbers are those of a machine of little endian. */

static uint16_t get(const unsigned char *at)
{
	uint16_t value;

	guest_load(&value, at, 2);
	return value;
}

static void set(unsigned char *at, uint16_t value)
{
	guest_store(at, &value, 2);
}

static unsigned char *request_of(struct guest *g, int slot)
{
	return (slot % 2 ? g->high : g->low) + REQUESTS + 1024 * slot;
}

static unsigned char *answer_of(struct guest *g, int slot)
{
	return (slot % 2 ? g->low : g->high) + ANSWERS + 512 * slot;
}

static void describe(struct guest *g, int place, uint64_t at, uint32_t len, uint16_t flags, uint16_t next)
{
	unsigned char *to = g->low + DESCRIPTORS + 16 * place;

	guest_store(to, &at, 8), guest_store(to + 8, &len, 4), set(to + 12, flags), set(to + 14, next);
}

/* A request of this type: 1 the key, 2 the counter, 3 a write of one block. Both that change ask for the result. */
static uint32_t make_request(struct guest *g, int slot, int type)
{
	unsigned char *it = request_of(g, slot);

	memset(it, 0, 1024);
	memcpy(it + 484, &g->asked, 4);                               /* nonce */
	it[507] = 1, it[511] = (unsigned char)type;
	if (type == 1)
		memcpy(it + 196, key, 32);
	if (type == 3) {
		memset(it + 228, g->writes, 256);
		it[502] = (unsigned char)(g->writes >> 8), it[503] = (unsigned char)g->writes;
		hmac256(key, it + 228, 284, 1, it + 196);
		g->writes++;
	}
	it[1023] = 5;
	g->type_of[slot] = type, g->counter_of[slot] = g->writes, g->busy[slot] = 1;
	return type == 2 ? 512 : 1024;
}

/* Whether the device wants a notification of what was offered up to here (2.7.10). */
static int wants_kick(struct guest *g)
{
	atomic_thread_fence(memory_order_seq_cst);
	return !g->has_event_idx || get(g->low + DEVICE + 4 + 8 * PLACES) == (uint16_t)(g->offered - 1);
}

static void offer(struct guest *g, int slot, int type)
{
	uint32_t len = make_request(g, slot, type);
	int high = slot % 2;

	memset(answer_of(g, slot), 0xaa, 512);
	describe(g, 2 * slot, (high ? HIGH_AT : 0) + REQUESTS + 1024u * slot, len, 1, (uint16_t)(2 * slot + 1));
	describe(g, 2 * slot + 1, (high ? 0 : HIGH_AT) + ANSWERS + 512u * slot, 512, 2, 0);
	set(g->high + DRIVER + 4 + 2 * (g->offered % PLACES), (uint16_t)(2 * slot));
	atomic_thread_fence(memory_order_release);
	set(g->high + DRIVER + 2, ++g->offered);
	g->asked++;
	if (wants_kick(g))
		set_register(g, 0x050, 0);
}

static int number_of(const unsigned char *at)
{
	return 256 * at[0] + at[1];
}

/* Looks at one answer that came. */
static void look(struct guest *g)
{
	const unsigned char *element = g->low + DEVICE + 4 + 8 * (g->reaped % PLACES);
	unsigned slot = get(element) / 2;
	const unsigned char *it;

	check(slot < SLOTS && g->busy[slot] && get(element) % 2 == 0 && get(element + 2) == 0, "a used id");
	check(get(element + 4) == 512 && get(element + 6) == 0, "a used length");
	it = answer_of(g, (int)slot);
	check(number_of(it + 510) == 256 * g->type_of[slot], "an answer's type");
	check(number_of(it + 508) == 0, "an answer's result");
	if (g->is_fresh)
		g->writes = g->counter_of[slot] = (uint16_t)number_of(it + 502), g->is_fresh = 0;
	check(number_of(it + 502) == g->counter_of[slot], "an answer's counter");
	check(g->type_of[slot] != 2 || !memcmp(it + 484, request_of(g, (int)slot) + 484, 4), "an answer's nonce");
	g->busy[slot] = 0;
	g->reaped++, g->answered++;
}

static void reap(struct guest *g)
{
	while (get(g->low + DEVICE + 2) != g->reaped) {
		atomic_thread_fence(memory_order_acquire);
		look(g);
	}
}

/* Sleeps until the interrupt line is high, unless an answer came since the driver asked for one (2.7.7). */
static void sleep_until_answered(struct guest *g)
{
	struct timespec end;

	set(g->high + DRIVER, 0);                                     /* flags: interrupts are wanted */
	set(g->high + DRIVER + 4 + 2 * PLACES, g->reaped);            /* used_event: the next one */
	atomic_thread_fence(memory_order_seq_cst);
	if (get(g->low + DEVICE + 2) != g->reaped)
		return;
	g->sleeps++;
	clock_gettime(CLOCK_REALTIME, &end);
	end.tv_sec += SECONDS;
	pthread_mutex_lock(&calls);
	while (!rpmb_interrupt(&host, g->number))
		check(!pthread_cond_timedwait(&g->line, &calls, &end), "an interrupt or a kick is lost");
	rpmb_write(&host, g->number, 0x064, 4, rpmb_read(&host, g->number, 0x060, 4));
	pthread_mutex_unlock(&calls);
	set(g->high + DRIVER, 1);                                     /* no interrupt, while it looks by itself */
}

static void end_honest(void)
{
	pthread_mutex_lock(&calls);
	if (--awake == 0)
		__atomic_store_n(&is_over, 1, __ATOMIC_RELAXED);
	pthread_cond_signal(&bell);
	pthread_mutex_unlock(&calls);
}

/* A reset under way: no more is written from then on. The first answer behind it tells the counter. */
static void begin_anew(struct guest *g)
{
	set_register(g, 0x070, 0);
	for (int slot = 0; slot < SLOTS; slot++)
		memset(answer_of(g, slot), 0x55, 512), g->busy[slot] = 0;
	for (int i = 0; i < 20; i++)
		pause_some(g);
	for (int slot = 0; slot < SLOTS; slot++)
		for (int i = 0; i < 512; i++)
			check(answer_of(g, slot)[i] == 0x55, "nothing is written behind a reset");
	negotiate(g);
	g->answered = g->asked, g->is_fresh = 1, g->begun++;
	offer(g, 0, 2);
	while (g->busy[0]) {
		sleep_until_answered(g);
		reap(g);
	}
}

static uint32_t requests = 4000;

static void *run_honest(void *it)
{
	struct guest *g = it;

	negotiate(g);
	while (g->answered < requests) {
		if (g->answered && g->asked + 1 < requests && random_of(g, 200) == 0)
			begin_anew(g);
		/* (what is behind the key waits until that was told) */
		for (int slot = 0, most = g->answered ? (int)random_of(g, SLOTS + 1) : !g->asked; slot < most; slot++)
			if (!g->busy[slot] && g->asked < requests)
				offer(g, slot, !g->asked ? 1 : random_of(g, 8) ? 2 : 3), pause_some(g);
		if (g->asked != g->answered && random_of(g, 2))
			sleep_until_answered(g);
		reap(g);
	}
	end_honest();
	return NULL;
}

/* A guest that spoils what it can. */

static uint64_t random_address(struct guest *g)
{
	static const uint64_t bases[] = { 0, HIGH_AT, 0x100000, HIGH_AT + HIGH, 1ull << 62 };
	uint64_t at = random_of(g, 0x10000);

	switch (random_of(g, 8)) {
	case 0: return bases[random_of(g, 5)] - random_of(g, 64);
	case 1: return UNTOUCHED + random_of(g, 0x4000);
	case 2: return DESCRIPTORS + random_of(g, 0x3000);
	case 3: return HIGH_AT + DRIVER + random_of(g, 64);
	default: return bases[random_of(g, 2)] + (at & 0xfff0) % UNTOUCHED;
	}
}

/* A descriptor: one that may do, or any. */
static void spoil_descriptor(struct guest *g, unsigned char *to)
{
	static const uint16_t flags[] = { 0, 1, 2, 3, 1, 2, 4, 6, 5, 0x8001, 0x81, 0x82, 0x80, 0x84, 0x8080 };
	uint64_t at = random_of(g, 3) ? random_address(g) : TABLE;
	uint32_t len = random_of(g, 4) ? 16 * random_of(g, 64) : random_of(g, 0x20000);

	guest_store(to, &at, 8), guest_store(to + 8, &len, 4);
	set(to + 12, g->is_packed ? (uint16_t)random_of(g, 20) : flags[random_of(g, 9)]);
	set(to + 14, g->is_packed ? flags[random_of(g, 15)] : (uint16_t)random_of(g, 20));
}

static void spoil_frame(struct guest *g)
{
	unsigned char *it = (random_of(g, 2) ? g->low : g->high) + REQUESTS + 512 * random_of(g, 32);

	it[507] = (unsigned char)random_of(g, 18), it[511] = (unsigned char)random_of(g, 7);
	it[random_of(g, 512)] = (unsigned char)random_of(g, 256);
}

static void spoil_registers(struct guest *g)
{
	static const uint32_t offsets[] = { 0x038, 0x044, 0x064, 0x070, 0x084, 0x094, 0x0a0, 0x030, 0x020 };

	if (random_of(g, 8))
		set_register(g, offsets[random_of(g, 9)], random_of(g, 3) ? random_of(g, 2) : g->random);
	else
		set_register(g, 0x070, 0), g->resets++;
	if (random_of(g, 3))
		negotiate(g), g->resets++;
}

static void spoil(struct guest *g)
{
	uint32_t kind = random_of(g, 64);

	if (kind < 24)
		spoil_descriptor(g, g->low + DESCRIPTORS + 16 * random_of(g, PLACES));
	else if (kind < 32)
		spoil_descriptor(g, g->low + TABLE + 16 * random_of(g, 64));
	else if (kind < 40)
		spoil_frame(g);
	else if (kind < 44)
		set(g->high + DRIVER + 4 + 2 * random_of(g, PLACES + 1), (uint16_t)random_of(g, PLACES + 1));
	else if (kind < 56)
		set(g->high + DRIVER + 2, ++g->offered);
	else if (kind < 57)
		set(g->high + DRIVER + 2 * random_of(g, 2), (uint16_t)g->random);
	else if (kind < 58 && random_of(g, 64) == 0)
		spoil_registers(g);
	else if (kind < 60)
		set_register(g, 0x050, 0);
}

/* A device that stopped is reset by its guest, or else it would be left alone. */
static void *run_hostile(void *it)
{
	struct guest *g = it;

	negotiate(g);
	while (!__atomic_load_n(&is_over, __ATOMIC_RELAXED)) {
		for (int i = 0; i < 32; i++)
			spoil(g);
		if (get_register(g, 0x070) & 64)
			negotiate(g), g->stops++;
	}
	return NULL;
}

/* The monitor, which holds `calls`, but not while it copies. */

static int take_outbox(void)
{
	static unsigned char bytes[RPMB_LARGEST_WRITE];
	uint64_t at;
	int count = 0;

	while (rpmb_outbox(&host, &at, bytes, sizeof bytes) != 0)
		count++;
	return count;
}

/* What is told to be written among the bytes that the guest itself leaves alone. */
static void note(struct guest *g)
{
	for (uint32_t i = 0; i < g->next.len; i++)
		if (g->next.at + i >= UNTOUCHED && g->next.at + i < LOW)
			g->told[g->next.at + i - UNTOUCHED] = g->bytes[i];
}

static void copy(struct guest *g)
{
	g->is_copying = 1;
	pthread_mutex_unlock(&calls);
	g->done = 0;
	pause_some(&pace);
	if (g->next.what == RPMB_READ)
		g->done = guest_copy_in(&g->ram, g->next.at, g->bytes, g->next.len);
	if (g->next.what == RPMB_WRITE && (g->done = guest_copy_out(&g->ram, g->next.at, g->bytes, g->next.len)))
		note(g);
	pthread_mutex_lock(&calls);
	g->is_copying = 0;
	pthread_cond_signal(&g->line);
}

/* Some steps of a guest's serve: one that goes on offering leaves the others their turn. Whether a sync is awaited. */
static int serve(struct guest *g)
{
	for (int steps = 0; steps < TURN; steps++) {
		if (g->next.what == RPMB_REST)
			g->is_active = 0;      /* a kick from here on is one of its own */
		rpmb_serve(&host, g->number, g->done, g->bytes, sizeof g->bytes, &g->next);
		take_outbox();
		check(g->next.fault == RPMB_OK || g->next.fault == RPMB_STOPPED || g->next.fault == RPMB_BUSY, "a fault");
		if (g->next.what == RPMB_CALL || g->next.what == RPMB_REST)
			pthread_cond_signal(&g->line);
		if (g->next.what == RPMB_REST)
			return g->next.sync;
		copy(g);
	}
	g->is_active = 1;
	return 0;
}

/* A sync of the image, which is nowhere here: what was taken is kept. */
static void complete(void)
{
	check(rpmb_completed(&host, 1) == RPMB_OK, "rpmb_completed");
	for (struct guest *g = guests; g < guests + GUESTS; g++)
		g->is_active |= rpmb_waiting(&host, g->number) != 0;
}

static void run_monitor(void)
{
	pthread_mutex_lock(&calls);
	while (!is_over) {
		int is_idle = 1, awaited = 0;

		for (struct guest *g = guests; g < guests + GUESTS; g++)
			if (g->is_active)
				awaited |= serve(g), is_idle = 0;
		if (awaited && !take_outbox())
			complete();
		if (is_idle && !is_over)
			pthread_cond_wait(&bell, &calls);
	}
	pthread_mutex_unlock(&calls);
}

static void open_board(void)
{
	static struct rpmb_guest board[GUESTS];
	unsigned char *image;
	size_t length;

	for (int i = 0; i < GUESTS; i++)
		board[i] = (struct rpmb_guest){ .memory = HIGH_AT + HIGH, .capacity = 1, .max_wr_cnt = 16, .max_rd_cnt = 16 };
	length = rpmb_image_length(board, GUESTS);
	image = malloc(length);
	check(image && rpmb_format(board, GUESTS, image, length) == RPMB_OK, "rpmb_format");
	check(rpmb_open(board, GUESTS, image, length, &host) == RPMB_OK, "rpmb_open");
	free(image);
}

static void make_guest(uint16_t i, uint32_t seed)
{
	struct guest *g = &guests[i];

	g->number = i, g->random = seed + 7919u * i;
	g->is_packed = i == 3, g->has_event_idx = i == 0 || i == 3;
	g->regions[0] = (struct guest_region){ 0, LOW, g->low };
	g->regions[1] = (struct guest_region){ HIGH_AT, HIGH, g->high };
	g->ram = (struct guest_ram){ g->regions, 2 };
	memset(g->low + UNTOUCHED, 0x5a, LOW - UNTOUCHED);
	memset(g->told, 0x5a, sizeof g->told);
	pthread_cond_init(&g->line, NULL);
}

/* What the device of a guest that spoiled it does behind a reset. */
static void check_healed(struct guest *g)
{
	g->is_packed = g->has_event_idx = 0;
	negotiate(g);
	offer(g, 0, 2);
	pthread_mutex_lock(&calls);
	do {
		if (serve(g))
			check(rpmb_completed(&host, 1) == RPMB_OK, "rpmb_completed");
	} while (g->is_active || g->next.sync);
	pthread_mutex_unlock(&calls);
	check(get(g->low + DEVICE + 2) == 1 && answer_of(g, 0)[510] == 2, "a reset heals the device");
	check(!memcmp(g->low + UNTOUCHED, g->told, sizeof g->told), "no byte is written that wasn't told");
}

int main(int argc, char **argv)
{
	uint32_t seed = argc > 2 ? (uint32_t)atoi(argv[2]) : 1;
	pthread_t threads[GUESTS];

	if (argc > 1)
		requests = (uint32_t)atoi(argv[1]);
	open_board();
	for (uint16_t i = 0; i < GUESTS; i++)
		make_guest(i, seed);
	for (int i = 0; i < GUESTS; i++)
		check(!pthread_create(&threads[i], NULL, i < HONEST ? run_honest : run_hostile, &guests[i]), "a thread");
	run_monitor();
	for (int i = 0; i < GUESTS; i++)
		pthread_join(threads[i], NULL);
	for (int i = 0; i < HONEST; i++)
		printf("an honest guest: %u requests, %s, %s\n", guests[i].asked,
		       guests[i].sleeps ? "it slept" : "it never slept", guests[i].begun ? "it began anew" : "it went on");
	for (int i = HONEST; i < GUESTS; i++) {
		check_healed(&guests[i]);
		check(guests[i].stops > 0, "its device stopped");
		printf("a guest that spoiled its queue: its device stopped, and a reset healed it\n");
		if (argc > 1)
			printf("%lu stops, %lu resets\n", guests[i].stops, guests[i].resets);
	}
	rpmb_close(&host);
	return 0;
}
