/* Plays a script on a board of the library, and prints what `rpmbd run` prints of it (docs/FORMATS.md).
 *
 *     play SCRIPT memory - GUEST..       over a fresh image in memory
 *     play SCRIPT new FILE GUEST..       over a fresh image in this file
 *     play SCRIPT open FILE GUEST..      over the image that stands in it
 *
 * A GUEST is what its table in the board file says, as numbers parted by commas: capacity, max_wr_cnt, max_rd_cnt,
 * memory, queue, as 0 or 1 whether its ring is packed, indirect, event_idx and in_order, and how many of its chains may
 * be popped and not yet answered: 1, as in `rpmbd run`, which answers each before it pops the next, or up to 64.
 *
 * The driver's half is played here, by "The driver's layout" of that page; the device's is the library's.
 *
 * Status 1: a line or the disk ended it; 3: it was refused before any line; 4: a call did what it may not. */
#include "guest_ram.h"
#include "rpmb_host.h"
#include <fcntl.h>
#include <stdio.h>
#include <stdlib.h>
#include <sys/file.h>
#include <sys/stat.h>
#include <unistd.h>

enum { GUESTS = 64, PLACES = 256, TRIES = 8, NUMBERS = 10 };
enum { LEAST_MEMORY = 65536, MOST_MEMORY = 67108864 };
enum { MOST_READABLE = 8704, MOST_WRITABLE = 8192, PAIR = MOST_READABLE + MOST_WRITABLE };
enum { NEXT = 1, WRITE = 2, INDIRECT = 4, AVAIL = 128, USED = 32768 };
enum { STATUS = 0x070, QUEUE_NOTIFY = 0x050 };

static const char needs_reset[] = "needs-reset", no_answer[] = "no-answer", bad_used[] = "bad-used";

/* A chain that the device has: its last descriptor, its places in the ring, what may be written, its first place. */
struct flight {
	uint16_t last, places;
	uint32_t room, place;
};

struct driver {
	struct rpmb_host *host;
	unsigned char *ram;        /* the guest's memory: one region, from guest address 0 on */
	uint64_t memory;
	uint16_t guest, size;
	int packed, indirect, event_idx, in_order;
	uint64_t driver_area, device_area, tables, buffers;
	uint32_t offered, used;    /* the places of the next chain, and of the next that comes back */
	uint16_t next;             /* of a split ring in order: the next chain's descriptor */
	int owner[PLACES];         /* the chain that has a descriptor or an id; -1: none */
	struct flight flights[PLACES];
	const char *stuck;         /* what is printed until the next reset */
	struct rpmb_next next_step; /* what its device asks for, where it doesn't rest, */
	unsigned char bytes[RPMB_LARGEST_PART]; /* and the bytes of that */
};

struct board {
	struct rpmb_guest guests[GUESTS];
	struct driver *drivers;
	size_t count;
	struct rpmb_host host;
	uint64_t length;
	int file;                  /* -1: the image is in memory */
	int failed, told;          /* a call of the file failed; the library knows of it */
};

struct line {
	enum { NOTHING, CHAIN, STORE, RESET } kind;
	uint16_t guest;
	uint64_t number;           /* W of a chain, ADDR of a store */
	unsigned char *bytes;
	size_t len;
};

static void check(int holds, const char *what)
{
	if (!holds) {
		fflush(stdout);
		fprintf(stderr, "play: failed: %s\n", what);
		exit(4);
	}
}

static void refuse(const char *what)
{
	fprintf(stderr, "play: refused: %s\n", what);
	exit(3);
}

/* Ends a run whose lines so far were printed. */
static void end_with(const char *fault, const char *file, const char *why)
{
	fflush(stdout);
	fprintf(stderr, "rpmbd: %s\n%s%s", fault, file, why);
	exit(1);
}

/* Whether a call that was refused memory is made again: some times. */
static int is_tried_again(const char *call, int tries)
{
	fprintf(stderr, "play: no memory for %s\n", call);
	return tries < TRIES;
}

/* Room that is zeros. */
static void *room_for(size_t len)
{
	void *room;

	for (int i = 0; (room = calloc(len ? len : 1, 1)) == NULL; i++)
		if (!is_tried_again("play", i))
			refuse("no memory");
	return room;
}

/* The driver's memory. */

static void put(struct driver *d, uint64_t at, uint64_t number, size_t len)
{
	for (; len-- > 0; number >>= 8)
		d->ram[at++] = (unsigned char)number;
}

static uint32_t get(const struct driver *d, uint64_t at, size_t len)
{
	uint32_t number = 0;

	while (len-- > 0)
		number = number << 8 | d->ram[at + len];
	return number;
}

/* How it begins. */

static uint64_t aligned(uint64_t at)
{
	return (at + 15) / 16 * 16;
}

static void lay_out(struct driver *d)
{
	uint64_t size = d->size;

	d->driver_area = aligned(16 * size);
	d->device_area = aligned(d->driver_area + (d->packed ? 4 : 6 + 2 * size));
	d->tables = aligned(d->device_area + (d->packed ? 4 : 6 + 8 * size));
	d->buffers = aligned(d->tables + 32 * size);
}

static uint32_t set_register(const struct driver *d, uint32_t offset, uint32_t value)
{
	return rpmb_write(d->host, d->guest, offset, 4, value);
}

/* Brings the device into service (VIRTIO 1.2, 3.1.1 and 4.2.3), with areas that are zeros. */
static void negotiate(struct driver *d)
{
	const uint32_t writes[][2] = {
		{ STATUS, 1 }, { STATUS, 3 },
		{ 0x024, 0 }, { 0x020, (uint32_t)d->indirect << 28 | (uint32_t)d->event_idx << 29 },
		{ 0x024, 1 }, { 0x020, 1u | (uint32_t)d->packed << 2 | (uint32_t)d->in_order << 3 },
		{ STATUS, 11 },
		{ 0x030, 0 }, { 0x038, d->size },                        /* QueueSel, QueueNum */
		{ 0x080, 0 }, { 0x084, 0 },
		{ 0x090, (uint32_t)d->driver_area }, { 0x094, 0 },
		{ 0x0a0, (uint32_t)d->device_area }, { 0x0a4, 0 },
		{ 0x044, 1 },                                            /* QueueReady */
		{ STATUS, 15 },
	};

	d->offered = d->used = d->next = 0;
	for (int i = 0; i < PLACES; i++)
		d->owner[i] = -1;
	d->stuck = NULL;
	memset(d->ram, 0, 16u * d->size);
	memset(d->ram + d->driver_area, 0, d->packed ? 4 : 6u + 2u * d->size);
	memset(d->ram + d->device_area, 0, d->packed ? 4 : 6u + 8u * d->size);
	for (size_t i = 0; i < sizeof writes / sizeof writes[0]; i++)
		set_register(d, writes[i][0], writes[i][1]);
}

/* How it offers a chain. */

/* Where a descriptor stands, and what its flags have in addition. */
struct slot {
	uint64_t at;
	unsigned marks;
};

struct chain {
	uint16_t id, last;
	uint32_t len, room;
};

/* A descriptor of a split ring, or of a table. */
static struct slot slot_at(uint64_t at)
{
	return (struct slot){ at, 0 };
}

/* That of a packed ring's place, counted modulo twice its size (2.8.1). */
static struct slot slot_of(const struct driver *d, uint32_t place)
{
	return (struct slot){ 16 * (uint64_t)(place % d->size), place / d->size % 2 ? USED : AVAIL };
}

/* Writes a descriptor (2.7.5 and 2.8.13); `other` is `next`, or in a packed ring the id. */
static void describe(struct driver *d, struct slot to, uint64_t addr, uint32_t len, unsigned flags, unsigned other)
{
	flags += to.marks;
	put(d, to.at, addr, 8);
	put(d, to.at + 8, len, 4);
	put(d, to.at + 12, d->packed ? other : flags, 2);
	put(d, to.at + 14, d->packed ? flags : other, 2);
}

/* Describes a chain's parts, the first one last. A packed ring's table has neither ids nor NEXT. */
static void write_parts(struct driver *d, const struct chain *c, struct slot first, struct slot second)
{
	uint64_t pair = d->buffers + PAIR * (uint64_t)c->id;
	unsigned id = d->packed && !d->indirect ? c->id : 0, next = d->packed ? id : d->indirect ? 1 : c->last;

	if (c->room)
		describe(d, c->len ? second : first, pair + MOST_READABLE, c->room, WRITE, id);
	if (c->len && c->room)
		describe(d, first, pair, c->len, d->packed && d->indirect ? 0 : NEXT, next);
	else if (c->len)
		describe(d, first, pair, c->len, 0, id);
}

static void write_chain(struct driver *d, const struct chain *c, struct slot first, struct slot second)
{
	uint64_t table = d->tables + 32 * (uint64_t)c->id;

	if (!d->indirect) {
		write_parts(d, c, first, second);
		return;
	}
	write_parts(d, c, slot_at(table), slot_at(table + 16));
	describe(d, first, table, c->len && c->room ? 32 : 16, INDIRECT, d->packed ? c->id : 0);
}

static uint16_t lowest_free(const struct driver *d, unsigned low)
{
	while (low < d->size && d->owner[low] >= 0)
		low++;
	check(low < d->size, "a descriptor is free");
	return (uint16_t)low;
}

/* The chain's id and its last descriptor: of a split ring in order the next ones, else the lowest that are free. */
static void choose(struct driver *d, struct chain *c, int two)
{
	int is_next = d->in_order && !d->packed;

	c->id = c->last = is_next ? d->next : lowest_free(d, 0);
	if (two && !d->packed)
		c->last = is_next ? (uint16_t)((c->id + 1) % d->size) : lowest_free(d, c->id + 1u);
	check(d->owner[c->id] < 0 && d->owner[c->last] < 0, "the next descriptors are free");
	d->owner[c->id] = d->owner[c->last] = c->id;
	d->next = (uint16_t)((c->last + 1) % d->size);
}

static void offer(struct driver *d, const struct line *line)
{
	struct chain c = { .len = (uint32_t)line->len, .room = (uint32_t)line->number };
	int two = !d->indirect && c.len && c.room;
	uint16_t places = d->packed && two ? 2 : 1;
	uint32_t index = get(d, d->driver_area + 2, 2); /* it stands in memory alone: who stores into that moves it */

	choose(d, &c, two);
	d->flights[c.id] = (struct flight){ c.last, places, c.room, d->offered };
	memcpy(d->ram + d->buffers + PAIR * (uint64_t)c.id, line->bytes, line->len);
	if (d->packed) {
		write_chain(d, &c, slot_of(d, d->offered), slot_of(d, d->offered + 1));
		d->offered = (d->offered + places) % (2u * d->size);
		return;
	}
	write_chain(d, &c, slot_at(16 * (uint64_t)c.id), slot_at(16 * (uint64_t)c.last));
	put(d, d->driver_area + 4 + 2 * (index % d->size), c.id, 2);
	put(d, d->driver_area + 2, index + 1, 2);
	d->offered = (d->offered + 1) % 65536;
}

/* How it takes a chain back. */

/* Whether one came back: what is said to be its id and its length. */
static int is_used(const struct driver *d, uint32_t *id, uint32_t *len)
{
	uint64_t at = d->packed ? slot_of(d, d->used).at + 8 : d->device_area + 4 + 8 * (d->used % d->size);
	uint32_t flags = d->used < d->size ? AVAIL | USED : 0;

	if (d->packed ? (get(d, at + 6, 2) & (AVAIL | USED)) != flags : get(d, d->device_area + 2, 2) == d->used)
		return 0;
	*id = d->packed ? get(d, at + 4, 2) : get(d, at, 4);
	*len = d->packed ? get(d, at, 4) : get(d, at + 4, 4);
	return 1;
}

/* NULL where a chain came back, else why none did. */
static const char *reap(struct driver *d, uint32_t *id, uint32_t *len)
{
	const struct flight *f;

	if (!is_used(d, id, len))
		return no_answer;
	if (*id >= d->size || d->owner[*id] != (int)*id)
		return bad_used;
	f = &d->flights[*id];
	if (*len > f->room || (d->in_order && f->place != d->used))
		return bad_used;
	d->owner[*id] = d->owner[f->last] = -1;
	d->used = (d->used + f->places) % (d->packed ? 2u * d->size : 65536);
	return NULL;
}

/* The monitor's half. */

static void take_outbox(struct board *b)
{
	unsigned char bytes[RPMB_LARGEST_WRITE];
	uint64_t at;
	size_t len;

	while ((len = rpmb_outbox(&b->host, &at, bytes, sizeof bytes)) != 0) {
		check(at <= b->length && len <= b->length - at, "a write lies in the image");
		if (b->file >= 0 && !b->failed)
			b->failed = pwrite(b->file, bytes, len, (off_t)at) != (ssize_t)len;
	}
}

/* Tells what came of the writes: a failure at once, a success behind the sync that is awaited. */
static void complete(struct board *b, int is_awaited)
{
	if (is_awaited && b->file >= 0 && !b->failed)
		b->failed = fsync(b->file) != 0;
	if (b->failed ? !b->told : is_awaited)
		check(rpmb_completed(&b->host, !b->failed) == RPMB_OK, "rpmb_completed");
	b->told = b->failed;
}

/* Does what its device asks for, and lets it go on. */
static void step(struct board *b, struct driver *d)
{
	const struct guest_ram ram = { &(struct guest_region){ 0, d->memory, d->ram }, 1 };
	struct rpmb_next *next = &d->next_step;
	uint32_t done = 0;

	if (next->what == RPMB_READ)
		done = guest_copy_in(&ram, next->at, d->bytes, next->len);
	if (next->what == RPMB_WRITE)
		done = guest_copy_out(&ram, next->at, d->bytes, next->len);
	rpmb_serve(&b->host, d->guest, done, d->bytes, sizeof d->bytes, next);
	check(next->len <= sizeof d->bytes, "no more bytes than there is room for");
	take_outbox(b);
	complete(b, next->what == RPMB_REST && next->sync);
}

/* A chain is taken: of one alone the device reads all descriptors. */
static int takes_chain(const struct driver *d)
{
	return d->next_step.what == RPMB_READ && d->next_step.at == 0 && d->next_step.len == 16u * d->size;
}

/* Serves a guest until it has no more, or as many chains were taken as its queue has places: a reply may write over
 * the index of the next one. NULL where one was. */
static const char *serve_all(struct board *b, struct driver *d)
{
	const struct rpmb_next *next = &d->next_step;
	int taken = 0, tries = 0;

	do {
		step(b, d);
		taken += takes_chain(d);
		if (next->what != RPMB_REST)
			continue;
		if (next->fault == RPMB_STOPPED)
			return needs_reset;
		tries = next->fault == RPMB_NO_MEMORY ? tries + 1 : 0;
		if (tries && !is_tried_again("rpmb_serve", tries))
			end_with("2 NoMemory", "", "");
	} while (taken <= d->size && (next->what != RPMB_REST || next->sync || tries));
	check(next->fault == RPMB_OK || (b->failed && next->fault == RPMB_DISK_FAULT), rpmb_fault_text(next->fault));
	return taken ? NULL : no_answer;
}

/* Makes what the library still has to write. */
static void finish(struct board *b)
{
	uint32_t awaited;

	do {
		awaited = rpmb_go_on(&b->host);
		take_outbox(b);
		complete(b, awaited != 0);
	} while (awaited && !b->failed);
	if (b->failed)
		end_with("10 DiskFault", "", "");
}

/* A script. */

static int digit(char c)
{
	if (c >= '0' && c <= '9')
		return c - '0';
	c |= 32;
	return c >= 'a' && c <= 'f' ? c - 'a' + 10 : -1;
}

static int read_number(const char *word, uint64_t most, uint64_t *number)
{
	*number = 0;
	if (!*word)
		return 0;
	for (; *word; word++) {
		uint64_t value = (uint64_t)(*word - '0');

		if (*word < '0' || *word > '9' || value > most || *number > (most - value) / 10)
			return 0;
		*number = 10 * *number + value;
	}
	return 1;
}

/* The bytes of a word of digits, which take its place. */
static int read_bytes(char *word, struct line *line)
{
	size_t len = strlen(word);

	line->bytes = (unsigned char *)word;
	if (!strcmp(word, "-"))
		return 1;
	for (; line->len < len / 2; line->len++) {
		int high = digit(word[2 * line->len]), low = digit(word[2 * line->len + 1]);

		if (high < 0 || low < 0)
			return 0;
		line->bytes[line->len] = (unsigned char)(16 * high + low);
	}
	return len && len % 2 == 0;
}

static int read_chain(char **words, struct line *line)
{
	line->kind = CHAIN;
	return read_bytes(words[2], line) && line->len <= MOST_READABLE
	       && read_number(words[3], MOST_WRITABLE, &line->number) && (line->len || line->number);
}

static int read_store(char **words, struct line *line)
{
	line->kind = STORE;
	return read_number(words[2], UINT64_MAX, &line->number) && read_bytes(words[3], line) && line->len;
}

/* Reads a line, whose words are taken apart. */
static int read_line(char *text, size_t guests, struct line *line)
{
	char *words[4] = { text };
	size_t count = 1;
	uint64_t guest;

	if (!*text || *text == '#')
		return 1;
	for (; (text = strchr(text, ' ')) != NULL; count++) {
		if (count == 4)
			return 0;
		*text++ = 0;
		words[count] = text;
	}
	if (count < 2 || !read_number(words[1], guests - 1, &guest))
		return 0;
	line->guest = (uint16_t)guest;
	line->kind = RESET;
	if (count == 2)
		return !strcmp(words[0], "reset");
	if (count == 4 && !strcmp(words[0], "chain"))
		return read_chain(words, line);
	return count == 4 && !strcmp(words[0], "store") && read_store(words, line);
}

static char *read_text(const char *path)
{
	int file = open(path, O_RDONLY);
	struct stat it;
	char *text;

	if (file < 0 || fstat(file, &it) || !S_ISREG(it.st_mode))
		refuse("no script");
	text = room_for((size_t)it.st_size + 1);
	if (read(file, text, (size_t)it.st_size) != it.st_size || strlen(text) != (size_t)it.st_size)
		refuse("no text");
	close(file);
	return text;
}

/* The lines of a text. All are read before one is performed. */
static struct line *read_lines(char *text, size_t guests, size_t *count)
{
	struct line *lines;
	char *end = text;

	for (*count = 1; (end = strchr(end, '\n')) != NULL; end++)
		++*count;
	lines = room_for(*count * sizeof *lines);
	for (size_t i = 0; i < *count; i++, text = end + 1) {
		end = text + strcspn(text, "\n");
		*end = 0;
		if (!read_line(text, guests, &lines[i]))
			refuse("a bad line");
	}
	return lines;
}

static void print_used(const struct driver *d, uint32_t id, uint32_t len)
{
	static const char digits[] = "0123456789abcdef";
	const unsigned char *bytes = d->ram + d->buffers + PAIR * (uint64_t)id + MOST_READABLE;

	printf("used %u %u %s", d->guest, len, len ? "" : "-");
	for (uint32_t i = 0; i < len; i++) {
		putchar(digits[bytes[i] / 16]);
		putchar(digits[bytes[i] % 16]);
	}
	putchar('\n');
}

static void perform_chain(struct board *b, struct driver *d, const struct line *line)
{
	uint32_t id, len;

	if (!d->stuck) {
		offer(d, line);
		check(set_register(d, QUEUE_NOTIFY, 0) == RPMB_NOTIFY, "a notification");
		d->stuck = serve_all(b, d);
		if (!d->stuck)
			d->stuck = reap(d, &id, &len);
	}
	if (d->stuck)
		printf("%s %u\n", d->stuck, d->guest);
	else
		print_used(d, id, len);
}

/* A store of this line, counted from 1, doesn't lie in its guest's memory. */
static void end_outside(const char *script, size_t number, uint64_t memory)
{
	char why[120];

	snprintf(why, sizeof why,
		 ": line %zu: the store reaches beyond its guest's memory, which has %llu bytes\n", number,
		 (unsigned long long)memory);
	end_with("1 OutOfRange", script, why);
}

static void perform(struct board *b, const struct line *line, const char *script, size_t number)
{
	struct driver *d = &b->drivers[line->guest];

	if (line->kind == CHAIN)
		perform_chain(b, d, line);
	if (line->kind == STORE) {
		if (line->number > d->memory || line->len > d->memory - line->number)
			end_outside(script, number, d->memory);
		memcpy(d->ram + line->number, line->bytes, line->len);
	}
	if (line->kind == RESET) {
		check(set_register(d, STATUS, 0) == RPMB_RESET, "a reset");
		negotiate(d);
	}
}

/* A board. */

static void read_numbers(char *word, uint64_t numbers[NUMBERS])
{
	for (int i = 0; i < NUMBERS; i++) {
		char *end = word + strcspn(word, ",");
		int is_last = !*end;

		*end = 0;
		if (!read_number(word, UINT32_MAX, &numbers[i]) || is_last != (i == NUMBERS - 1))
			refuse("a guest has ten numbers");
		word = end + 1;
	}
	if (numbers[0] > 255 || numbers[1] > 255 || numbers[2] > 255 || numbers[4] < 2 || numbers[4] > PLACES
	    || numbers[9] > 64)
		refuse("a guest's numbers");
}

/* The library takes any memory, and any number of places: what a board file may say of them is looked at here. */
static void check_layout(const struct driver *d)
{
	if (d->memory < LEAST_MEMORY || d->memory > MOST_MEMORY || d->buffers + PAIR * (uint64_t)d->size > d->memory)
		refuse("a guest's memory");
	if (!d->packed && (d->size & (d->size - 1)))
		refuse("a guest's queue");
}

static void read_guest(struct board *b, uint16_t at, char *word)
{
	uint64_t n[NUMBERS];

	read_numbers(word, n);
	b->guests[at] = (struct rpmb_guest){
		.memory = n[3], .queue = (uint16_t)n[4], .most = (uint16_t)n[9], .capacity = (uint8_t)n[0],
		.max_wr_cnt = (uint8_t)n[1], .max_rd_cnt = (uint8_t)n[2],
	};
	b->drivers[at] = (struct driver){
		.host = &b->host, .guest = at, .size = (uint16_t)n[4], .memory = n[3],
		.packed = n[5] != 0, .indirect = n[6] != 0, .event_idx = n[7] != 0, .in_order = n[8] != 0,
	};
	lay_out(&b->drivers[at]);
	check_layout(&b->drivers[at]);
}

/* The file of the image, which is fresh, or is read once it is synced. */
static void open_file(struct board *b, int is_new, const char *path, unsigned char *image)
{
	struct stat it;

	b->file = open(path, is_new ? O_RDWR | O_CREAT | O_TRUNC : O_RDWR, 0600);
	if (b->file < 0 || flock(b->file, LOCK_EX | LOCK_NB))
		refuse("the image's file");
	if (is_new && pwrite(b->file, image, b->length, 0) != (ssize_t)b->length)
		refuse("the image isn't written");
	if (fsync(b->file) || fstat(b->file, &it) || (uint64_t)it.st_size != b->length)
		refuse("the image isn't synced, or has another length");
	if (!is_new && pread(b->file, image, b->length, 0) != (ssize_t)b->length)
		refuse("the image isn't read");
}

/* Opens the library's board. Each call that is refused memory is made again. */
static void open_board(struct board *b, const char *how, const char *path)
{
	int is_new = strcmp(how, "open");
	unsigned char *image;
	uint32_t fault;

	for (int i = 0; (b->length = rpmb_image_length(b->guests, b->count)) == 0; i++)
		if (!is_tried_again("rpmb_image_length", i))
			refuse(rpmb_fault_text(RPMB_BAD_BOARD));
	image = room_for(b->length);
	for (int i = 0; is_new && (fault = rpmb_format(b->guests, b->count, image, b->length)) != RPMB_OK; i++)
		if (fault != RPMB_NO_MEMORY || !is_tried_again("rpmb_format", i))
			refuse(rpmb_fault_text(fault));
	if (strcmp(how, "memory"))
		open_file(b, is_new, path, image);
	for (int i = 0; (fault = rpmb_open(b->guests, b->count, image, b->length, &b->host)) != RPMB_OK; i++)
		if (fault != RPMB_NO_MEMORY || !is_tried_again("rpmb_open", i))
			refuse(rpmb_fault_text(fault));
	free(image);
	for (size_t i = 0; i < b->count; i++) {
		b->drivers[i].ram = room_for(b->drivers[i].memory);
		negotiate(&b->drivers[i]);
	}
}

static void close_board(struct board *b)
{
	finish(b);
	rpmb_close(&b->host);
	check(b->host.at == NULL, "the handle is closed");
	for (size_t i = 0; i < b->count; i++)
		free(b->drivers[i].ram);
	free(b->drivers);
}

int main(int argc, char **argv)
{
	struct board b = { .file = -1 };
	struct line *lines;
	char *text;
	size_t count;

	if (argc < 5 || argc > 4 + GUESTS)
		refuse("play SCRIPT memory|new|open FILE GUEST..");
	b.count = (size_t)argc - 4;
	b.drivers = room_for(b.count * sizeof *b.drivers);
	for (uint16_t i = 0; i < b.count; i++)
		read_guest(&b, i, argv[4 + i]);
	text = read_text(argv[1]);
	lines = read_lines(text, b.count, &count);
	open_board(&b, argv[2], argv[3]);
	for (size_t i = 0; i < count; i++)
		perform(&b, &lines[i], argv[1], i + 1);
	close_board(&b);
	free(lines);
	free(text);
	if (fflush(stdout) || ferror(stdout))
		end_with("21 FileFault", "", "");
	return 0;
}
