/* The firmware of a machine that has nothing but one processor in real mode, 64 KiB of memory and
 * an RPMB device. At each boot it asks for the write counter, programs its key at the first, writes
 * three blocks that hold the boot count, reads them back, and halts. Blocks and counter tell the
 * same count, since each boot makes one write: a write that is half there is seen. While that is
 * written it asks for the counter, and looks at its memory for both answers. */
#include <stdbool.h>
#include <stdint.h>
#include "ports.h"
#include "sha256.h"

__asm__(".section .start, \"ax\"\n"
	".code16gcc\n"
	"xorw %ax, %ax\n movw %ax, %ds\n movw %ax, %es\n movw %ax, %ss\n"
	"movw $0xd000, %ax\n movw %ax, %fs\n" /* REGISTERS / 16 */
	"movl $0xfff0, %esp\n"
	"calll boot\n"
	"1: hlt\n jmp 1b\n"
	".text\n");

/* virtio-mmio registers (VIRTIO 1.2, 4.2.2) */
enum { MAGIC = 0x00, VERSION = 0x04, DEVICE_ID = 0x08, FEATURES = 0x10, FEATURES_SEL = 0x14,
       DRIVER_FEATURES = 0x20, DRIVER_SEL = 0x24, QUEUE_SEL = 0x30, QUEUE_NUM_MAX = 0x34,
       QUEUE_NUM = 0x38, QUEUE_READY = 0x44, QUEUE_NOTIFY = 0x50, INTERRUPT_STATUS = 0x60,
       INTERRUPT_ACK = 0x64, STATUS = 0x70, QUEUE_DESC = 0x80, QUEUE_DRIVER = 0x90,
       QUEUE_DEVICE = 0xa0 };

static uint32_t in_register(uint32_t at)
{
	uint32_t value;
	__asm__ volatile("movl %%fs:(%1), %0" : "=r"(value) : "r"(at) : "memory");
	return value;
}
static void out_register(uint32_t at, uint32_t value)
{
	__asm__ volatile("movl %0, %%fs:(%1)" : : "r"(value), "r"(at) : "memory");
}
static uint32_t in_port(uint16_t port)
{
	uint32_t value;
	__asm__ volatile("inl %w1, %0" : "=a"(value) : "Nd"(port));
	return value;
}
static void out_port(uint16_t port, uint32_t value)
{
	__asm__ volatile("outl %0, %w1" : : "a"(value), "Nd"(port) : "memory");
}
static void stop(uint32_t error)
{
	out_port(PORT_ERROR, error);
	for (;;) __asm__ volatile("hlt");
}
static void must(bool holds, uint32_t error)
{
	if (!holds) stop(error);
}
/* what the compiler may call by itself */
void *memset(void *at, int byte, size_t n)
{
	for (size_t i = 0; i < n; i++) ((volatile uint8_t *)at)[i] = byte;
	return at;
}
void *memcpy(void *to, const void *from, size_t n)
{
	for (size_t i = 0; i < n; i++) ((volatile uint8_t *)to)[i] = ((const uint8_t *)from)[i];
	return to;
}

/* a split virtqueue (2.7) */
#define PLACES 8
static struct { uint64_t address; uint32_t length; uint16_t flags, next; }
	descriptors[PLACES] __attribute__((aligned(16)));
static volatile struct { uint16_t flags, index, ring[PLACES], used_event; }
	available __attribute__((aligned(2)));
static volatile struct {
	uint16_t flags, index;
	struct { uint32_t id, length; } ring[PLACES];
	uint16_t avail_event;
} used __attribute__((aligned(4)));

static void set_area(uint32_t at, uint64_t area)
{
	out_register(at, (uint32_t)area);
	out_register(at + 4, (uint32_t)(area >> 32));
}

static void negotiate(void)
{
	must(in_register(MAGIC) == 0x74726976 && in_register(VERSION) == 2 &&
	     in_register(DEVICE_ID) == 28, NO_DEVICE);
	out_register(STATUS, 0);
	out_register(STATUS, 1);
	out_register(STATUS, 3);
	out_register(FEATURES_SEL, 1);
	must(in_register(FEATURES) & 1, NO_DEVICE);
	out_register(DRIVER_SEL, 1);
	out_register(DRIVER_FEATURES, 1); /* VIRTIO_F_VERSION_1 */
	out_register(STATUS, 11);
	must(in_register(STATUS) & 8, NO_DEVICE);
	out_register(QUEUE_SEL, 0);
	must(in_register(QUEUE_NUM_MAX) >= PLACES, NO_DEVICE);
	out_register(QUEUE_NUM, PLACES);
	set_area(QUEUE_DESC, (uint32_t)descriptors);
	set_area(QUEUE_DRIVER, (uint32_t)&available);
	set_area(QUEUE_DEVICE, HIGH + (uint32_t)&used);
	out_register(QUEUE_READY, 1);
	must(in_register(QUEUE_READY) == 1, NO_DEVICE);
	out_register(STATUS, 15);
}

/* frames (5.12.6): numbers are in big endian */
enum { KEY_MAC = 196, DATA = 228, NONCE = 484, COUNTER = 500, ADDRESS = 504, COUNT = 506,
       RESULT = 508, TYPE = 510 };
enum { BLOCKS = 3 };
static uint8_t request[BLOCKS + 1][512] __attribute__((aligned(16))), answer[BLOCKS][512];
static uint8_t question[512], told[512];	/* the counter's, beside another request */
static const uint8_t key[32] = "a key that this firmware keeps.";

static uint32_t number(const uint8_t *at, int n)
{
	uint32_t value = 0;
	while (n--) value = value << 8 | *at++;
	return value;
}
static void set_number(uint8_t *at, int n, uint32_t value)
{
	for (; n; value >>= 8) at[--n] = value;
}
static bool same(const uint8_t *a, const uint8_t *b, int n)
{
	while (n--)
		if (a[n] != b[n]) return false;
	return true;
}

/* Gives the device a chain of so many frames, and room for so many, from this descriptor on. */
static void offer(int first, const void *frames, int count, void *back, int count_back)
{
	descriptors[first].address = HIGH + (uint32_t)frames;
	descriptors[first].length = 512 * count;
	descriptors[first].flags = 1; /* NEXT */
	descriptors[first].next = first + 1;
	descriptors[first + 1].address = (uint32_t)back;
	descriptors[first + 1].length = 512 * count_back;
	descriptors[first + 1].flags = 2; /* WRITE */
	available.ring[available.index % PLACES] = first;
	__asm__ volatile("" ::: "memory");
	available.index++;
	out_register(QUEUE_NOTIFY, 0);
}

/* Waits for all that was offered: in memory, and then for the interrupt that tells of it. */
static void await(int count_back)
{
	uint32_t status;
	for (uint32_t i = 0; used.index != available.index; i++) {
		must(i < 0x40000000, NO_ANSWER);
		__asm__ volatile("pause" ::: "memory");
	}
	for (int i = 0; !(status = in_register(INTERRUPT_STATUS)); i++) must(i < 1000000, NO_ANSWER);
	out_register(INTERRUPT_ACK, status);
	must(used.ring[(uint16_t)(used.index - 1) % PLACES].length == 512u * count_back, NO_ANSWER);
}

static void ask(int frames, int frames_back)
{
	offer(0, request, frames, answer, frames_back);
	await(frames_back);
}

/* The result of an answer of so many frames, whose MAC is right where there is a key. */
static uint32_t checked(uint32_t type, int frames)
{
	uint8_t mac[32];
	const uint8_t *last = answer[frames - 1];
	uint32_t result = number(last + RESULT, 2);
	must(number(last + TYPE, 2) == type, WRONG_TYPE);
	if (result == 7) return result; /* NO_AUTH_KEY */
	hmac256(key, answer[0] + DATA, 284, frames, mac);
	must(same(mac, last + KEY_MAC, 32), WRONG_MAC);
	return result;
}

static void begin_request(int frames, uint32_t type)
{
	volatile uint32_t *words = (volatile uint32_t *)request;
	for (int i = 0; i < 128 * (frames + 1); i++) words[i] = 0;
	for (int i = 0; i < frames; i++) set_number(request[i] + TYPE, 2, type);
}
static void new_nonce(void)
{
	for (int i = 0; i < 4; i++) set_number(request[0] + NONCE + 4 * i, 4, in_port(PORT_RANDOM));
}

static uint32_t ask_counter(uint32_t *counter)
{
	begin_request(1, 2);
	set_number(request[0] + COUNT, 2, 1);
	new_nonce();
	ask(1, 1);
	uint32_t result = checked(0x200, 1);
	must(same(answer[0] + NONCE, request[0] + NONCE, 16), WRONG_NONCE);
	*counter = number(answer[0] + COUNTER, 4);
	return result;
}

static void program_key(void)
{
	begin_request(1, 1);
	set_number(request[0] + COUNT, 2, 1);
	memcpy(request[0] + KEY_MAC, key, 32);
	set_number(request[1] + TYPE, 2, 5);
	ask(2, 1);
	must(checked(0x100, 1) == 0, REFUSED);
}

/* The count that each block holds, 64 times over. */
static uint32_t read_blocks(void)
{
	begin_request(1, 4);
	set_number(request[0] + COUNT, 2, BLOCKS);
	new_nonce();
	ask(1, BLOCKS);
	must(checked(0x400, BLOCKS) == 0, REFUSED);
	for (int i = 0; i < BLOCKS; i++)
		must(same(answer[i] + NONCE, request[0] + NONCE, 16), WRONG_NONCE);
	uint32_t count = number(answer[0] + DATA, 4);
	for (int i = 0; i < BLOCKS; i++)
		for (int k = 0; k < 64; k++)
			must(number(answer[i] + DATA + 4 * k, 4) == count, TORN_BLOCKS);
	return count;
}

static void write_blocks(uint32_t counter, uint32_t count)
{
	begin_request(BLOCKS, 3);
	for (int i = 0; i < BLOCKS; i++) {
		for (int k = 0; k < 64; k++) set_number(request[i] + DATA + 4 * k, 4, count);
		set_number(request[i] + COUNTER, 4, counter);
		set_number(request[i] + COUNT, 2, BLOCKS);
	}
	hmac256(key, request[0] + DATA, 284, BLOCKS, request[BLOCKS - 1] + KEY_MAC);
	set_number(request[BLOCKS] + TYPE, 2, 5);
	memset(question, 0, 512);
	set_number(question + COUNT, 2, 1);
	set_number(question + TYPE, 2, 2);
	offer(0, request, BLOCKS + 1, answer, 1);
	offer(2, question, 1, told, 1);
	await(1);
	must(checked(0x300, 1) == 0, REFUSED);
	must(number(told + TYPE, 2) == 0x200 && number(told + COUNTER, 4) == counter + 1, OTHER_BLOCKS);
	must(number(answer[0] + COUNTER, 4) == counter + 1, OTHER_BLOCKS);
}

void boot(void)
{
	uint32_t counter;
	negotiate();
	uint32_t result = ask_counter(&counter);
	if (result == 7) {
		program_key();
		result = ask_counter(&counter);
	}
	must(result == 0, REFUSED);
	must(counter >= in_port(PORT_LEAST), COUNTER_WENT_BACK);
	out_port(PORT_COUNTER, counter);
	must(read_blocks() == counter, TORN_BLOCKS);
	write_blocks(counter, counter + 1);
	out_port(PORT_WROTE, counter + 1);
	must(read_blocks() == counter + 1, OTHER_BLOCKS);
	out_port(PORT_BOOTS, counter + 1);
}
