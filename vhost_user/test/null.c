/* SPDX-License-Identifier: Apache-2.0
 *
 * null SOCKET: a back end that does no work, for `uml/run costs`. It answers each kick at once: the chain that was
 * offered is used, and the guest is called. So an exchange takes what eventfds, threads and the guest take. It has a
 * split queue and believes its front end: it is no example. */
#include <pthread.h>
#include <stdint.h>
#include <stdio.h>
#include <stdlib.h>
#include <string.h>
#include <sys/mman.h>
#include <sys/socket.h>
#include <sys/un.h>
#include <unistd.h>

enum { GET_FEATURES = 1, SET_MEM_TABLE = 5, SET_VRING_NUM = 8, SET_VRING_ADDR, SET_VRING_BASE, GET_VRING_BASE };
enum { SET_VRING_KICK = 12, SET_VRING_CALL, GET_PROTOCOL_FEATURES = 15, GET_CONFIG = 24, FDS = 8, HEADER = 12 };
/* VERSION_1 and PROTOCOL_FEATURES; of those MQ, REPLY_ACK, BACKEND_REQ and CONFIG */
#define FEATURES (1ull << 32 | 1ull << 30)
#define PROTOCOL (1ull << 0 | 1ull << 3 | 1ull << 5 | 1ull << 9)

struct region { uint64_t guest, size, user, offset; };

struct message {
	uint32_t request, flags, size;
	union {
		uint64_t number;
		struct { uint32_t index, num; } state;
		struct { uint32_t index, flags; uint64_t desc, used, avail, log; } ring;
		struct { uint32_t count, spare; struct region regions[FDS]; } memory;
		struct { uint32_t offset, size, flags; uint8_t bytes[256]; } config;
	} __attribute__((packed));
} __attribute__((packed));

static struct { struct region is; uint8_t *bytes; } regions[FDS];
static uint32_t places, count;
static uint16_t *available;
static uint8_t *used;
static int kick = -1, call = -1;

static void *place(uint64_t user)
{
	for (uint32_t i = 0; i < count; i++)
		if (user - regions[i].is.user < regions[i].is.size)
			return regions[i].bytes + (user - regions[i].is.user);
	exit(1);
}

/* Uses whatever is offered; the reply is 512 bytes that stay as they are. */
static void *answer(void *nothing)
{
	const uint64_t one = 1;
	uint64_t n;

	for (uint16_t done = 0; read(kick, &n, sizeof n) == sizeof n;) {
		for (; done != __atomic_load_n(&available[1], __ATOMIC_ACQUIRE); done++) {
			const uint32_t element[] = { available[2 + done % places], 512 };

			memcpy(used + 4 + 8 * (done % places), element, sizeof element);
			__atomic_store_n((uint16_t *)(used + 2), (uint16_t)(done + 1), __ATOMIC_RELEASE);
		}
		if (write(call, &one, sizeof one) != sizeof one)
			break;
	}
	return nothing;
}

static void reply(int front, struct message *m, uint32_t size)
{
	m->flags = 5;
	m->size = size;
	if (send(front, m, HEADER + size, 0) < 0)
		exit(0);
}

static void perform(int front, struct message *m, const int *fds)
{
	pthread_t thread;

	switch (m->request) {
	case GET_FEATURES: m->number = FEATURES; return reply(front, m, 8);
	case GET_PROTOCOL_FEATURES: m->number = PROTOCOL; return reply(front, m, 8);
	case GET_CONFIG: memcpy(m->config.bytes, "\1\20\20", 3); return reply(front, m, m->size);
	case GET_VRING_BASE: m->state.num = 0; return reply(front, m, 8);
	case SET_MEM_TABLE:
		for (count = 0; count < m->memory.count; count++) {
			const struct region r = m->memory.regions[count];

			regions[count].is = r;
			regions[count].bytes = (uint8_t *)mmap(NULL, r.offset + r.size, PROT_READ | PROT_WRITE, MAP_SHARED,
			                                       fds[count], 0) + r.offset;
		}
		break;
	case SET_VRING_NUM: places = m->state.num; break;
	case SET_VRING_ADDR: available = place(m->ring.avail), used = place(m->ring.used); break;
	case SET_VRING_CALL: call = fds[0]; break;
	case SET_VRING_KICK: kick = fds[0]; pthread_create(&thread, NULL, answer, NULL); break;
	}
	if (m->flags & 8) {
		m->number = 0;
		reply(front, m, 8);
	}
}

int main(int argc, char **argv)
{
	struct sockaddr_un name = { .sun_family = AF_UNIX };
	const int listener = socket(AF_UNIX, SOCK_STREAM, 0);

	if (argc != 2)
		return 2;
	snprintf(name.sun_path, sizeof name.sun_path, "%s", argv[1]);
	if (bind(listener, (struct sockaddr *)&name, sizeof name) || listen(listener, 1))
		return 1;
	for (const int front = accept(listener, NULL, NULL);;) {
		_Alignas(struct cmsghdr) char control[CMSG_SPACE(FDS * sizeof(int))];
		struct message m;
		struct iovec head = { &m, HEADER };
		struct msghdr how = { .msg_iov = &head, .msg_iovlen = 1, .msg_control = control, .msg_controllen = sizeof control };
		int fds[FDS] = { -1 };

		if (recvmsg(front, &how, MSG_WAITALL) != HEADER || m.size > sizeof m - HEADER ||
		    (m.size && recv(front, &m.number, m.size, MSG_WAITALL) != (ssize_t)m.size))
			return 0;
		if (CMSG_FIRSTHDR(&how))
			memcpy(fds, CMSG_DATA(CMSG_FIRSTHDR(&how)), CMSG_FIRSTHDR(&how)->cmsg_len - CMSG_LEN(0));
		perform(front, &m, fds);
	}
}
