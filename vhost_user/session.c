/* SPDX-License-Identifier: Apache-2.0
 *
 * The messages of the vhost-user protocol. A guest has one front end, one queue and one device; all that a message
 * says is checked here or by the library. */
#include <linux/virtio_config.h>
#include <linux/virtio_mmio.h>
#include "daemon.h"

/* The base of a packed ring that begins, whose wraps are 1 (for what is taken, and for what is used), and its place. */
#define PACKED_BASE    0x80008000u
#define PACKED_PLACE   0x8000u
/* MQ, REPLY_ACK, BACKEND_REQ, CONFIG, RESET_DEVICE, CONFIGURE_MEM_SLOTS, STATUS */
#define REPLY_ACK      (1ull << 3)
#define STATUS         (1ull << 16)
#define PROTOCOL       (1ull << 0 | REPLY_ACK | 1ull << 5 | 1ull << 9 | 1ull << 13 | 1ull << 15 | STATUS)

enum answer { DONE, REFUSED, ANSWERED, LATER };
enum { VERSION_MASK = 3, IS_REPLY = 4, NEED_REPLY = 8, NO_FD = 256 };

/* The requests that are supported, by their numbers: the fewest bytes that each has, and which bits of its first number say
 * what queue it is about (where a file descriptor comes along, 8 of them). */
#define REQUESTS(X) \
	X(GET_FEATURES, 1, 0, 0) X(SET_FEATURES, 2, 8, 0) X(SET_OWNER, 3, 0, 0) X(RESET_OWNER, 4, 0, 0) \
	X(SET_MEM_TABLE, 5, 8, 0) X(SET_VRING_NUM, 8, 8, ~0u) X(SET_VRING_ADDR, 9, 40, ~0u) X(SET_VRING_BASE, 10, 8, ~0u) \
	X(GET_VRING_BASE, 11, 8, ~0u) X(SET_VRING_KICK, 12, 8, 255) X(SET_VRING_CALL, 13, 8, 255) X(SET_VRING_ERR, 14, 8, 255) \
	X(GET_PROTOCOL_FEATURES, 15, 0, 0) X(SET_PROTOCOL_FEATURES, 16, 8, 0) X(GET_QUEUE_NUM, 17, 0, 0) \
	X(SET_VRING_ENABLE, 18, 8, ~0u) X(SET_BACKEND_REQ_FD, 21, 0, 0) X(GET_CONFIG, 24, 12, 0) X(RESET_DEVICE, 34, 0, 0) \
	X(GET_MAX_MEM_SLOTS, 36, 0, 0) X(ADD_MEM_REG, 37, 40, 0) X(REM_MEM_REG, 38, 40, 0) X(SET_STATUS, 39, 8, 0) \
	X(GET_STATUS, 40, 0, 0)
#define NUMBERED(name, number, least, queue) name = number,
#define NAMED(name, number, least, queue)    [number] = { #name, least, queue },
enum { REQUESTS(NUMBERED) UNKNOWN };
static const struct { const char *name; uint32_t least, queue; } requests[] = { REQUESTS(NAMED) };

static void shut(int *fd)
{
	if (*fd >= 0)
		close(*fd);
	*fd = -1;
}

static void close_fds(struct guest *g)
{
	while (g->fd_count)
		close(g->fds[--g->fd_count]);
}

static void stop_ring(struct guest *g)
{
	shut(&g->kick);
	g->running = g->stopping = g->more = g->later = false;
}

static enum answer reset(struct guest *g)
{
	stop_ring(g);
	shut(&g->call);
	shut(&g->error);
	reset_device(g);
	g->base = g->status = g->enabled = 0;
	return DONE;
}

void drop(struct guest *g)
{
	reset(g);
	close_fds(g);
	while (g->region_count)
		unmap(g, 0);
	g->features = g->protocol = g->have = g->places = 0;
	shut(&g->requests);
	shut(&g->socket);
}

/* Whether it can be read and signalled without waiting: a UNIX socket, or where that will do an eventfd. */
static bool is_event(int fd, bool or_eventfd)
{
	char path[32], name[32] = "";
	int family;

	if (!getsockopt(fd, SOL_SOCKET, SO_DOMAIN, &family, &(socklen_t){ sizeof family }))
		return family == AF_UNIX;
	snprintf(path, sizeof path, "/proc/self/fd/%d", fd);
	return or_eventfd && readlink(path, name, sizeof name - 1) > 0 && !strcmp(name, "anon_inode:[eventfd]");
}

/* Takes the file descriptor of a message, or none where it says so. */
static enum answer set_fd(struct guest *g, int *fd, bool is_ring)
{
	shut(fd);
	if (is_ring && g->message.number & NO_FD)
		return DONE;
	if (g->fd_count != 1 || !is_event(g->fds[0], is_ring))
		return REFUSED;
	*fd = g->fds[--g->fd_count];
	if (fd == &g->call && g->up) /* (behind its last look at the one before, that may have been told) */
		tell(g->daemon, g->call);
	return DONE;
}

static enum answer set_kick(struct guest *g)
{
	stop_ring(g);
	g->running = g->more = set_fd(g, &g->kick, true) == DONE && g->kick >= 0; /* (more: what was offered before) */
	return g->running ? DONE : REFUSED;
}

static enum answer set_memory(struct guest *g)
{
	const uint32_t count = g->message.memory.count;
	bool fits = count <= VU_FDS && count == g->fd_count && g->message.size >= 8 + 32 * count;

	while (fits && g->region_count)
		unmap(g, 0);
	for (uint32_t i = 0; fits && i < count; i++)
		fits = map(g, g->message.memory.regions[i], g->fds[i]);
	return fits ? DONE : REFUSED;
}

static enum answer remove_region(struct guest *g)
{
	for (unsigned i = 0; i < g->region_count; i++)
		if (!memcmp(&g->regions[i], &g->message.slot.region, offsetof(struct vu_region, offset))) {
			unmap(g, i);
			return DONE;
		}
	return REFUSED;
}

static enum answer set_features(struct guest *g, uint64_t features)
{
	if (features & ~(rpmb_features(&g->daemon->host, g->number) | VU_PROTOCOL_FEATURES))
		return REFUSED;
	g->enabled |= !(features & VU_PROTOCOL_FEATURES); /* a ring is enabled from the first then */
	g->up &= g->features == (features & ~VU_PROTOCOL_FEATURES);
	g->features = features & ~VU_PROTOCOL_FEATURES;
	return DONE;
}

/* The guest's address of what has this one at the front end; all ones, which no region reaches, where it is none. */
static uint64_t guest_address(const struct guest *g, uint64_t user)
{
	for (const struct vu_region *r = g->regions; r < g->regions + g->region_count; r++)
		if (user - r->user < r->size)
			return user - r->user + r->guest;
	return UINT64_MAX;
}

static enum answer set_addresses(struct guest *g)
{
	const uint64_t desc = guest_address(g, g->message.ring.desc), driver = guest_address(g, g->message.ring.avail);
	const uint64_t device = guest_address(g, g->message.ring.used);

	if (g->message.ring.flags || desc == UINT64_MAX || driver == UINT64_MAX || device == UINT64_MAX)
		return REFUSED;
	g->up &= desc == g->desc && driver == g->driver && device == g->device;
	g->desc = desc, g->driver = driver, g->device = device;
	return DONE;
}

static bool is_packed(const struct guest *g)
{
	return g->features >> VIRTIO_F_RING_PACKED & 1;
}

/* The place at which the queue begins, or goes on: of a packed ring the upper half says what is used. (User Mode Linux says
 * 0 where one begins, and takes no STATUS.) */
uint16_t first_place(const struct guest *g)
{
	if (!is_packed(g))
		return (uint16_t)g->base;
	return g->base || g->protocol & STATUS ? (uint16_t)(g->base >> 16) : PACKED_PLACE;
}

/* A queue begins, or goes on: where this program stopped it, or where another one left it. Where it may be that it begins,
 * nothing is left of a session before. */
static enum answer set_base(struct guest *g, uint32_t base)
{
	if (!is_packed(g) && base > UINT16_MAX)
		return REFUSED;
	stop_ring(g);
	g->up &= base == g->base && base && base != PACKED_BASE;
	g->base = base;
	return DONE;
}

/* Where the ring stands, as no answer is outstanding: of a packed one twice, for what was taken and for what is used. */
static uint32_t ring_base(struct guest *g)
{
	const uint32_t place = rpmb_place(&g->daemon->host, g->number);

	if (!g->up || place == RPMB_NO_PLACE)
		return g->base;
	return is_packed(g) ? place << 16 | place : place;
}

static bool send_answer(struct guest *g)
{
	g->message.flags = VU_VERSION | IS_REPLY;
	return send(g->socket, &g->message, VU_HEADER + g->message.size, MSG_DONTWAIT | MSG_NOSIGNAL) ==
	       (ssize_t)(VU_HEADER + g->message.size);
}

/* Answers GET_VRING_BASE, once all chains that the device took are answered. A guest that goes on offering ends that. */
bool end_stop(struct guest *g)
{
	if (g->up && g->running && (g->later || g->more || rpmb_waiting(&g->daemon->host, g->number)))
		return !g->more || ++g->turns < STOP_TURNS || (COMPLAIN(g, "its ring doesn't come to rest"), false);
	stop_ring(g);
	g->base = g->message.state.num = ring_base(g);
	return send_answer(g);
}

static enum answer get_config(struct guest *g)
{
	const uint32_t offset = g->message.config.offset, size = g->message.config.size;
	const bool fits = size <= sizeof g->message.config.bytes && offset <= 256 - size && g->message.size == 12 + size;

	for (uint32_t i = 0; fits && i < size; i++)
		g->message.config.bytes[i] = (uint8_t)rpmb_read(&g->daemon->host, g->number, VIRTIO_MMIO_CONFIG + offset + i, 1);
	g->message.size *= fits; /* (0: an error) */
	return ANSWERED;
}

static enum answer give(struct guest *g, uint64_t number)
{
	g->message.number = number;
	g->message.size = 8;
	return ANSWERED;
}

static enum answer perform(struct guest *g)
{
	const struct vu_message *m = &g->message;

	if (m->request >= UNKNOWN || m->size < requests[m->request].least || m->state.index & requests[m->request].queue)
		return REFUSED;
	switch (m->request) {
	case GET_FEATURES: return give(g, rpmb_features(&g->daemon->host, g->number) | VU_PROTOCOL_FEATURES);
	case SET_FEATURES: return set_features(g, m->number);
	case SET_OWNER: return DONE;
	case RESET_OWNER: case RESET_DEVICE: return reset(g);
	case SET_MEM_TABLE: return set_memory(g);
	case SET_VRING_NUM: g->up &= g->places == m->state.num; g->places = m->state.num; return DONE;
	case SET_VRING_ADDR: return set_addresses(g);
	case SET_VRING_BASE: return set_base(g, m->state.num);
	case GET_VRING_BASE: shut(&g->kick); g->stopping = true; g->turns = 0; return LATER;
	case SET_VRING_KICK: return set_kick(g);
	case SET_VRING_CALL: return set_fd(g, &g->call, true);
	case SET_VRING_ERR: return set_fd(g, &g->error, true);
	case GET_PROTOCOL_FEATURES: return give(g, PROTOCOL);
	case SET_PROTOCOL_FEATURES: g->protocol = m->number & PROTOCOL; return g->protocol == m->number ? DONE : REFUSED;
	case GET_QUEUE_NUM: return give(g, 1);
	case SET_VRING_ENABLE: g->enabled = m->state.num; g->more = g->running; return DONE;
	case SET_BACKEND_REQ_FD: return set_fd(g, &g->requests, false);
	case GET_CONFIG: return get_config(g);
	case GET_MAX_MEM_SLOTS: return give(g, REGIONS);
	case ADD_MEM_REG: return g->fd_count == 1 && map(g, m->slot.region, g->fds[0]) ? DONE : REFUSED;
	case REM_MEM_REG: return remove_region(g);
	case SET_STATUS: /* (QEMU also says 0 where it pauses: a ring that was stopped may go on behind it) */
		if (!(uint8_t)m->number && g->running)
			reset(g);
		g->status = (uint8_t)m->number;
		return DONE;
	case GET_STATUS:
		return give(g, g->status | (rpmb_read(&g->daemon->host, g->number, VIRTIO_MMIO_STATUS, 4) & VIRTIO_CONFIG_S_NEEDS_RESET));
	default: return REFUSED;
	}
}

static bool answer(struct guest *g)
{
	const uint32_t request = g->message.request, size = g->message.size, asks = g->message.flags & NEED_REPLY;
	const enum answer a = perform(g);

	close_fds(g);
	g->have = 0;
	if (a == REFUSED)
		COMPLAIN(g, "request %u (%s) of %u bytes is refused", request,
		         request < UNKNOWN && requests[request].name ? requests[request].name : "not supported", size);
	/* (User Mode Linux asks for an answer in the very message that negotiates it) */
	if (a == LATER || (a != ANSWERED && !(asks && g->protocol & REPLY_ACK)))
		return a != REFUSED;
	if (a != ANSWERED)
		give(g, a == REFUSED);
	return send_answer(g);
}

/* Takes what is there of one message, and no byte of the next. Its file descriptors come with one piece of it. */
bool receive(struct guest *g)
{
	_Alignas(struct cmsghdr) char control[CMSG_SPACE(sizeof g->fds)];
	struct iovec bytes = { (char *)&g->message + g->have,
	                       VU_HEADER + (g->have < VU_HEADER ? 0 : g->message.size) - g->have };
	struct msghdr m = { .msg_iov = &bytes, .msg_iovlen = 1, .msg_control = control, .msg_controllen = sizeof control };
	const ssize_t n = recvmsg(g->socket, &m, MSG_DONTWAIT | MSG_CMSG_CLOEXEC);
	const struct cmsghdr *c = n < 0 ? NULL : CMSG_FIRSTHDR(&m);
	const bool fits = !(m.msg_flags & MSG_CTRUNC) && !(c && g->fd_count);

	if (n < 0)
		return errno == EAGAIN || errno == EINTR;
	if (c) { /* (a UNIX socket gives nothing else than these, and no more than there is room for) */
		close_fds(g);
		g->fd_count = (unsigned)((c->cmsg_len - CMSG_LEN(0)) / sizeof(int));
		memcpy(g->fds, CMSG_DATA(c), g->fd_count * sizeof(int));
	}
	if (!fits || n == 0)
		return false;
	g->have += (size_t)n;
	if (g->have == VU_HEADER && ((g->message.flags & (VERSION_MASK | IS_REPLY)) != VU_VERSION ||
	                             g->message.size > sizeof g->message - VU_HEADER)) {
		COMPLAIN(g, "a message of %u bytes with the flags %#x is none", g->message.size, g->message.flags);
		return false;
	}
	return g->have < VU_HEADER || g->have < VU_HEADER + g->message.size || answer(g);
}
