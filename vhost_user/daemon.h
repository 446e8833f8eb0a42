/* SPDX-License-Identifier: Apache-2.0
 *
 * What the parts of vhost-user-rpmb share, and what they use of the vhost-user protocol (QEMU's
 * docs/interop/vhost-user.rst), whose numbers have the machine's byte order. */
#ifndef DAEMON_H
#define DAEMON_H
#include <errno.h>
#include <fcntl.h>
#include <inttypes.h>
#include <linux/aio_abi.h>
#include <setjmp.h>
#include <signal.h>
#include <stdbool.h>
#include <stdio.h>
#include <stdlib.h>
#include <sys/socket.h>
#include <sys/stat.h>
#include <unistd.h>
#include "guest_ram.h"
#include "rpmb_host.h"

/* A turn is so many steps of a serve; a ring that is stopped comes to rest within so many turns; of a guest's faults so many
 * are told; so many writes are made before a sync. What came of a copy is CUT where the file was cut short. */
enum { GUESTS = 64, REGIONS = 32, TURN = 512, STOP_TURNS = 1024, TEXTS = 200, WRITES = 1024, CUT = 2 };
enum { VU_FDS = 8, VU_HEADER = 12, VU_VERSION = 1 };
/* at whose multiples a map may begin, whatever its pages; and what a guest may take of our 128 TiB of addresses */
#define LARGEST_PAGE (1ull << 30)
#define MOST_MAPPED  (1ull << 40)
/* a bit of the features beside those of virtio */
#define VU_PROTOCOL_FEATURES (1ull << 30)

struct vu_region { uint64_t guest, size, user, offset; };

struct vu_message {
	uint32_t request, flags, size;
	union {
		uint64_t number;
		struct { uint32_t index, num; } state;
		struct { uint32_t index, flags; uint64_t desc, used, avail, log; } ring;
		struct { uint32_t count, spare; struct vu_region regions[VU_FDS]; } memory;
		struct { uint64_t spare; struct vu_region region; } slot;
		struct { uint32_t offset, size, flags; uint8_t bytes[256]; } config;
	} __attribute__((packed));
} __attribute__((packed));

struct guest {
	struct daemon *daemon;
	const char *name;              /* its socket, for texts */
	uint16_t number;
	int listener, socket, kick, call, error, requests;
	unsigned texts, region_count, fd_count, turns;
	struct vu_region regions[REGIONS];
	struct guest_region ram[REGIONS]; /* each where a region is mapped, behind the last place for a page of any size */
	uint64_t features, protocol, desc, driver, device; /* the queue's areas, by guest addresses */
	uint32_t places, base;         /* its size, and the base that was set or told last */
	uint32_t done;                 /* what became of what its serve asked for last */
	uint8_t status;
	bool is_path, enabled;         /* the socket is our own; by SET_VRING_ENABLE */
	bool running, stopping;        /* from SET_VRING_KICK to GET_VRING_BASE, which is answered behind all chains */
	bool up;                       /* the library's device is in service as all this says */
	bool more, later;              /* to be served now; once something changed */
	struct vu_message message;     /* as much of it as came */
	size_t have;
	int fds[VU_FDS];
};

/* Writes of the image that are to be made, one behind another. */
struct batch {
	size_t count;
	struct { uint64_t at; size_t len; uint8_t bytes[RPMB_LARGEST_WRITE]; } writes[WRITES];
};

struct disk {
	const char *path;
	int file, start, over, error;  /* the image; eventfds that begin a sync, and tell its end; how it ended */
	bool wanted, busy, failed;
	unsigned next;                 /* the batch that grows; the other one is the thread's while `busy` */
	struct batch batches[2];
};

struct daemon {
	struct rpmb_guest board[GUESTS];
	struct guest guests[GUESTS];
	unsigned count;
	bool ends;                     /* TERM or INT came */
	struct rpmb_host host;
	struct disk disk;
	aio_context_t signals;         /* by which eventfds are signalled */
	int null;
	_Alignas(8) uint8_t bytes[RPMB_LARGEST_PART];
	/* the stack of a bus error's handler, which grows down towards what it needs */
	struct guard { sigjmp_buf past_end; volatile sig_atomic_t copying; uint8_t stack[65536]; } guard;
};

#define SAY(what, text, ...) fprintf(stderr, "vhost-user-rpmb: %s: " text "\n", what, ##__VA_ARGS__)
/* what is wrong with what, and what helps */
#define REFUSE(...) (SAY(__VA_ARGS__), exit(1))
/* (a front end that does wrong can't fill a log) */
#define COMPLAIN(g, ...) ((g)->texts++ < TEXTS ? SAY((g)->name, __VA_ARGS__) : 0)

/* device.c: guest memory, the library's device, and its serves. False: the front end is to be dropped. */
void guard_memory(struct guard *guard);
bool map(struct guest *g, struct vu_region is, int fd);
void unmap(struct guest *g, unsigned i);
uint32_t copy(const struct guest *g, uint64_t at, uint8_t *ours, uint32_t len, bool to_guest);
void tell(struct daemon *d, int fd);
void reset_device(struct guest *g);
bool take_kick(struct guest *g);
bool serve(struct guest *g);

/* session.c: what the front end says */
uint16_t first_place(const struct guest *g);
bool receive(struct guest *g);
bool end_stop(struct guest *g);
void drop(struct guest *g);

/* image.c: the file, and the thread that writes and syncs it */
void open_image(struct daemon *d, bool format);
void take_outbox(struct daemon *d);
void begin_sync(struct daemon *d, bool is_idle);
void end_sync(struct daemon *d);
#endif
