/* SPDX-License-Identifier: Apache-2.0
 *
 * Guest memory, by the regions that a front end gave; and the library's device of a guest. What the front end said
 * becomes a start or a stop of it, and a kick a serve, of which each step is a copy or a call. */
#include <linux/magic.h>
#include <linux/virtio_mmio.h>
#include <sys/mman.h>
#include <sys/statfs.h>
#include <sys/syscall.h>
#include <sys/uio.h>
#include "daemon.h"

/* A file that was cut short after it was mapped ends here, on the stack of the thread that copies: what the handler needs
 * lies at that stack's far end, so there is no variable of the program for it. Another thread has no such stack. */
static void on_bus_error(int number, __attribute__((unused)) siginfo_t *what, void *context)
{
	struct guard *guard = ((ucontext_t *)context)->uc_stack.ss_sp;

	if (guard && guard->copying)
		siglongjmp(guard->past_end, 1);
	signal(number, SIG_DFL);
}

void guard_memory(struct guard *guard)
{
	const struct sigaction how = { .sa_sigaction = on_bus_error, .sa_flags = SA_SIGINFO | SA_ONSTACK | SA_NODEFER };

	if (sigaltstack(&(stack_t){ .ss_sp = guard, .ss_size = sizeof *guard }, NULL) || sigaction(SIGBUS, &how, NULL))
		REFUSE("sigaltstack or sigaction", "the system refuses it: %s", strerror(errno));
}

/* (A function of its own: what it keeps in registers isn't lost by a jump out of it.) */
static __attribute__((noinline)) uint32_t copy_all(const struct guest *g, uint64_t at, uint8_t *ours, uint32_t len,
                                                   bool to_guest)
{
	const struct guest_ram ram = { g->ram, g->region_count };

	return to_guest ? guest_copy_out(&ram, at, ours, len) : guest_copy_in(&ram, at, ours, len);
}

/* Copies between guest memory and ours, as a serve asks for it: 1; 0 where there isn't memory for all of these bytes;
 * CUT where its file was cut short. */
uint32_t copy(const struct guest *g, uint64_t at, uint8_t *ours, uint32_t len, bool to_guest)
{
	struct guard *guard = &g->daemon->guard;
	uint32_t done = CUT;

	if (!sigsetjmp(guard->past_end, 0)) {
		guard->copying = 1;
		__atomic_signal_fence(__ATOMIC_SEQ_CST); /* what is copied stays between the two */
		done = copy_all(g, at, ours, len, to_guest);
		__atomic_signal_fence(__ATOMIC_SEQ_CST);
	}
	guard->copying = 0;
	return done;
}

/* Takes a region of a memory file, which is one that has seals: one of FUSE or of a network would let its owner stop whoever
 * touches it, or asks what it is. Of hugetlbfs whole pages are mapped, and only such can be taken away again. (No region
 * reaches 2^64, so no copy comes round to 0.) */
bool map(struct guest *g, struct vu_region is, int fd)
{
	const uint64_t skipped = is.offset % LARGEST_PAGE, end = is.guest + is.size;
	uint64_t mapped = skipped + is.size;
	struct statfs system;
	struct stat file;
	bool fits = g->region_count < REGIONS && is.size <= MOST_MAPPED && end > is.guest && is.user + is.size > is.user &&
	            (is.guest | is.offset) % 8 == 0 && fcntl(fd, F_GET_SEALS) >= 0 && !fstat(fd, &file) && !fstatfs(fd, &system) &&
	            (system.f_type != HUGETLBFS_MAGIC || (is.offset + is.size) % (uint64_t)system.f_bsize == 0) &&
	            is.offset <= (uint64_t)file.st_size && is.size <= (uint64_t)file.st_size - is.offset;

	for (const struct guest_region *r = g->ram; r < g->ram + g->region_count; r++) {
		fits &= end <= r->at || is.guest >= r->at + r->len;
		mapped += g->regions[r - g->ram].offset % LARGEST_PAGE + r->len;
	}
	uint8_t *at = fits && mapped <= MOST_MAPPED ? mmap(NULL, skipped + is.size, PROT_READ | PROT_WRITE,
		MAP_SHARED | MAP_NORESERVE, fd, (off_t)(is.offset - skipped)) : MAP_FAILED;
	if (at == MAP_FAILED)
		return COMPLAIN(g, "a region of %#" PRIx64 " bytes at %#" PRIx64 " isn't taken: it has to be its own, of a memfd or of"
		                " a file of tmpfs or hugetlbfs (of whole pages), and one of %d", is.size, is.guest, REGIONS), false;
	g->regions[g->region_count] = is;
	g->ram[g->region_count++] = (struct guest_region){ is.guest, is.size, at + skipped };
	return true;
}

void unmap(struct guest *g, unsigned i)
{
	const uint64_t skipped = g->regions[i].offset % LARGEST_PAGE;

	munmap(g->ram[i].bytes - skipped, skipped + g->ram[i].len);
	g->ram[i] = g->ram[--g->region_count];
	g->regions[i] = g->regions[g->region_count];
}

/* What it has taken is answered still, and a serve of the device as it is then does away with that: until then it would
 * stand in the history that all guests share, of which there is room for so much. */
void reset_device(struct guest *g)
{
	rpmb_stop(&g->daemon->host, g->number);
	g->up = g->later = false;
	g->more = rpmb_waiting(&g->daemon->host, g->number);
	g->done = 0;
}

/* Signals an eventfd, if there is one, or what User Mode Linux has in its place: a socket (a full one has told it already).
 * A write could wait for ever: the front end may fill the counter, and take O_NONBLOCK from the description that it
 * shares. The end of an asynchronous read signals an eventfd without waiting. */
void tell(struct daemon *d, int fd)
{
	uint64_t one = 1;
	struct iocb read = {
		.aio_lio_opcode = IOCB_CMD_PREAD, .aio_fildes = (uint32_t)d->null, .aio_buf = (uintptr_t)&one,
		.aio_nbytes = 1, .aio_flags = IOCB_FLAG_RESFD, .aio_resfd = (uint32_t)fd,
	}, *its = &read;
	struct io_event over;

	if (send(fd, &one, sizeof one, MSG_DONTWAIT | MSG_NOSIGNAL) < 0 && errno == ENOTSOCK &&
	    syscall(SYS_io_submit, d->signals, 1L, &its) == 1)
		syscall(SYS_io_getevents, d->signals, 1L, 1L, &over, NULL);
}

/* Another program may have had the queue before, and ended before it called: so one call for nothing is made. */
static bool bring_up(struct guest *g)
{
	const struct rpmb_queue its = { .descriptors = g->desc, .driver = g->driver, .device = g->device, .size = g->places };

	g->up = rpmb_start(&g->daemon->host, g->number, g->features, &its) &&
	        rpmb_move(&g->daemon->host, g->number, first_place(g));
	if (g->up)
		tell(g->daemon, g->call);
	else
		COMPLAIN(g, "the device refuses the queue: %u places (256 at most) at %#" PRIx64 ", %#" PRIx64 ", %#" PRIx64
		         ", base %#x, features %#" PRIx64, g->places, g->desc, g->driver, g->device, g->base, g->features);
	return g->up;
}

/* Empties what the guest kicks, without waiting, as above. */
bool take_kick(struct guest *g)
{
	uint64_t bytes[8];
	ssize_t n = preadv2(g->kick, &(struct iovec){ bytes, sizeof bytes }, 1, -1, RWF_NOWAIT);

	if (n < 0 && errno == EOPNOTSUPP)
		n = recv(g->kick, bytes, sizeof bytes, MSG_DONTWAIT);
	g->more = true;
	return n > 0 || (n < 0 && (errno == EAGAIN || errno == EINTR));
}

static void end_serve(struct guest *g, uint32_t fault)
{
	static const uint32_t config_changed[] = { 2, VU_VERSION, 0 };
	const uint32_t line = rpmb_interrupt(&g->daemon->host, g->number);

	g->later = fault == RPMB_BUSY || fault == RPMB_HISTORY_FULL || fault == RPMB_NO_MEMORY;
	/* the shared history is full of answers of a guest whose front end keeps them from leaving: that one has to go */
	for (struct guest *o = g->daemon->guests; fault == RPMB_HISTORY_FULL && o < g->daemon->guests + g->daemon->count; o++)
		if (o->up && !(o->running && (o->enabled || o->stopping)) && rpmb_waiting(&o->daemon->host, o->number))
			COMPLAIN(o, "its ring is off while answers of it wait, and there is no room for more"), drop(o);
	if (line & VIRTIO_MMIO_INT_CONFIG) {
		COMPLAIN(g, "its driver broke the queue's rules, and its device waits for a reset");
		tell(g->daemon, g->error);
		send(g->requests, config_changed, sizeof config_changed, MSG_DONTWAIT | MSG_NOSIGNAL);
	}
	rpmb_write(&g->daemon->host, g->number, VIRTIO_MMIO_INTERRUPT_ACK, 4, line);
}

/* Serves a guest until nothing is left to do, or its turn is over. One that is gone has no ring, and no device in service. */
bool serve(struct guest *g)
{
	struct daemon *d = g->daemon;
	struct rpmb_next next = { .what = RPMB_AGAIN };

	g->more = false;
	if (!g->up && g->running && !bring_up(g))
		return false;
	for (unsigned steps = 0; next.what != RPMB_REST; steps++) {
		/* others have their turn; what was read can't wait for the next, as they use the same bytes */
		if (steps >= TURN && next.what != RPMB_READ)
			return g->more = true;
		rpmb_serve(&d->host, g->number, g->done, d->bytes, sizeof d->bytes, &next);
		if (next.what == RPMB_CALL)
			tell(d, g->call);
		if (next.what == RPMB_READ || next.what == RPMB_WRITE)
			g->done = copy(g, next.at, d->bytes, next.len, next.what == RPMB_WRITE);
		take_outbox(d);
		d->disk.wanted |= next.sync;
		if (g->done == CUT)
			return COMPLAIN(g, "the file of its memory was cut short"), false;
	}
	end_serve(g, next.fault);
	return true;
}
