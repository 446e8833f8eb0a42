/* The monitor's half: a board over an image's file, and a thread that serves its guests while their processors run. */
#ifndef MONITOR_H
#define MONITOR_H
#include <stdbool.h>
#include <stddef.h>
#include <stdint.h>
#include "guest_ram.h"
#include "rpmb_host.h"

#define MONITOR_GUESTS 4

struct monitor_options {
	bool ordered;	/* writes are made in their order, not shuffled between two syncs */
};
struct monitor_counts {
	unsigned long reads, writes, kicks, serves, calls, interrupts, copied_in, copied_out;
	unsigned long outbox, overlaps, late, syncs, faults;
	uint64_t register_ns, copy_ns, serve_ns, disk_ns;
};
extern struct monitor_options monitor_options;
extern struct monitor_counts monitor_counts;

/* Opens the board, over a fresh image where `format` is. A refusal ends the program with a text. */
void monitor_open(const struct rpmb_guest *guests, size_t count, const char *path, bool format);
/* Closes the board and its file, as a stop does: what isn't synced is left as it is. */
void monitor_close(void);
/* A stop between two syncs: some of the writes are made, in any order, and one of them in part. */
void monitor_stop(void);
/* Where the guest has RAM. */
void monitor_ram(int guest, const struct guest_region *regions, size_t count);
/* Begins the thread that serves the guests. All below may be called while it runs. */
void monitor_start(void);

/* Exits. A write to QueueNotify has the queue served, and doesn't wait. */
uint32_t monitor_read(int guest, uint32_t offset, uint8_t width);
void monitor_write(int guest, uint32_t offset, uint8_t width, uint32_t value);
/* Whether the guest's interrupt line is high. */
bool monitor_line(int guest);
/* Waits until a line is high or no guest is left to be served: whether that is so. */
bool monitor_wait(void);
/* Waits until none is. Opening, closing and stops come behind that alone. */
void monitor_rest(void);
/* Has the writes and at most so many syncs made, while one is awaited, and the guests that wait served. */
void monitor_settle(int syncs);
/* Whether a sync is awaited. */
bool monitor_awaits(void);
/* The writes before the next sync fail, after some were made: the library is told that they did. */
void monitor_fail(void);
/* How many chains of the guest were taken since its device was reset. */
unsigned long monitor_taken(int guest);
/* A fault that its serves told and that wasn't asked for here, or RPMB_OK. */
uint32_t monitor_fault(int guest);
/* Nanoseconds of a call, over n each: a read of Status, a write of QueueSel, a serve of nothing. */
void monitor_times(long n, double *read, double *write, double *nothing);
#endif
