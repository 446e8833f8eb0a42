/* A driver of RPMB over Linux's virtio core: one queue, any chains. */
#ifndef DRIVER_H
#define DRIVER_H
#include "shim.h"

struct counted { unsigned long answered, spoiled, wrong; };
extern struct counted driver_counts;
extern bool driver_storms;	/* answers are those of counter requests, looked at and not printed */

/* Registers Linux's own drivers and this one. */
int driver_register_all(void);
/* The device is probed, as when its module is loaded: 0, or the error. */
int driver_bring_up(int guest);
/* The driver goes, as when its module is removed. The number of chains that it never got back. */
unsigned long driver_remove(int guest);
/* A chain of these bytes and of room for `w` more, in so many pieces each. 0, or the error. */
int driver_add(int guest, long id, const u8 *bytes, size_t n, size_t w, int outs, int ins);
void driver_kick(int guest);
/* Raises the interrupt while its line is high. */
void driver_interrupts(int guest);
/* Looks at the ring without an interrupt: how many answers it found. */
unsigned long driver_look(int guest);
unsigned long driver_outstanding(int guest);
bool driver_broken(int guest);
/* Takes the available index of a split queue 300 further, which no driver does. */
void driver_spoil(int guest);
/* How often the device told that its configuration changed, as it does where it stops. */
unsigned long driver_changes(int guest);
/* Prints configuration, places of the ring, features. */
void driver_tell(int guest);
#endif
