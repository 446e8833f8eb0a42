/* SPDX-License-Identifier: Apache-2.0
 *
 * A guest's RAM as its monitor has it mapped, and the copies that a serve of rpmb_host.h asks for. The guest's
 * processors may run meanwhile. */
#ifndef GUEST_RAM_H
#define GUEST_RAM_H
#include <stdatomic.h>
#include <stddef.h>
#include <stdint.h>
#include <string.h>

/* RAM from a guest address on, and where it is mapped: both are multiples of 8, as pages are. */
struct guest_region {
	uint64_t at, len;
	unsigned char *bytes;
};

struct guest_ram {
	const struct guest_region *regions;
	size_t count;
};

typedef uint16_t __attribute__((may_alias)) guest_u16;
typedef uint32_t __attribute__((may_alias)) guest_u32;
typedef uint64_t __attribute__((may_alias)) guest_u64;

/* One access, where 2, 4 or 8 bytes lie at a multiple of that: else a driver might see half of an index. */
static inline void guest_load(void *to, const unsigned char *from, size_t len)
{
	if (len == 2 && (uintptr_t)from % 2 == 0)
		memcpy(to, &(uint16_t){ __atomic_load_n((const guest_u16 *)from, __ATOMIC_RELAXED) }, 2);
	else if (len == 4 && (uintptr_t)from % 4 == 0)
		memcpy(to, &(uint32_t){ __atomic_load_n((const guest_u32 *)from, __ATOMIC_RELAXED) }, 4);
	else if (len == 8 && (uintptr_t)from % 8 == 0)
		memcpy(to, &(uint64_t){ __atomic_load_n((const guest_u64 *)from, __ATOMIC_RELAXED) }, 8);
	else
		memcpy(to, from, len);
}

static inline void guest_store(unsigned char *to, const void *from, size_t len)
{
	uint16_t two;
	uint32_t four;
	uint64_t eight;

	if (len == 2 && (uintptr_t)to % 2 == 0)
		memcpy(&two, from, 2), __atomic_store_n((guest_u16 *)to, two, __ATOMIC_RELAXED);
	else if (len == 4 && (uintptr_t)to % 4 == 0)
		memcpy(&four, from, 4), __atomic_store_n((guest_u32 *)to, four, __ATOMIC_RELAXED);
	else if (len == 8 && (uintptr_t)to % 8 == 0)
		memcpy(&eight, from, 8), __atomic_store_n((guest_u64 *)to, eight, __ATOMIC_RELAXED);
	else
		memcpy(to, from, len);
}

/* The first byte's place, and in `len` no more than lie behind it in one region; NULL: there is no RAM. */
static inline unsigned char *guest_part(const struct guest_ram *ram, uint64_t at, size_t *len)
{
	for (const struct guest_region *it = ram->regions; it < ram->regions + ram->count; it++)
		if (at >= it->at && at - it->at < it->len) {
			if (*len > it->len - (at - it->at))
				*len = it->len - (at - it->at);
			return it->bytes + (at - it->at);
		}
	return NULL;
}

/* Whether there is RAM for each of these bytes: several regions may follow one another. */
static inline int guest_has(const struct guest_ram *ram, uint64_t at, size_t len)
{
	for (size_t part = len; len; at += part, len -= part, part = len)
		if (!guest_part(ram, at, &part))
			return 0;
	return 1;
}

/* What RPMB_READ asks for, and the answer to it: 1, or 0 where there isn't RAM for all of it. No later access goes before
 * the reads. */
static inline uint32_t guest_copy_in(const struct guest_ram *ram, uint64_t at, unsigned char *to, size_t len)
{
	if (!guest_has(ram, at, len))
		return 0;
	for (size_t part = len; len; at += part, to += part, len -= part, part = len) {
		const unsigned char *from = guest_part(ram, at, &part); /* (before `part` is read) */
		guest_load(to, from, part);
	}
	atomic_thread_fence(memory_order_acquire);
	return 1;
}

/* The same of RPMB_WRITE. No earlier access goes behind the writes, and no later one before them: the second takes a full
 * fence, since a read goes before a write on most processors. */
static inline uint32_t guest_copy_out(const struct guest_ram *ram, uint64_t at, const unsigned char *from, size_t len)
{
	if (!guest_has(ram, at, len))
		return 0;
	atomic_thread_fence(memory_order_release);
	for (size_t part = len; len; at += part, from += part, len -= part, part = len) {
		unsigned char *to = guest_part(ram, at, &part); /* (before `part` is read) */
		guest_store(to, from, part);
	}
	atomic_thread_fence(memory_order_seq_cst);
	return 1;
}
#endif
