/* What Linux's virtio core, its rings and its MMIO transport want of a kernel, in user space.
 *
 * One thread runs all guests, beside the monitor's, and it has no interrupts of its own: the program
 * raises them. There are some guests, each with one device and two pieces of RAM. Code of a guest runs
 * with `shim_guest` set to its number, and what it allocates stands in its RAM; where its device has
 * VIRTIO_F_ACCESS_PLATFORM, it stands outside, and the DMA calls copy each mapping into the RAM and
 * back, as restricted DMA does. */
#ifndef SHIM_H
#define SHIM_H
#include <errno.h>
#include <limits.h>
#include <stdarg.h>
#include <stdbool.h>
#include <stddef.h>
#include <stdint.h>
#include <stdio.h>
#include <stdlib.h>
#include <string.h>
#include <sys/types.h>

typedef uint8_t u8;
typedef uint16_t u16;
typedef uint32_t u32;
typedef uint64_t u64;
typedef int8_t s8;
typedef int16_t s16;
typedef int32_t s32;
typedef int64_t s64;
typedef uint8_t __u8;
typedef uint16_t __u16;
typedef uint32_t __u32;
typedef unsigned long long __u64;
typedef __u16 __le16, __be16;
typedef __u32 __le32, __be32;
typedef __u64 __le64, __be64;
typedef unsigned int gfp_t;
typedef u64 dma_addr_t;
typedef u64 phys_addr_t;
typedef s64 ktime_t;

#define __bitwise
#define __force
#define __iomem
#define __user
#define __init
#define __exit
#define __maybe_unused __attribute__((unused))
#define __used __attribute__((used))
#define __always_unused __attribute__((unused))
#define __printf(a, b) __attribute__((format(printf, a, b)))
#define GFP_KERNEL 0
#define GFP_ATOMIC 0
#define __GFP_NOWARN 0
#define __GFP_ZERO 1
#define __GFP_HIGHMEM 0

#define likely(x) __builtin_expect(!!(x), 1)
#define unlikely(x) __builtin_expect(!!(x), 0)
#define BIT(n) (1UL << (n))
#define BIT_ULL(n) (1ULL << (n))
#define ARRAY_SIZE(x) (sizeof(x) / sizeof((x)[0]))
#define BUILD_BUG_ON(c) ((void)sizeof(char[1 - 2 * !!(c)]))
void shim_bug(const char *file, int line);
int shim_warn(const char *file, int line);
extern unsigned long shim_warnings;
#define BUG() shim_bug(__FILE__, __LINE__)
#define BUG_ON(c) do { if (c) BUG(); } while (0)
#define WARN_ON(c) ({ bool __w = !!(c); if (__w) shim_warn(__FILE__, __LINE__); __w; })
#define WARN_ON_ONCE(c) WARN_ON(c)
#define panic(...) BUG()
#define might_sleep() do { } while (0)
#define EXPORT_SYMBOL_GPL(x)
#define EXPORT_SYMBOL(x)
#define MODULE_LICENSE(x)
#define MODULE_AUTHOR(x)
#define MODULE_DESCRIPTION(x)
#define MODULE_DEVICE_TABLE(a, b)
#define THIS_MODULE NULL
#define module_init(f) int shim_init_##f(void) { return f(); }
#define core_initcall(f) int shim_init_##f(void) { return f(); }
#define module_exit(f) void shim_exit_##f(void) { f(); }
#define READ_ONCE(x) (*(const volatile typeof(x) *)&(x))
#define WRITE_ONCE(x, v) (*(volatile typeof(x) *)&(x) = (v))
#define container_of(ptr, type, member) ({ \
	const typeof(((type *)0)->member) *__m = (ptr); \
	(type *)((char *)__m - offsetof(type, member)); })
#define min(x, y) ({ typeof(x) _a = (x); typeof(y) _b = (y); _a < _b ? _a : _b; })
#define max(x, y) ({ typeof(x) _a = (x); typeof(y) _b = (y); _a > _b ? _a : _b; })
#define barrier() __asm__ __volatile__("" ::: "memory")
#define mb() __sync_synchronize()
#define virt_mb() __sync_synchronize()
#define virt_rmb() barrier()
#define virt_wmb() barrier()
#define dma_rmb() barrier()
#define dma_wmb() barrier()
#define virt_store_mb(var, value) do { WRITE_ONCE(var, value); mb(); } while (0)
#define synchronize_rcu() do { } while (0)
#define data_race(x) (x)
#define dev_err(dev, ...) ((void)(dev), fprintf(stderr, __VA_ARGS__))
#define dev_warn(dev, ...) ((void)(dev), fprintf(stderr, __VA_ARGS__))
#define dev_warn_once(dev, ...) ((void)(dev), fprintf(stderr, __VA_ARGS__))
#define pr_err(...) fprintf(stderr, __VA_ARGS__)
#define pr_info(...) fprintf(stderr, __VA_ARGS__)
#define pr_debug(...) do { } while (0)

/* a machine of little endian */
#define le16_to_cpu(x) ((u16)(x))
#define le32_to_cpu(x) ((u32)(x))
#define le64_to_cpu(x) ((u64)(x))
#define cpu_to_le16(x) ((u16)(x))
#define cpu_to_le32(x) ((u32)(x))
#define cpu_to_le64(x) ((u64)(x))
#define be16_to_cpu(x) __builtin_bswap16(x)
#define be32_to_cpu(x) __builtin_bswap32(x)
#define be64_to_cpu(x) __builtin_bswap64(x)
#define cpu_to_be16(x) __builtin_bswap16(x)
#define cpu_to_be32(x) __builtin_bswap32(x)
#define cpu_to_be64(x) __builtin_bswap64(x)
#ifndef __LITTLE_ENDIAN
#define __LITTLE_ENDIAN 1234
#endif

/* errors as pointers */
static inline void *ERR_PTR(long e) { return (void *)e; }
static inline long PTR_ERR(const void *p) { return (long)p; }
static inline bool IS_ERR(const void *p) { return (unsigned long)p >= (unsigned long)-4095; }

/* lists */
struct list_head { struct list_head *next, *prev; };
static inline void INIT_LIST_HEAD(struct list_head *l) { l->next = l->prev = l; }
static inline void list_add_tail(struct list_head *n, struct list_head *h)
{
	n->prev = h->prev;
	n->next = h;
	h->prev->next = n;
	h->prev = n;
}
static inline void list_del(struct list_head *e)
{
	e->prev->next = e->next;
	e->next->prev = e->prev;
	e->next = e->prev = NULL;
}
#define list_entry(p, t, m) container_of(p, t, m)
#define list_for_each_entry(pos, head, m) \
	for (pos = list_entry((head)->next, typeof(*pos), m); &pos->m != (head); \
	     pos = list_entry(pos->m.next, typeof(*pos), m))
#define list_for_each_entry_safe(pos, n, head, m) \
	for (pos = list_entry((head)->next, typeof(*pos), m), \
	     n = list_entry(pos->m.next, typeof(*pos), m); &pos->m != (head); \
	     pos = n, n = list_entry(n->m.next, typeof(*n), m))

/* locks: one thread runs the guests */
typedef struct { int held; } spinlock_t;
#define spin_lock_init(l) ((l)->held = 0)
#define spin_lock(l) ((void)(l))
#define spin_unlock(l) ((void)(l))
#define spin_lock_irq(l) ((void)(l))
#define spin_unlock_irq(l) ((void)(l))
#define spin_lock_irqsave(l, f) ((void)(l), (f) = 0)
#define spin_unlock_irqrestore(l, f) ((void)(l), (void)(f))

#include "memory.h"
#include "devices.h"
#endif
