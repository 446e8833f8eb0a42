/* The rest of the shim: the allocator of guests' RAM, bounce buffers, the bus, interrupts. */
#include "shim.h"
#include <sys/mman.h>

struct ram rams[SHIM_GUESTS];
int shim_guest;
unsigned long shim_warnings, shim_maps;

void shim_bug(const char *file, int line)
{
	fprintf(stderr, "BUG %s:%d\n", file, line);
	exit(70);
}
int shim_warn(const char *file, int line)
{
	shim_warnings++;
	return fprintf(stderr, "WARN %s:%d\n", file, line);
}

/* first fit over a list of blocks, each 16 bytes of head before its bytes */
struct block { size_t size, used; };
static struct block *after(struct block *b) { return (struct block *)((u8 *)(b + 1) + b->size); }
static bool inside(const struct ram *w, const void *p)
{
	return (const u8 *)p >= w->base && (const u8 *)p < w->base + SHIM_SPACE;
}
static u8 *piece(const struct ram *w, int i) { return w->base + (i ? SHIM_HIGH : SHIM_LOW); }

void shim_ram(int guest, size_t size, bool bounced)
{
	struct ram *w = &rams[guest];
	if (!w->base) {
		w->base = mmap(NULL, SHIM_SPACE, PROT_NONE, MAP_PRIVATE | MAP_ANONYMOUS | MAP_NORESERVE,
			       -1, 0);
		if (w->base == MAP_FAILED) BUG();
	}
	w->size = size;
	w->bounced = bounced;
	for (int i = 0; i < 2; i++) {
		if (mprotect(piece(w, i), PAGE_ALIGN(size), PROT_READ | PROT_WRITE)) BUG();
		memset(piece(w, i), 0, size);
		*(struct block *)piece(w, i) = (struct block){ size - sizeof(struct block), 0 };
	}
}

/* Cuts what the block has too much: before an aligned place, and behind the size. */
static void *taken(struct block *b, size_t size, size_t align)
{
	u8 *start = (u8 *)(b + 1);
	u8 *at = (u8 *)(((uintptr_t)start + align - 1) & ~(uintptr_t)(align - 1));
	while (at != start && (size_t)(at - start) < sizeof(*b) + 16) at += align;
	if (at + size > start + b->size) return NULL;
	if (at != start) {
		struct block *n = (struct block *)at - 1;
		*n = (struct block){ b->size - (size_t)(at - start), 0 };
		b->size = (size_t)((u8 *)n - start);
		b = n;
	}
	if (b->size >= size + sizeof(*b) + 16) {
		struct block *n = (struct block *)((u8 *)(b + 1) + size);
		*n = (struct block){ b->size - size - sizeof(*b), 0 };
		b->size = size;
	}
	b->used = 1;
	return b + 1;
}

static void *alloc_in(u8 *from, u8 *end, size_t size, size_t align)
{
	for (struct block *b = (struct block *)from; (u8 *)b < end; b = after(b)) {
		if (b->used) continue;
		while ((u8 *)after(b) < end && !after(b)->used)
			b->size += sizeof(*b) + after(b)->size;
		void *p = taken(b, size, align);
		if (p) return p;
	}
	return NULL;
}

void *shim_ram_alloc(size_t size, size_t align)
{
	static int turn;
	const struct ram *w = &rams[shim_guest];
	void *p = NULL;
	size = size ? (size + 15) & ~15UL : 16;
	turn++;
	for (int i = 0; i < 2 && !p; i++) {
		u8 *from = piece(w, (turn + i) % 2);
		p = alloc_in(from, from + w->size, size, align);
	}
	return p;
}

void *shim_alloc(size_t size, size_t align)
{
	if (!rams[shim_guest].bounced) return shim_ram_alloc(size, align);
	return aligned_alloc(align, size ? (size + align - 1) / align * align : align);
}

void shim_free(void *p)
{
	for (int g = 0; g < SHIM_GUESTS; g++)
		if (p && inside(&rams[g], p)) {
			((struct block *)p - 1)->used = 0;
			return;
		}
	free(p);
}

u64 virt_to_phys(const void *p)
{
	BUG_ON(!inside(&rams[shim_guest], p));
	return (u64)((const u8 *)p - rams[shim_guest].base);
}

/* bounce buffers */
#define MAPS 16384
static struct { u8 *slot, *from; size_t size; } maps[MAPS];

dma_addr_t shim_dma_map(void *p, size_t size)
{
	int i = 0;
	while (i < MAPS && maps[i].slot) i++;
	u8 *slot = i < MAPS ? shim_ram_alloc(size, 16) : NULL;
	if (!slot) return DMA_MAPPING_ERROR;
	maps[i].slot = slot;
	maps[i].from = p;
	maps[i].size = size;
	memcpy(slot, p, size);
	shim_maps++;
	return virt_to_phys(slot);
}

void shim_dma_unmap(dma_addr_t a, enum dma_data_direction dir)
{
	u8 *slot = rams[shim_guest].base + a;
	for (int i = 0; i < MAPS; i++)
		if (maps[i].slot == slot) {
			if (dir != DMA_TO_DEVICE) memcpy(maps[i].from, slot, maps[i].size);
			shim_free(slot);
			maps[i].slot = NULL;
			return;
		}
	BUG();
}

/* one bus, one driver, a device a guest */
static struct bus_type *the_bus;
static struct device_driver *the_driver;
static struct platform_driver *the_platform_driver;
int shim_probe_status;

int bus_register(struct bus_type *b)
{
	the_bus = b;
	return 0;
}
int driver_register(struct device_driver *d)
{
	the_driver = d;
	return 0;
}
int platform_driver_register(struct platform_driver *d)
{
	the_platform_driver = d;
	return 0;
}
struct platform_driver *shim_platform_driver(void) { return the_platform_driver; }

int dev_set_name(struct device *d, const char *format, ...)
{
	va_list l;
	va_start(l, format);
	vsnprintf(d->name, sizeof d->name, format, l);
	va_end(l);
	return 0;
}
int device_add(struct device *d)
{
	d->driver = the_driver;
	shim_probe_status = the_bus->match(d, the_driver) ? the_bus->probe(d) : -ENODEV;
	if (shim_probe_status) d->driver = NULL;
	return 0;
}
void device_unregister(struct device *d)
{
	if (d->driver) the_bus->remove(d);
	if (d->release) d->release(d);
}
void put_device(struct device *d)
{
	if (d->release) d->release(d);
}

/* an interrupt line a guest */
static struct { irqreturn_t (*handler)(int, void *); void *opaque; } lines[SHIM_GUESTS];

int request_irq(int irq, irqreturn_t (*handler)(int, void *), int flags, const char *name,
		void *opaque)
{
	(void)flags;
	(void)name;
	lines[irq].handler = handler;
	lines[irq].opaque = opaque;
	return 0;
}
void free_irq(int irq, void *opaque)
{
	(void)opaque;
	lines[irq].handler = NULL;
}
int shim_interrupt(int irq)
{
	return lines[irq].handler ? lines[irq].handler(irq, lines[irq].opaque) : IRQ_NONE;
}
