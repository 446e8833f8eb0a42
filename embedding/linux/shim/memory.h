/* Memory of the guests, and the DMA calls. */
#ifndef SHIM_MEMORY_H
#define SHIM_MEMORY_H

#define SHIM_GUESTS 4
/* A guest has two pieces of RAM, below and above 4 GiB, and no memory elsewhere: who touches that is killed. What it
 * allocates stands in either by turns. */
#define SHIM_LOW 0x100000UL
#define SHIM_HIGH 0x140000000UL
#define SHIM_SPACE 0x180000000UL
struct ram {
	u8 *base;	/* the byte of guest address 0 */
	size_t size;	/* of each piece */
	bool bounced;	/* mappings are copied in, and nothing else stands there */
};
extern struct ram rams[SHIM_GUESTS];
extern int shim_guest;
extern unsigned long shim_maps;	/* mappings that were copied in */

void shim_ram(int guest, size_t size, bool bounced);
void *shim_ram_alloc(size_t size, size_t align);
void *shim_alloc(size_t size, size_t align);
void shim_free(void *p);
u64 virt_to_phys(const void *p);

#define PAGE_SHIFT 12
#define PAGE_SIZE 4096UL
#define PAGE_MASK (~(PAGE_SIZE - 1))
#define PAGE_ALIGN(x) (((x) + PAGE_SIZE - 1) & PAGE_MASK)
#define offset_in_page(p) ((unsigned long)(p) % PAGE_SIZE)

static inline void *shim_cleared(void *p, size_t size)
{
	return p ? memset(p, 0, size) : p;
}
static inline void *kmalloc(size_t size, gfp_t flags)
{
	void *p = shim_alloc(size, 16);
	return flags & __GFP_ZERO ? shim_cleared(p, size) : p;
}
static inline void *kzalloc(size_t size, gfp_t flags) { return kmalloc(size, flags | __GFP_ZERO); }
static inline void *kmalloc_array(size_t n, size_t s, gfp_t flags) { return kmalloc(n * s, flags); }
static inline void *kcalloc(size_t n, size_t s, gfp_t flags) { return kzalloc(n * s, flags); }
static inline void kfree(const void *p) { shim_free((void *)p); }
static inline void *alloc_pages_exact(size_t size, gfp_t flags)
{
	void *p = shim_ram_alloc(size, PAGE_SIZE);
	return flags & __GFP_ZERO ? shim_cleared(p, size) : p;
}
static inline void free_pages_exact(void *p, size_t size)
{
	(void)size;
	shim_free(p);
}

struct page { u64 dummy; };
#define virt_to_page(p) ((struct page *)((unsigned long)(p) & PAGE_MASK))
/* of a page whose first bytes may stand before a piece: the buffer's own offset is added */
static inline u64 page_to_phys(struct page *p)
{
	return (u64)((const u8 *)p - rams[shim_guest].base);
}
#define kmsan_handle_dma(a, b, c, d) do { } while (0)
#define xen_domain() 0

enum dma_data_direction { DMA_BIDIRECTIONAL, DMA_TO_DEVICE, DMA_FROM_DEVICE, DMA_NONE };
struct device;
dma_addr_t shim_dma_map(void *p, size_t size);
void shim_dma_unmap(dma_addr_t a, enum dma_data_direction dir);
#define DMA_BIT_MASK(n) (~0ULL >> (64 - (n)))
#define DMA_MAPPING_ERROR (~(dma_addr_t)0)
static inline void *dma_alloc_coherent(struct device *d, size_t size, dma_addr_t *at, gfp_t flags)
{
	(void)d;
	void *p = alloc_pages_exact(PAGE_ALIGN(size), flags | __GFP_ZERO);
	if (p) *at = virt_to_phys(p);
	return p;
}
static inline void dma_free_coherent(struct device *d, size_t size, void *p, dma_addr_t at)
{
	(void)d;
	(void)size;
	(void)at;
	shim_free(p);
}
#define dma_map_page(d, p, o, s, dir) ((void)(d), shim_dma_map((u8 *)(p) + (o), s))
#define dma_map_single(d, p, s, dir) ((void)(d), shim_dma_map(p, s))
#define dma_map_single_attrs(d, p, s, dir, a) ((void)(d), shim_dma_map(p, s))
#define dma_mapping_error(d, a) ((void)(d), (a) == DMA_MAPPING_ERROR)
#define dma_unmap_single(d, a, s, dir) ((void)(d), shim_dma_unmap(a, dir))
#define dma_unmap_page(d, a, s, dir) ((void)(d), shim_dma_unmap(a, dir))
#define dma_unmap_single_attrs(d, a, s, dir, t) ((void)(d), shim_dma_unmap(a, dir))
#define dma_max_mapping_size(d) SIZE_MAX
#define dma_need_sync(d, a) 0
#define dma_sync_single_range_for_cpu(d, a, o, s, r) do { } while (0)
#define dma_sync_single_range_for_device(d, a, o, s, r) do { } while (0)
#define dma_set_mask(d, m) 0
#define dma_set_coherent_mask(d, m) 0
#define dma_set_mask_and_coherent(d, m) 0
#endif
