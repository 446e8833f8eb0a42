#include "driver.h"
#include "monitor.h"
#include <linux/virtio.h>
#include <linux/virtio_config.h>
#include <linux/virtio_ring.h>
#include <uapi/linux/virtio_ids.h>
#include <uapi/linux/virtio_ring.h>

int shim_init_virtio_init(void);
int shim_init_virtio_mmio_init(void);

struct request {
	long id;
	int guest;
	u8 *out, *in, *sent;
	size_t out_length, in_length;
	struct request *next;
};
static struct rpmb {
	struct platform_device platform;
	struct virtio_device *device;
	struct virtqueue *queue;
	struct request *outstanding;
	unsigned long configured;
} drivers[SHIM_GUESTS];
struct counted driver_counts;
bool driver_storms;

static void forget(struct request *r)
{
	struct request **p = &drivers[r->guest].outstanding;
	while (*p && *p != r) p = &(*p)->next;
	if (*p) *p = r->next;
	kfree(r->out);
	kfree(r->in);
	free(r->sent);
	free(r);
}

#define FILL 0xaa
/* What the device may not write: the request, and the room behind the answer. */
static bool is_spoiled(const struct request *r, size_t length)
{
	if (length > r->in_length || memcmp(r->out, r->sent, r->out_length)) return true;
	for (size_t i = length; i < r->in_length; i++)
		if (r->in[i] != FILL) return true;
	return false;
}

static void print_answer(const struct request *r, size_t length)
{
	static const char digits[] = "0123456789abcdef";
	static char text[2 * 65536 + 1];
	size_t n = length < r->in_length ? length : r->in_length;
	for (size_t i = 0; i < n; i++) {
		text[2 * i] = digits[r->in[i] >> 4];
		text[2 * i + 1] = digits[r->in[i] & 15];
	}
	text[2 * n] = 0;
	printf("used %d %ld %zu %s\n", r->guest, r->id, length, n ? text : "-");
}

/* A counter's answer repeats its nonce; its result is OK, or that there is no key. */
static bool is_counter(const struct request *r, size_t length)
{
	const u8 *a = r->in;
	return length == 512 && !memcmp(a + 484, r->sent + 484, 16) && a[510] == 2 && a[511] == 0 &&
	       a[508] == 0 && (a[509] == 0 || a[509] == 7);
}

static void answered(struct virtqueue *queue)
{
	struct request *r;
	unsigned int length;
	do {
		virtqueue_disable_cb(queue);
		while ((r = virtqueue_get_buf(queue, &length))) {
			if (!driver_storms) print_answer(r, length);
			else driver_counts.wrong += !is_counter(r, length);
			driver_counts.answered++;
			driver_counts.spoiled += is_spoiled(r, length);
			forget(r);
		}
	} while (!virtqueue_enable_cb(queue));
}

static int probe(struct virtio_device *device)
{
	struct rpmb *d = &drivers[shim_guest];
	d->queue = virtio_find_single_vq(device, answered, "requests");
	if (IS_ERR(d->queue)) {
		int e = PTR_ERR(d->queue);
		d->queue = NULL;
		return e;
	}
	virtio_device_ready(device);
	return 0;
}

static void remove_device(struct virtio_device *device)
{
	struct rpmb *d = &drivers[shim_guest];
	struct request *r;
	virtio_reset_device(device);
	while ((r = virtqueue_detach_unused_buf(d->queue))) forget(r);
	device->config->del_vqs(device);
	d->queue = NULL;
}

static void changed(struct virtio_device *device)
{
	(void)device;
	drivers[shim_guest].configured++;
}

static const struct virtio_device_id ids[] = { { 28, VIRTIO_DEV_ANY_ID }, { 0 } };
static struct virtio_driver rpmb_driver = {
	.driver.name = "rpmb",
	.id_table = ids,
	.probe = probe,
	.config_changed = changed,
	.remove = remove_device,
};

int driver_register_all(void)
{
	shim_init_virtio_init();
	shim_init_virtio_mmio_init();
	return register_virtio_driver(&rpmb_driver);
}

int driver_bring_up(int guest)
{
	struct rpmb *d = &drivers[guest];
	shim_guest = guest;
	d->platform.name = "virtio-mmio";
	d->platform.id = guest;
	int e = shim_platform_driver()->probe(&d->platform);
	if (e) return e;
	/* struct virtio_mmio_device begins with its virtio_device */
	d->device = (struct virtio_device *)d->platform.dev.driver_data;
	return shim_probe_status;
}

unsigned long driver_outstanding(int guest)
{
	unsigned long n = 0;
	for (struct request *r = drivers[guest].outstanding; r; r = r->next) n++;
	return n;
}

unsigned long driver_remove(int guest)
{
	unsigned long n = driver_outstanding(guest);
	shim_guest = guest;
	unregister_virtio_device(drivers[guest].device);
	return n;
}

static struct request *make_request(int guest, const u8 *bytes, size_t n, size_t w)
{
	struct request *r = calloc(1, sizeof *r);
	r->guest = guest;
	r->out_length = n;
	r->in_length = w;
	r->out = kmalloc(n, 0);
	r->in = kmalloc(w, 0);
	r->sent = malloc(n + 1);
	if (!r->out || !r->in || !r->sent) {
		forget(r);
		return NULL;
	}
	memcpy(r->out, bytes, n);
	memcpy(r->sent, bytes, n);
	memset(r->in, FILL, w);
	return r;
}

static void cut(struct scatterlist *sg, u8 *bytes, size_t n, int pieces)
{
	size_t each = n / pieces, at = 0;
	sg_init_table(sg, pieces);
	for (int i = 0; i < pieces; i++) {
		size_t m = i == pieces - 1 ? n - at : each;
		sg_set_buf(&sg[i], bytes + at, m);
		at += m;
	}
}

int driver_add(int guest, long id, const u8 *bytes, size_t n, size_t w, int outs, int ins)
{
	struct scatterlist out[64], in[64], *all[2];
	unsigned int a = 0, b = 0;
	shim_guest = guest;
	struct request *r = make_request(guest, bytes, n, w);
	if (!r) return -ENOMEM;
	r->id = id;
	if (n) {
		cut(out, r->out, n, outs);
		all[a++] = out;
	}
	if (w) {
		cut(in, r->in, w, ins);
		all[a + b++] = in;
	}
	int e = virtqueue_add_sgs(drivers[guest].queue, all, a, b, r, GFP_KERNEL);
	if (e) {
		forget(r);
		return e;
	}
	r->next = drivers[guest].outstanding;
	drivers[guest].outstanding = r;
	return 0;
}

void driver_kick(int guest)
{
	shim_guest = guest;
	virtqueue_kick(drivers[guest].queue);
}

void driver_interrupts(int guest)
{
	shim_guest = guest;
	for (int n = 0; n < 16 && monitor_line(guest); n++)
		if (shim_interrupt(guest) != IRQ_HANDLED) break;
}

unsigned long driver_look(int guest)
{
	unsigned long before = driver_counts.answered;
	shim_guest = guest;
	answered(drivers[guest].queue);
	return driver_counts.answered - before;
}

bool driver_broken(int guest) { return virtqueue_is_broken(drivers[guest].queue); }

void driver_spoil(int guest)
{
	u64 at = virtqueue_get_avail_addr(drivers[guest].queue);
	*(u16 *)(rams[guest].base + at + 2) += 300;
}

unsigned long driver_changes(int guest) { return drivers[guest].configured; }

void driver_tell(int guest)
{
	struct virtio_device *v = drivers[guest].device;
	u8 c[3] = { 0 };
	shim_guest = guest;
	for (int i = 0; i < 3; i++) v->config->get(v, i, &c[i], 1);
	printf("config %d %u %u %u queue %u features %llx\n", guest, c[0], c[1], c[2],
	       virtqueue_get_vring_size(drivers[guest].queue), (unsigned long long)v->features);
}
