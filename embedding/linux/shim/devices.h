/* A bus, a driver core, and platform devices with registers and an interrupt line each. */
#ifndef SHIM_DEVICES_H
#define SHIM_DEVICES_H

struct kobj_uevent_env;
struct device_node;
struct cpumask;
struct attribute { const char *name; };
struct device_driver {
	const char *name;
	void *owner;
	struct bus_type *bus;
	const void *of_match_table;
	const void *acpi_match_table;
	const void *pm;
};
struct bus_type {
	const char *name;
	int (*match)(struct device *, struct device_driver *);
	const void *dev_groups;
	int (*uevent)(struct device *, struct kobj_uevent_env *);
	int (*probe)(struct device *);
	void (*remove)(struct device *);
	void (*shutdown)(struct device *);
};
struct device {
	struct device *parent;
	struct bus_type *bus;
	struct device_driver *driver;
	void *driver_data;
	struct device_node *of_node;
	void (*release)(struct device *);
	char name[32];
};
struct device_attribute {
	struct attribute attr;
	ssize_t (*show)(struct device *, struct device_attribute *, char *);
};
#define DEVICE_ATTR_RO(n) \
	__maybe_unused struct device_attribute dev_attr_##n = { { #n }, n##_show }
#define ATTRIBUTE_GROUPS(n) static struct attribute **n##_groups[2] = { n##_attrs, NULL }
#define virtio_check_mem_acc_cb(d) ((void)(d), 0)
#define add_uevent_var(...) 0
static inline const char *dev_name(const struct device *d) { return d->name; }
static inline void device_initialize(struct device *d) { (void)d; }
int dev_set_name(struct device *d, const char *format, ...);
extern int shim_probe_status;	/* of the device that was added last */
int device_add(struct device *d);
void device_unregister(struct device *d);
void put_device(struct device *d);
int bus_register(struct bus_type *b);
static inline void bus_unregister(struct bus_type *b) { (void)b; }
int driver_register(struct device_driver *d);
static inline void driver_unregister(struct device_driver *d) { (void)d; }
#define dev_get_drvdata(d) ((d)->driver_data)
struct ida { int next; };
#define DEFINE_IDA(n) struct ida n = { 0 }
#define ida_alloc(i, g) ((i)->next++)
#define ida_free(i, n) ((void)(i), (void)(n))
#define ida_destroy(i) ((void)(i))
static inline struct device_node *dev_of_node(struct device *d) { (void)d; return NULL; }
#define of_get_available_child_count(n) 0
#define of_get_next_available_child(n, p) NULL
#define of_device_is_compatible(n, c) 0
#define of_node_put(n) ((void)(n))
#define of_property_read_bool(n, s) ((void)(n), false)
struct of_device_id { const char *compatible; };
struct virtio_device_id { u32 device; u32 vendor; };
#define VIRTIO_DEV_ANY_ID 0xffffffff

/* platform devices: number G is that of guest G, and so is its interrupt */
typedef int irqreturn_t;
#define IRQ_NONE 0
#define IRQ_HANDLED 1
#define IRQF_SHARED 0
struct platform_device { const char *name; int id; struct device dev; };
struct platform_driver {
	int (*probe)(struct platform_device *);
	int (*remove)(struct platform_device *);
	struct device_driver driver;
};
int platform_driver_register(struct platform_driver *d);
struct platform_driver *shim_platform_driver(void);
static inline void platform_driver_unregister(struct platform_driver *d) { (void)d; }
static inline int platform_get_irq(struct platform_device *d, int n) { (void)n; return d->id; }
static inline void platform_set_drvdata(struct platform_device *d, void *p)
{
	d->dev.driver_data = p;
}
static inline void *platform_get_drvdata(struct platform_device *d) { return d->dev.driver_data; }
int request_irq(int irq, irqreturn_t (*handler)(int, void *), int flags, const char *name,
		void *opaque);
void free_irq(int irq, void *opaque);
int shim_interrupt(int irq);	/* IRQ_HANDLED; IRQ_NONE where nobody wants it */
#define enable_irq_wake(i) 1
#define disable_irq_wake(i) ((void)(i))
#define synchronize_irq(i) ((void)(i))
#define ACPI_PTR(x) NULL

/* registers: 4,096 bytes a guest behind this address, where readl and writel alone find anything */
#define SHIM_REGISTERS 0x10000000UL
static inline void *devm_platform_ioremap_resource(struct platform_device *d, int n)
{
	(void)n;
	return (void *)(SHIM_REGISTERS + 4096 * (unsigned long)d->id);
}
u32 shim_register_read(int guest, u32 offset, u8 width);
void shim_register_write(int guest, u32 offset, u8 width, u32 value);
static inline u32 shim_read(const void *a, u8 width)
{
	unsigned long at = (unsigned long)a - SHIM_REGISTERS;
	return shim_register_read(at / 4096, at % 4096, width);
}
static inline void shim_write(const void *a, u8 width, u32 value)
{
	unsigned long at = (unsigned long)a - SHIM_REGISTERS;
	shim_register_write(at / 4096, at % 4096, width, value);
}
#define readl(a) shim_read(a, 4)
#define readw(a) ((u16)shim_read(a, 2))
#define readb(a) ((u8)shim_read(a, 1))
#define ioread32(a) readl(a)
#define writel(v, a) shim_write(a, 4, v)
#define writew(v, a) shim_write(a, 2, v)
#define writeb(v, a) shim_write(a, 1, v)
#endif
