/* monitor IMAGE FIRMWARE LEAST [slow]: one boot of a machine with one processor in real mode, 64 KiB
 * of memory, which it sees above 4 GiB once more, and an RPMB device, over /dev/kvm. A thread serves
 * the device while the processor runs. LEAST is the counter that earlier boots told. The image is made
 * where there is none. With `slow` the writes between two syncs are made in pieces, in any order and
 * with pauses, so that a kill finds any part of them.
 * What the firmware tells goes to standard output, a line each, and `writing` and `synced` where that
 * is begun and done. Ends with 0 at the firmware's halt, with 3 at its error, with 77 without KVM. */
#define _GNU_SOURCE
#include <errno.h>
#include <fcntl.h>
#include <linux/kvm.h>
#include <pthread.h>
#include <stdbool.h>
#include <stdio.h>
#include <stdlib.h>
#include <sys/eventfd.h>
#include <sys/ioctl.h>
#include <sys/mman.h>
#include <sys/random.h>
#include <sys/stat.h>
#include <unistd.h>
#include "guest_ram.h"
#include "ports.h"
#include "rpmb_host.h"

static const struct rpmb_guest guest = {
	.memory = HIGH + MEMORY, .capacity = 1, .max_wr_cnt = 16, .max_rd_cnt = 16,
};
static pthread_mutex_t lock = PTHREAD_MUTEX_INITIALIZER; /* of the calls with `host` */
static struct rpmb_host host;
static uint8_t *memory;
static int file, kicks;		/* kicks: an eventfd, which KVM itself writes to at QueueNotify */
static pthread_cond_t copied = PTHREAD_COND_INITIALIZER;
static bool slow, over, copying;
static uint32_t least;

static _Noreturn void stop(const char *what)
{
	fprintf(stderr, "monitor: %s: %s\n", what, strerror(errno));
	exit(1);
}
static void must(uint32_t fault, const char *what)
{
	if (fault == RPMB_OK) return;
	fprintf(stderr, "monitor: %s: %s\n", what, rpmb_fault_text(fault));
	exit(1);
}

/* A fresh image, which has its name once it is whole. */
static void make_image(const char *path, uint64_t length)
{
	char fresh[4096];
	uint8_t *image = malloc(length);
	snprintf(fresh, sizeof fresh, "%s.new", path);
	int f = open(fresh, O_RDWR | O_CREAT | O_TRUNC, 0600);
	if (!image || f < 0) stop(fresh);
	must(rpmb_format(&guest, 1, image, length), "rpmb_format");
	if (write(f, image, length) != (ssize_t)length || fsync(f) || rename(fresh, path)) stop(fresh);
	close(f);
	free(image);
}

static void open_image(const char *path)
{
	uint64_t length = rpmb_image_length(&guest, 1);
	uint8_t *image = malloc(length);
	if (access(path, F_OK)) make_image(path, length);
	file = open(path, O_RDWR | O_CLOEXEC);
	/* what is there is kept before it is read, and before anybody is told of it */
	if (!image || file < 0 || fsync(file)) stop(path);
	if (pread(file, image, length, 0) != (ssize_t)length) stop("pread");
	must(rpmb_open(&guest, 1, image, length, &host), "rpmb_open");
	free(image);
}

/* the outbox, until its sync */
static struct piece { uint64_t at; uint32_t length; uint8_t bytes[512]; } pieces[512];
static int piece_count;

static void take_outbox(void)
{
	static uint8_t bytes[RPMB_LARGEST_WRITE];
	uint64_t at;
	size_t n;
	while ((n = rpmb_outbox(&host, &at, bytes, sizeof bytes)))
		for (size_t done = 0; done < n;) {
			if (piece_count == 512) stop("too many writes before a sync");
			struct piece *p = &pieces[piece_count++];
			p->at = at + done;
			p->length = n - done < 512 ? n - done : 512;
			memcpy(p->bytes, bytes + done, p->length);
			done += p->length;
		}
}

/* Any of them, but that an earlier one which it overlaps comes first. */
static struct piece *any_piece(void)
{
	int i = slow ? random() % piece_count : 0;
	for (int j = 0; j < i; j++)
		if (pieces[j].at < pieces[i].at + pieces[i].length &&
		    pieces[i].at < pieces[j].at + pieces[j].length) {
			i = j;
			j = -1;
		}
	return &pieces[i];
}

static void make_pieces(void)
{
	while (piece_count) {
		struct piece *p = any_piece();
		if (pwrite(file, p->bytes, p->length, p->at) != (ssize_t)p->length) stop("pwrite");
		memmove(p, p + 1, (char *)&pieces[piece_count--] - (char *)(p + 1));
		if (slow) usleep(random() % 4000);
	}
}

/* With the lock, which is free while bytes are copied. Whether a sync is awaited. */
static bool serve(const struct guest_ram *ram)
{
	static uint8_t bytes[RPMB_LARGEST_PART];
	struct rpmb_next next;
	uint32_t done = 0;
	do {
		rpmb_serve(&host, 0, done, bytes, sizeof bytes, &next);
		take_outbox();
		copying = true;
		pthread_mutex_unlock(&lock);
		if (next.what == RPMB_READ) done = guest_copy_in(ram, next.at, bytes, next.len);
		if (next.what == RPMB_WRITE) done = guest_copy_out(ram, next.at, bytes, next.len);
		pthread_mutex_lock(&lock);
		copying = false;
		pthread_cond_signal(&copied);
	} while (next.what != RPMB_REST);
	if (next.fault != RPMB_OK)
		fprintf(stderr, "monitor: rpmb_serve: %s\n", rpmb_fault_text(next.fault));
	return next.sync;
}

/* The writes, and their sync: registers are answered meanwhile. */
static void make_sync(void)
{
	pthread_mutex_unlock(&lock);
	dprintf(1, "writing\n");
	make_pieces();
	bool synced = fsync(file) == 0;
	pthread_mutex_lock(&lock);
	must(rpmb_completed(&host, synced), "rpmb_completed");
	dprintf(1, "synced\n");
}

/* The thread of the device. The processor runs all the time. */
static void *run_device(void *unused)
{
	const struct guest_ram ram = { (const struct guest_region[]){
		{ 0, MEMORY, memory }, { HIGH, MEMORY, memory } }, 2 };
	uint64_t count;
	(void)unused;
	pthread_mutex_lock(&lock);
	while (!over) {
		while (serve(&ram)) make_sync();
		pthread_mutex_unlock(&lock);
		if (read(kicks, &count, sizeof count) != sizeof count) stop("kicks");
		pthread_mutex_lock(&lock);
	}
	pthread_mutex_unlock(&lock);
	return NULL;
}

static void access_register(struct kvm_run *run)
{
	uint64_t offset = run->mmio.phys_addr - REGISTERS;
	uint32_t value = 0;
	if (run->mmio.len > 4 || offset >= 512) return;
	pthread_mutex_lock(&lock);
	/* behind a reset, or without its queue, the driver takes its memory back */
	while (copying && run->mmio.is_write && (offset == 0x70 || offset == 0x44))
		pthread_cond_wait(&copied, &lock);
	if (run->mmio.is_write) {
		memcpy(&value, run->mmio.data, run->mmio.len);
		rpmb_write(&host, 0, offset, run->mmio.len, value);
	} else {
		value = rpmb_read(&host, 0, offset, run->mmio.len);
		memcpy(run->mmio.data, &value, run->mmio.len);
	}
	pthread_mutex_unlock(&lock);
}

/* True: the firmware stopped with an error. A line is out before the firmware goes on. */
static bool access_port(struct kvm_run *run)
{
	uint32_t value = 0;
	uint8_t *data = (uint8_t *)run + run->io.data_offset;
	if (run->io.direction == KVM_EXIT_IO_IN) {
		if (run->io.port == PORT_RANDOM && getrandom(&value, 4, 0) != 4) stop("getrandom");
		if (run->io.port == PORT_LEAST) value = least;
		memcpy(data, &value, run->io.size);
		return false;
	}
	memcpy(&value, data, run->io.size);
	const char *name = run->io.port == PORT_COUNTER ? "counter"
		: run->io.port == PORT_WROTE ? "wrote"
		: run->io.port == PORT_BOOTS ? "boots" : "error";
	dprintf(1, "%s %u\n", name, value);
	return run->io.port == PORT_ERROR;
}

static void load_firmware(const char *path)
{
	memory = mmap(NULL, MEMORY, PROT_READ | PROT_WRITE, MAP_SHARED | MAP_ANONYMOUS, -1, 0);
	int f = open(path, O_RDONLY);
	if (memory == MAP_FAILED || f < 0) stop(path);
	if (read(f, memory + FIRMWARE, STACK - FIRMWARE) <= 0) stop("firmware");
	close(f);
}

/* A machine whose processor begins with the firmware: its descriptor, and its shared page. */
static int make_machine(struct kvm_run **run)
{
	int kvm = open("/dev/kvm", O_RDWR | O_CLOEXEC);
	int machine = kvm < 0 ? -1 : ioctl(kvm, KVM_CREATE_VM, 0);
	if (machine < 0) exit(77);
	for (uint32_t slot = 0; slot < 2; slot++) {
		struct kvm_userspace_memory_region region = {
			.slot = slot, .guest_phys_addr = slot ? HIGH : 0, .memory_size = MEMORY,
			.userspace_addr = (uint64_t)memory };
		if (ioctl(machine, KVM_SET_USER_MEMORY_REGION, &region)) stop("memory region");
	}
	struct kvm_ioeventfd notify = { .addr = REGISTERS + 0x50, .len = 4, .fd = kicks };
	if (ioctl(machine, KVM_IOEVENTFD, &notify)) stop("KVM_IOEVENTFD");
	int processor = ioctl(machine, KVM_CREATE_VCPU, 0);
	int size = ioctl(kvm, KVM_GET_VCPU_MMAP_SIZE, 0);
	*run = mmap(NULL, size, PROT_READ | PROT_WRITE, MAP_SHARED, processor, 0);
	if (processor < 0 || *run == MAP_FAILED) stop("processor");
	struct kvm_sregs special;
	if (ioctl(processor, KVM_GET_SREGS, &special)) stop("KVM_GET_SREGS");
	special.cs.base = special.cs.selector = 0;
	struct kvm_regs general = { .rip = FIRMWARE, .rflags = 2 };
	if (ioctl(processor, KVM_SET_SREGS, &special) || ioctl(processor, KVM_SET_REGS, &general))
		stop("registers");
	return processor;
}

/* To the firmware's halt, or to its error: the status. */
static int run_processor(int processor, struct kvm_run *run)
{
	for (;;) {
		if (ioctl(processor, KVM_RUN, 0)) stop("KVM_RUN");
		if (run->exit_reason == KVM_EXIT_MMIO) access_register(run);
		else if (run->exit_reason == KVM_EXIT_IO) {
			if (access_port(run)) return 3;
		} else break;
	}
	if (run->exit_reason != KVM_EXIT_HLT) stop("exit");
	return 0;
}

static void end_device(pthread_t device)
{
	uint64_t one = 1;
	pthread_mutex_lock(&lock);
	over = true;
	pthread_mutex_unlock(&lock);
	if (write(kicks, &one, sizeof one) != sizeof one) stop("kicks");
	pthread_join(device, NULL);
}

int main(int argc, char **argv)
{
	struct kvm_run *run;
	pthread_t device;
	if (argc < 4) return 2;
	least = strtoul(argv[3], NULL, 10);
	slow = argc > 4;
	srandom(getpid());
	load_firmware(argv[2]);
	kicks = eventfd(0, EFD_CLOEXEC);
	int processor = make_machine(&run);
	open_image(argv[1]);
	if (kicks < 0 || pthread_create(&device, NULL, run_device, NULL)) stop("thread");
	int status = run_processor(processor, run);
	end_device(device);
	if (!status) dprintf(1, "halted\n");
	rpmb_close(&host);
	return status;
}
