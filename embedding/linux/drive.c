/* Linux's own virtio drivers over the proved host, driven by lines. They run in this thread, their monitor in
 * another one, which serves them meanwhile.
 *
 * drive IMAGE format|keep OPTIONS GUEST..
 *   OPTIONS  words behind commas, or -: ordered, seed=N
 *   GUEST    size of each of its two pieces of RAM,withheld (hex),queue,most,capacity,max_wr_cnt,max_rd_cnt,platform
 *
 * Lines, and what is printed before the line that ends an answer:
 *   add G ID HEX W OUTS INS  a chain, its bytes and room in pieces  -> added | full | nomem ID E
 *   go G                     its queue is kicked, and nobody waits for what comes of it -> gone G
 *   kick G                   the same, until the monitor rests -> kicked G AWAITED (1: a sync is)
 *   sync                     all that is awaited is written and synced -> synced
 *   once                     the same for one sync alone -> synced
 *   reset G                  the driver goes and comes back -> reset G DROPPED STATUS; between, it
 *                            takes features that weren't offered, and STATUS is what came of it
 *   hurry G                  the same, without waiting until the monitor rests
 *   reopen                   the drivers go, the image is opened again -> reopened
 *   stop                     the same, within the writes between two syncs -> reopened
 *   spoil G                  its ring is spoiled -> spoiled G, InterruptStatus, Status, changes
 *                            told, InterruptStatus behind them
 *   fail                     the writes before the next sync fail -> failing
 *   storm N                  N counter requests of all guests, as fast as they go: their driver
 *                            sleeps where a queue is full -> stormed N WRONG LOST SLEEPS
 *   config G, stats, times N, quit
 * Between: `used G ID LEN HEX` for an answer by interrupt; and where the monitor rests `taken G N`, how
 * many chains the device took since its reset, `found G N` for answers that had no interrupt,
 * `fault G N TEXT`. */
#include "driver.h"
#include "monitor.h"

static struct rpmb_guest guests[SHIM_GUESTS];
static size_t count, sizes[SHIM_GUESTS];
static const char *image;

u32 shim_register_read(int guest, u32 offset, u8 width)
{
	return monitor_read(guest, offset, width);
}
void shim_register_write(int guest, u32 offset, u8 width, u32 value)
{
	monitor_write(guest, offset, width, value);
}

static void stop(const char *what, int e)
{
	printf("stop %s %d\n", what, e);
	exit(72);
}

static void read_guest(const char *text)
{
	unsigned long long withheld;
	unsigned int n[6];
	int read = sscanf(text, "%zu,%llx,%u,%u,%u,%u,%u,%u", &sizes[count], &withheld, &n[0],
			  &n[1], &n[2], &n[3], &n[4], &n[5]);
	if (count == SHIM_GUESTS || read != 8) stop("guest", count);
	guests[count] = (struct rpmb_guest){
		.memory = SHIM_HIGH + sizes[count], .withheld = withheld, .queue = n[0], .most = n[1],
		.capacity = n[2], .max_wr_cnt = n[3], .max_rd_cnt = n[4], .platform = n[5],
	};
	count++;
}

static void read_options(char *text)
{
	for (char *w = strtok(text, ","); w; w = strtok(NULL, ",")) {
		if (!strcmp(w, "ordered")) monitor_options.ordered = true;
		else if (!strncmp(w, "seed=", 5)) srandom(atoi(w + 5));
		else if (strcmp(w, "-")) stop(w, 0);
	}
}

static int unhex(const char *text, u8 *bytes)
{
	int n = 0;
	unsigned int value;
	for (; text[0] && text[1] && sscanf(text, "%2x", &value) == 1; text += 2)
		bytes[n++] = value;
	return n;
}

/* What the lines are high for goes to the drivers. */
static void interrupts(void)
{
	for (size_t g = 0; g < count; g++) driver_interrupts(g);
}

/* The guests' processors take interrupts until the monitor rests. */
static void rest(void)
{
	bool rests;
	do {
		rests = monitor_wait();
		for (size_t g = 0; g < count; g++) rests = rests && !monitor_line(g);
		interrupts();
	} while (!rests);
	for (size_t g = 0; g < count; g++) {
		uint32_t fault = monitor_fault(g);
		unsigned long n = driver_look(g);
		if (n) printf("found %zu %lu\n", g, n);
		if (driver_broken(g)) printf("broken %zu\n", g);
		for (; fault != RPMB_OK; fault = monitor_fault(g))
			printf("fault %zu %u %s\n", g, fault, rpmb_fault_text(fault));
		printf("taken %zu %lu\n", g, monitor_taken(g));
	}
}

static void add(const char *line)
{
	static char hex[150000];
	static u8 bytes[75000];
	unsigned int guest, w;
	long id;
	int outs, ins;
	if (sscanf(line, "add %u %ld %149999s %u %d %d", &guest, &id, hex, &w, &outs, &ins) != 6)
		stop("add", 0);
	interrupts();
	int n = hex[0] == '-' ? 0 : unhex(hex, bytes);
	int e = driver_add(guest, id, bytes, n, w, outs, ins);
	printf("%s %ld %d\n", e == -ENOMEM ? "nomem" : e ? "full" : "added", id, e);
}

static void bring_up(int guest)
{
	int e = driver_bring_up(guest);
	if (e) stop("probe", e);
}

/* Status behind a driver that takes features that weren't offered to it, where there are any. */
static unsigned int take_withheld(int guest)
{
	u64 bits = 1ull << 32 | guests[guest].withheld | (guests[guest].platform ? 0 : 1ull << 33);
	for (int status = 0; status < 4; status += status ? 2 : 1)
		monitor_write(guest, 0x70, 4, status);
	for (int half = 0; half < 2; half++) {
		monitor_write(guest, 0x24, 4, half);
		monitor_write(guest, 0x20, 4, bits >> 32 * half);
	}
	monitor_write(guest, 0x70, 4, 11);
	return monitor_read(guest, 0x70, 4);
}

static void reset(int guest, bool hurries)
{
	if (!hurries) rest();
	unsigned long dropped = driver_remove(guest);
	unsigned int status = take_withheld(guest);
	bring_up(guest);
	printf("reset %d %lu %u\n", guest, dropped, status);
}

static void reopen(bool stopped)
{
	rest();
	for (size_t g = 0; g < count; g++) driver_remove(g);
	if (stopped) monitor_stop();
	else monitor_close();
	monitor_open(guests, count, image, false);
	for (size_t g = 0; g < count; g++) bring_up(g);
	printf("reopened\n");
}

/* A device that finds nonsense stops, and tells its driver by an interrupt (2.1.2). */
static void spoil(int guest)
{
	unsigned long changes = driver_changes(guest);
	driver_spoil(guest);
	monitor_write(guest, 0x50, 4, 0);
	monitor_rest();
	unsigned int raised = monitor_read(guest, 0x60, 4), status = monitor_read(guest, 0x70, 4);
	rest();
	printf("spoiled %d %u %u %lu %u\n", guest, raised, status, driver_changes(guest) - changes,
	       monitor_read(guest, 0x60, 4));
}

/* A driver that has nothing to do sleeps until an interrupt. Where none is due any more one was lost. */
static unsigned long sleep_once(unsigned long *sleeps)
{
	unsigned long left = 0;
	bool rests = monitor_wait();
	++*sleeps;
	for (size_t g = 0; g < count; g++) rests = rests && !monitor_line(g);
	interrupts();
	for (size_t g = 0; g < count && rests; g++) left += driver_outstanding(g);
	return left;
}

/* One more counter request, once there is room for it. How many were lost. */
static unsigned long ask_counter(int guest, long id, unsigned long *sleeps)
{
	u8 frame[512] = { [507] = 1, [511] = 2 };
	unsigned long lost = 0;
	memcpy(frame + 484, &id, sizeof id);
	while (driver_add(guest, id, frame, 512, 512, 1, 1) && !lost) {
		driver_kick(guest);
		lost = sleep_once(sleeps);
	}
	if (random() % 3 == 0) driver_kick(guest);
	if (random() % 5 == 0) interrupts();
	return lost;
}

static void storm(long n)
{
	unsigned long lost = 0, wrong = driver_counts.wrong, sleeps = 0, left = 1;
	rest();
	driver_storms = true;
	for (long i = 0; i < n && !lost; i++) lost = ask_counter(i % count, i, &sleeps);
	while (left && !lost) {
		left = 0;
		for (size_t g = 0; g < count; g++) driver_kick(g);
		for (size_t g = 0; g < count; g++) left += driver_outstanding(g);
		if (left) lost = sleep_once(&sleeps);
	}
	rest();
	driver_storms = false;
	printf("stormed %ld %lu %lu %lu\n", n, driver_counts.wrong - wrong, lost, sleeps);
}

static void times(long n)
{
	double read, write, nothing;
	monitor_times(n, &read, &write, &nothing);
	printf("times read %.1f write %.1f nothing %.1f\n", read, write, nothing);
}

static void stats(void)
{
	const struct monitor_counts *c = &monitor_counts;
	printf("stats reads %lu writes %lu kicks %lu serves %lu calls %lu interrupts %lu", c->reads,
	       c->writes, c->kicks, c->serves, c->calls, c->interrupts);
	printf(" copied_in %lu copied_out %lu", c->copied_in, c->copied_out);
	printf(" outbox %lu overlaps %lu late %lu syncs %lu faults %lu", c->outbox, c->overlaps, c->late,
	       c->syncs, c->faults);
	printf(" register_ns %lu copy_ns %lu serve_ns %lu disk_ns %lu", c->register_ns, c->copy_ns,
	       c->serve_ns, c->disk_ns);
	printf(" warnings %lu maps %lu spoiled %lu\n", shim_warnings, shim_maps,
	       driver_counts.spoiled);
}

/* Lines behind which the guests begin anew, or that tell of them. Whether it is one. */
static bool perform_other(const char *line)
{
	int g = 0;
	long n;
	if (sscanf(line, "reset %d", &g) == 1) reset(g, false);
	else if (sscanf(line, "hurry %d", &g) == 1) reset(g, true);
	else if (!strncmp(line, "reopen", 6)) reopen(false);
	else if (!strncmp(line, "stop", 4)) reopen(true);
	else if (sscanf(line, "spoil %d", &g) == 1) spoil(g);
	else if (sscanf(line, "storm %ld", &n) == 1) storm(n);
	else if (sscanf(line, "config %d", &g) == 1) driver_tell(g);
	else if (sscanf(line, "times %ld", &n) == 1) times(n);
	else if (!strncmp(line, "stats", 5)) stats();
	else return false;
	return true;
}

static void settle(int syncs)
{
	rest();
	monitor_settle(syncs);
	rest();
	printf("synced\n");
}

static void perform(const char *line)
{
	int g = 0;
	if (!strncmp(line, "add ", 4)) {
		add(line);
	} else if (sscanf(line, "kick %d", &g) == 1) {
		driver_kick(g);
		rest();
		printf("kicked %d %d\n", g, monitor_awaits());
	} else if (sscanf(line, "go %d", &g) == 1) {
		driver_kick(g);
		interrupts();
		printf("gone %d\n", g);
	} else if (!strncmp(line, "sync", 4)) {
		settle(INT_MAX);
	} else if (!strncmp(line, "once", 4)) {
		settle(1);
	} else if (!strncmp(line, "fail", 4)) {
		monitor_fail();
		printf("failing\n");
	} else if (!perform_other(line)) {
		stop("line", 0);
	}
}

int main(int argc, char **argv)
{
	static char line[200000];
	if (argc < 5) return 2;
	image = argv[1];
	read_options(argv[3]);
	for (int i = 4; i < argc; i++) read_guest(argv[i]);
	for (size_t g = 0; g < count; g++) {
		shim_ram(g, sizes[g], guests[g].platform);
		monitor_ram(g, (struct guest_region[]){
			{ SHIM_LOW, sizes[g], rams[g].base + SHIM_LOW },
			{ SHIM_HIGH, sizes[g], rams[g].base + SHIM_HIGH } }, 2);
	}
	monitor_open(guests, count, image, !strcmp(argv[2], "format"));
	monitor_start();
	if (driver_register_all()) stop("register", 0);
	for (size_t g = 0; g < count; g++) bring_up(g);
	printf("ready\n");
	for (fflush(stdout); fgets(line, sizeof line, stdin); fflush(stdout)) {
		if (!strncmp(line, "quit", 4)) break;
		perform(line);
	}
	monitor_rest();
	for (size_t g = 0; g < count; g++) driver_remove(g);
	monitor_close();
	return 0;
}
