/* SPDX-License-Identifier: Apache-2.0
 *
 * vhost-user-rpmb: the RPMB device (VIRTIO 1.2, 5.12) of librpmb_host.a for virtual machines, as a vhost-user back
 * end.
 *
 * One board, one image; each guest has a socket. One loop waits for all of them, and a thread writes and syncs the
 * image. A front end may be hostile: what it says is checked, memory is touched only within the regions that it gave,
 * and no read of a kick and no signal waits. docs/VHOST_USER.md says what to type, and what can wait still. */
#include <getopt.h>
#include <poll.h>
#include <sys/mman.h>
#include <sys/signalfd.h>
#include <sys/syscall.h>
#include <sys/un.h>
#include "daemon.h"

/* of a guest in the loop; rounds of it, or of a sync, that the end waits for; how long memory may be lacking, or a sync be
 * put off */
enum { SOCKET, KICK, LISTENER, POLLED, ROUNDS = 64, PAUSE_MS = 20 };

static const char help[] =
	"vhost-user-rpmb --image FILE [options] --socket-path PATH ..\n\n"
	"  --image FILE         where the guests' partitions are kept; keys stand in it as they are\n"
	"  --format             makes a fresh image (version 2) where FILE isn't there or is empty; else changes nothing\n"
	"  --socket-path PATH   the socket of the next guest: once for each, always in the same order\n"
	"  --fd N               the same, as a file descriptor, of a connection or of a socket that listens\n"
	"  --capacity N         of the guests named behind it: units of 128 KiB, 1 to 128 (1)\n"
	"  --max-write N        of the guests named behind it: most blocks of 256 bytes of a write, 1 to 16 (16)\n"
	"  --max-read N         the same of a read\n"
	"  --print-capabilities, --version, --help\n\n"
	"TERM and INT end it, once what is kept was answered. It may be killed at any moment.\n";
/* (the logic is the one that proved the library: .ci/packaging compares it with what the other programs say) */
static const char version[] = "vhost-user-rpmb 0.1 (Hovdrang, logic dac8208d650f15bf), images of version 1 and 2\n";
/* (There is no type for RPMB, and libvirt takes no back end at all beside one of a type that it doesn't know.) */
static const char capabilities[] = "{\n  \"type\": \"block\",\n  \"features\": []\n}\n";

static int listen_at(const char *path)
{
	struct sockaddr_un name = { .sun_family = AF_UNIX };
	const int fd = socket(AF_UNIX, SOCK_STREAM | SOCK_CLOEXEC | SOCK_NONBLOCK, 0);
	const int probe = socket(AF_UNIX, SOCK_DGRAM | SOCK_CLOEXEC, 0); /* (it can't be taken for a front end) */
	struct stat is;

	if (snprintf(name.sun_path, sizeof name.sun_path, "%s", path) >= (int)sizeof name.sun_path)
		REFUSE(path, "a socket's path has at most %zu bytes", sizeof name.sun_path - 1);
	/* the socket that an earlier run left goes; one at which a program listens stays, and so does any file */
	if (!lstat(path, &is) && S_ISSOCK(is.st_mode) && connect(probe, (struct sockaddr *)&name, sizeof name) &&
	    errno == ECONNREFUSED)
		unlink(path);
	close(probe);
	if (fd < 0 || bind(fd, (struct sockaddr *)&name, sizeof name) || listen(fd, 1))
		REFUSE(path, "the socket isn't made: %s; %s", strerror(errno), errno == EADDRINUSE
		       ? "what is there is no socket, or a program listens at it: take another path, or end that program"
		       : "its folder has to be there, and you have to be let write into it");
	return fd;
}

/* Where the program ends, a guest whose requests are all answered isn't served any more. */
static bool is_due(const struct guest *g)
{
	return g->more && (g->running ? g->enabled || g->stopping : !g->up) &&
	       !(g->daemon->ends && (!g->up || rpmb_place(&g->daemon->host, g->number) != RPMB_NO_PLACE));
}

static void attend(struct guest *g, const struct pollfd *its)
{
	const bool stays = (!its[KICK].revents || take_kick(g)) && (!is_due(g) || serve(g)) &&
	                   (!its[SOCKET].revents || receive(g)) && (!g->stopping || end_stop(g));

	if (!stays || its[LISTENER].revents)
		drop(g);
	/* the newest front end has the device: an older one may keep its end open in a descriptor that it gave us */
	if (its[LISTENER].revents)
		g->socket = accept4(g->listener, NULL, NULL, SOCK_CLOEXEC | SOCK_NONBLOCK);
}

/* What is waited for, and how long. False: no guest can come any more. */
static bool prepare(const struct daemon *d, struct pollfd *polled, int *wait)
{
	bool any = false;

	*wait = d->disk.wanted && !d->disk.busy ? PAUSE_MS : -1;
	for (const struct guest *g = d->guests; g < d->guests + d->count; g++, polled += POLLED) {
		polled[SOCKET] = (struct pollfd){ g->socket, g->stopping ? 0 : POLLIN, 0 };
		polled[KICK] = (struct pollfd){ g->kick, POLLIN, 0 };
		polled[LISTENER] = (struct pollfd){ g->listener, POLLIN, 0 };
		any |= g->socket >= 0 || g->listener >= 0;
		if (is_due(g))
			*wait = 0;
		else if (g->later && !d->disk.busy && *wait)
			*wait = PAUSE_MS;
	}
	return any;
}

/* Until the end of the last front end that can't come again, or a signal. What was taken is answered before the end, by
 * the sync that is under way then and as many more as it takes: a guest that asks anew while it is answered comes to rest
 * later. */
static void loop(struct daemon *d, int signals)
{
	struct pollfd polled[2 + POLLED * GUESTS] = { { signals, POLLIN, 0 }, { d->disk.over, POLLIN, 0 } };
	int rounds = ROUNDS, wait;

	while (prepare(d, polled + 2, &wait) && (!d->ends || (rounds && (d->disk.busy || !wait)))) {
		const int ready = poll(polled, 2 + POLLED * d->count, wait);

		if (ready < 0)
			continue;
		if (polled[0].revents)
			d->ends = true, polled[0].fd = -1;
		rounds -= d->ends && (polled[1].revents || !d->disk.busy);
		if (polled[1].revents)
			end_sync(d);
		for (unsigned i = 0; i < d->count; i++) {
			d->guests[i].more |= !ready && d->guests[i].later;
			attend(&d->guests[i], polled + 2 + POLLED * i);
		}
		begin_sync(d, (!ready && wait) || d->ends);
	}
	for (struct guest *g = d->guests; g < d->guests + d->count; g++) {
		drop(g);
		if (g->is_path)
			unlink(g->name);
	}
}

static long number(const char *option, const char *text, long least, long most)
{
	char *end;
	const long n = strtol(text, &end, 10);

	if (*text < '0' || *text > '9' || *end || n < least || n > most)
		REFUSE(option, "%s is no number from %ld to %ld", text, least, most);
	return n;
}

static void add_guest(struct daemon *d, const struct rpmb_guest *as, bool is_path, const char *word)
{
	const int fd = is_path ? -1 : (int)number("--fd", word, 0, 1 << 20);
	int listens = 0;

	if (d->count == GUESTS)
		REFUSE(word, "a board has at most %d guests", GUESTS);
	if (is_path && !*word) /* (Linux would take it for a name that anybody may reach) */
		REFUSE("--socket-path PATH", "its path is empty");
	if (!is_path && getsockopt(fd, SOL_SOCKET, SO_ACCEPTCONN, &listens, &(socklen_t){ sizeof listens }))
		REFUSE("--fd", "%s is no socket that is open: %s", word, strerror(errno));
	for (struct guest *g = d->guests; g < d->guests + d->count; g++)
		if (!strcmp(g->name, word))
			REFUSE(word, "it is given twice: each guest has a socket of its own");
	if (!is_path)
		fcntl(fd, F_SETFL, O_NONBLOCK);
	d->board[d->count] = *as;
	d->guests[d->count] = (struct guest){
		.daemon = d, .name = word, .number = (uint16_t)d->count, .is_path = is_path, .listener = listens ? fd : -1,
		.socket = listens ? -1 : fd, .kick = -1, .call = -1, .error = -1, .requests = -1,
	};
	d->count++;
}

static bool read_words(struct daemon *d, int argc, char **argv)
{
	static const struct option words[] = {
		{ "image", 1, 0, 'i' }, { "format", 0, 0, 'f' }, { "socket-path", 1, 0, 's' }, { "fd", 1, 0, 'd' },
		{ "capacity", 1, 0, 'c' }, { "max-write", 1, 0, 'w' }, { "max-read", 1, 0, 'r' },
		{ "print-capabilities", 0, 0, 'p' }, { "version", 0, 0, 'v' }, { "help", 0, 0, 'h' }, { 0 }
	};
	struct rpmb_guest each = { .memory = UINT64_MAX, .capacity = 1, .max_wr_cnt = 16, .max_rd_cnt = 16 };
	bool format = false, is_used = true;

	for (int c; (c = getopt_long(argc, argv, "", words, NULL)) != -1; is_used |= c == 's' || c == 'd')
		switch (c) {
		case 'i':
			if (d->disk.path)
				REFUSE(optarg, "--image is given twice: all guests share one");
			d->disk.path = optarg;
			break;
		case 'f': format = true; break;
		case 's': case 'd': add_guest(d, &each, c == 's', optarg); break;
		case 'c': each.capacity = (uint8_t)number("--capacity", optarg, 1, 128); is_used = false; break;
		case 'w': each.max_wr_cnt = (uint8_t)number("--max-write", optarg, 1, 16); is_used = false; break;
		case 'r': each.max_rd_cnt = (uint8_t)number("--max-read", optarg, 1, 16); is_used = false; break;
		case 'p': case 'v': case 'h':
			exit(fputs(c == 'p' ? capabilities : c == 'v' ? version : help, stdout) < 0 || fflush(stdout));
		default: fputs("vhost-user-rpmb: --help says which options there are, and what they take\n", stderr); exit(2);
		}
	if (optind != argc)
		exit((SAY(argv[optind], "this word belongs to no option; --help says which there are"), 2));
	if (!d->disk.path || !*d->disk.path)
		REFUSE("--image FILE", "it is missing: where the partitions are kept");
	if (!d->count)
		REFUSE("--socket-path PATH", "it is missing, and --fd N too: one of them for each guest");
	if (!is_used)
		REFUSE(argv[argc - 1], "--capacity, --max-write and --max-read count for the sockets behind them: put them first");
	return format;
}

int main(int argc, char **argv)
{
	struct daemon *d = mmap(NULL, sizeof *d, PROT_READ | PROT_WRITE, MAP_PRIVATE | MAP_ANONYMOUS, -1, 0);
	sigset_t ends;

	if (d == MAP_FAILED)
		REFUSE("memory", "there is too little");
	const bool format = read_words(d, argc, argv);
	umask(0077);
	sigemptyset(&ends);
	sigaddset(&ends, SIGTERM);
	sigaddset(&ends, SIGINT);
	sigprocmask(SIG_BLOCK, &ends, NULL);
	signal(SIGPIPE, SIG_IGN);
	guard_memory(&d->guard);
	const int signals = signalfd(-1, &ends, SFD_CLOEXEC);
	d->null = open("/dev/null", O_RDONLY | O_CLOEXEC);
	if (signals < 0 || d->null < 0 || syscall(SYS_io_setup, 1L, &d->signals))
		REFUSE("signalfd, /dev/null or io_setup", "the system refuses it: %s", strerror(errno));
	open_image(d, format);
	for (struct guest *g = d->guests; g < d->guests + d->count; g++)
		if (g->is_path)
			g->listener = listen_at(g->name);
	loop(d, signals);
	rpmb_close(&d->host);
	return 0;
}
