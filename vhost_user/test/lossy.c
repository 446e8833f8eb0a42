/* SPDX-License-Identifier: Apache-2.0
 *
 * LD_PRELOAD: a disk that loses what isn't synced. Writes wait in memory; a sync makes them, in pieces of 512 bytes, in
 * any order but that of overlapping ones, with pauses between, so that a kill leaves any part of them. */
#define _GNU_SOURCE
#include <dlfcn.h>
#include <pthread.h>
#include <stdlib.h>
#include <string.h>
#include <sys/types.h>
#include <time.h>
#include <unistd.h>

enum { PIECES = 16384 };

static struct piece { off_t at; size_t len; unsigned char bytes[512]; } pieces[PIECES];
static int count;
static pthread_mutex_t lock = PTHREAD_MUTEX_INITIALIZER;
static ssize_t (*real_pwrite)(int, const void *, size_t, off_t);
static int (*real_sync)(int);

static void begin(void)
{
	if (real_pwrite)
		return;
	real_sync = (int (*)(int))dlsym(RTLD_NEXT, "fdatasync");
	real_pwrite = (ssize_t (*)(int, const void *, size_t, off_t))dlsym(RTLD_NEXT, "pwrite");
	srandom((unsigned)getpid() ^ (unsigned)time(NULL));
}

ssize_t pwrite(int fd, const void *bytes, size_t n, off_t at)
{
	(void)fd;
	pthread_mutex_lock(&lock);
	begin();
	for (size_t done = 0; done < n;) {
		if (count == PIECES)
			abort();
		struct piece *p = &pieces[count++];

		p->at = at + (off_t)done;
		p->len = n - done < 512 ? n - done : 512;
		memcpy(p->bytes, (const char *)bytes + done, p->len);
		done += p->len;
	}
	pthread_mutex_unlock(&lock);
	return (ssize_t)n;
}

ssize_t pwrite64(int fd, const void *bytes, size_t n, off_t at)
{
	return pwrite(fd, bytes, n, at);
}

static int overlaps(const struct piece *a, const struct piece *b)
{
	return a->at < b->at + (off_t)b->len && b->at < a->at + (off_t)a->len;
}

/* One of the pieces that came by now, before which none lies that it overlaps: out of the list. */
static struct piece take(int left)
{
	int i = (int)(random() % left);

	for (int j = 0; j < i; j++)
		if (overlaps(&pieces[j], &pieces[i])) {
			i = j;
			j = -1;
		}
	const struct piece it = pieces[i];

	memmove(&pieces[i], &pieces[i + 1], (size_t)(--count - i) * sizeof it);
	return it;
}

int fdatasync(int fd)
{
	pthread_mutex_lock(&lock);
	begin();
	for (int left = count; left > 0; left--) {
		const struct piece it = take(left);

		pthread_mutex_unlock(&lock);
		if (real_pwrite(fd, it.bytes, it.len, it.at) != (ssize_t)it.len)
			abort();
		usleep((unsigned)random() % 500);
		pthread_mutex_lock(&lock);
	}
	pthread_mutex_unlock(&lock);
	return real_sync(fd);
}

int fsync(int fd)
{
	return fdatasync(fd);
}
