/* SPDX-License-Identifier: Apache-2.0
 *
 * The image: a file that is locked, read once, and then written from the library's outbox. Where there are several
 * guests, a thread of its own makes the writes and the syncs, so that no guest's kick waits for another's disk. */
#include <libgen.h>
#include <pthread.h>
#include <sys/eventfd.h>
#include <sys/file.h>
#include "daemon.h"

static bool is_written(int file, const uint8_t *bytes, uint64_t at, uint64_t len)
{
	for (ssize_t n; len && (n = pwrite(file, bytes, len, (off_t)at)) > 0; len -= (uint64_t)n)
		bytes += n, at += (uint64_t)n;
	return !len;
}

/* Makes a fresh image in a file that is empty. A stop within it leaves one that is as good, or refused. The file's name has
 * to last as well: an earlier run may have made the file, and ended before that. */
static void format_image(struct daemon *d, uint8_t *image, uint64_t len, bool is_empty)
{
	char name[4096];

	snprintf(name, sizeof name, "%s", d->disk.path);
	const int folder = open(dirname(name), O_RDONLY | O_DIRECTORY | O_CLOEXEC);
	const uint32_t fault = is_empty ? rpmb_format(d->board, d->count, image, len) : RPMB_OK;

	if (fault != RPMB_OK || (is_empty && (!is_written(d->disk.file, image, 0, len) || fsync(d->disk.file))) || fsync(folder))
		REFUSE(d->disk.path, "the image, or its name, isn't kept: %s", fault ? rpmb_fault_text(fault) : strerror(errno));
	close(folder);
}

/* The disk's thread: it sleeps until a batch is there. Where there is one guest only, the loop makes what there is. */
static void *write_and_sync(void *its)
{
	struct disk *disk = its;
	eventfd_t n;

	while (!eventfd_read(disk->start, &n)) {
		const struct batch *b = &disk->batches[!disk->next];
		bool succeeds = true;

		for (size_t i = 0; succeeds && i < b->count; i++)
			succeeds = is_written(disk->file, b->writes[i].bytes, b->writes[i].at, b->writes[i].len);
		/* (the file's length never changes, so its data are all that is to be kept) */
		disk->error = succeeds && !fdatasync(disk->file) ? 0 : errno ? errno : EIO;
		eventfd_write(disk->over, n);
	}
	return NULL;
}

void open_image(struct daemon *d, bool format)
{
	struct disk *disk = &d->disk;
	const uint64_t len = rpmb_image_length(d->board, d->count);
	uint8_t *image = malloc(len + 1);
	struct stat is;
	pthread_t thread;

	disk->file = open(disk->path, O_RDWR | O_CLOEXEC | (format ? O_CREAT : 0), 0600);
	if (disk->file < 0 || !len || !image)
		REFUSE(disk->path, "the image isn't opened: %s; %s", strerror(errno), errno == ENOENT && !format ? "--format makes one"
		       : "it has to be a file that you may read and write, in a folder that is there");
	if (flock(disk->file, LOCK_EX | LOCK_NB))
		REFUSE(disk->path, "another program has the image (vhost-user-rpmb or rpmbd): end that one first");
	if (fstat(disk->file, &is) || !S_ISREG(is.st_mode))
		REFUSE(disk->path, "it is no file that can keep an image: a plain one is wanted");
	if (format)
		format_image(d, image, len, !is.st_size);
	/* What a stop left is kept before it is read, and before anybody is told of it. What the system remembers of the file
	 * goes between: behind a sync that failed it may remember bytes that the disk hasn't. */
	const ssize_t n = fsync(disk->file) ? -1
	                  : (posix_fadvise(disk->file, 0, 0, POSIX_FADV_DONTNEED), pread(disk->file, image, len + 1, 0));
	if (n < 0)
		REFUSE(disk->path, "the image isn't synced or read: %s", strerror(errno));
	const uint32_t fault = (uint64_t)n != len ? RPMB_BAD_LENGTH : rpmb_open(d->board, d->count, image, len, &d->host);
	if (fault != RPMB_OK)
		REFUSE(disk->path, "%s. It has %lld bytes, and an image of these guests %" PRIu64 ": it wants as many sockets,"
		       " each with the --capacity, as it was made with, in the same order; or it is no image%s", rpmb_fault_text(fault),
		       (long long)is.st_size, len, n ? "" : "; --format makes a fresh one in an empty file");
	free(image);
	disk->start = eventfd(0, EFD_CLOEXEC | (d->count > 1 ? 0 : EFD_NONBLOCK));
	disk->over = eventfd(0, EFD_CLOEXEC);
	if (disk->start < 0 || disk->over < 0 || (d->count > 1 && pthread_create(&thread, NULL, write_and_sync, disk)))
		REFUSE(disk->path, "no thread for the disk: %s", strerror(errno));
}

/* Takes what is to be written into the batch that grows; where that is full the rest waits for the next. */
void take_outbox(struct daemon *d)
{
	struct batch *b = &d->disk.batches[d->disk.next];

	for (size_t i; (i = b->count) < WRITES; b->count += !d->disk.failed) {
		b->writes[i].len = rpmb_outbox(&d->host, &b->writes[i].at, b->writes[i].bytes, sizeof b->writes[i].bytes);
		if (!b->writes[i].len)
			return;
	}
	d->disk.wanted = true;
}

/* Hands on the batch, where a sync is wanted and none is under way. One that no guest waits for is put off
 * until nothing else happens (`is_idle`): where a guest writes on, the next write shares it. */
void begin_sync(struct daemon *d, bool is_idle)
{
	if (d->disk.busy || d->disk.failed)
		return;
	d->disk.wanted = d->disk.wanted || rpmb_go_on(&d->host);
	take_outbox(d);
	for (unsigned i = 0; i < d->count && !is_idle; i++)
		is_idle = rpmb_waiting(&d->host, (uint16_t)i);
	if (!d->disk.wanted || !is_idle)
		return;
	d->disk.next = !d->disk.next;
	d->disk.batches[d->disk.next].count = 0;
	d->disk.busy = !eventfd_write(d->disk.start, 1);
	if (d->count == 1) /* (nobody else is there to wait for the disk, and a thread's waking costs more than this work) */
		write_and_sync(&d->disk);
}

/* A sync is over. Where more was written meanwhile it isn't told: those writes have to be made first. */
void end_sync(struct daemon *d)
{
	eventfd_t n;

	if (eventfd_read(d->disk.over, &n))
		return;
	d->disk.busy = false;
	take_outbox(d);
	d->disk.failed = d->disk.error;
	d->disk.wanted = !d->disk.failed && d->disk.batches[d->disk.next].count;
	if (d->disk.failed)
		SAY(d->disk.path, "%s. Guests get failures from now on: mend the disk, and start this program anew",
		    strerror(d->disk.error));
	if (!d->disk.wanted)
		rpmb_completed(&d->host, !d->disk.failed);
	for (unsigned i = 0; i < d->count && !d->disk.wanted; i++)
		d->guests[i].more |= d->guests[i].later || rpmb_waiting(&d->host, (uint16_t)i);
}
