/* SPDX-License-Identifier: Apache-2.0
 *
 * LD_PRELOAD: how long each sync takes, in microseconds, a line each, in the file that TIMED names, at the end. */
#define _GNU_SOURCE
#include <dlfcn.h>
#include <stdio.h>
#include <stdlib.h>
#include <time.h>

enum { MOST = 65536 };
static double us[MOST];
static int count;

static double now(void)
{
	struct timespec t;

	clock_gettime(CLOCK_MONOTONIC, &t);
	return (double)t.tv_sec * 1e6 + (double)t.tv_nsec / 1e3;
}

int fdatasync(int fd)
{
	static int (*real)(int);

	if (!real)
		real = (int (*)(int))dlsym(RTLD_NEXT, "fdatasync");
	const double began = now();
	const int result = real(fd);

	if (count < MOST)
		us[count++] = now() - began;
	return result;
}

static __attribute__((destructor)) void tell(void)
{
	FILE *file = getenv("TIMED") ? fopen(getenv("TIMED"), "w") : NULL;

	for (int i = 0; file && i < count; i++)
		fprintf(file, "%.1f\n", us[i]);
	if (file)
		fclose(file);
}
