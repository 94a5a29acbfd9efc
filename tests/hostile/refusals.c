/* Lets one allocation fail, or all from it on, and one read or write of a standard stream; reads and writes can be made
   short. Loaded before the C library by LD_PRELOAD; what is to fail stands in the environment:

     FAIL_ALLOC=N      the Nth allocation fails; FAIL_ALLOC=N+ that and all behind it
     FAIL_READ=N       the Nth read of standard input fails
     FAIL_WRITE=N      the Nth write to standard output fails
     FAIL_ERRNO=E      with this errno (that of an interrupted call, for one)
     FAIL_TIMES=N      from that write on, N of them fail; else it alone
     SHORT=N           a read or write of these streams moves at most N bytes
     COUNTS=FILE       how many allocations, reads and writes there were is written there at the end */
#define _GNU_SOURCE
#include <errno.h>
#include <fcntl.h>
#include <stdio.h>
#include <stdlib.h>
#include <string.h>
#include <sys/syscall.h>
#include <unistd.h>

extern void *__libc_malloc(size_t), *__libc_realloc(void *, size_t);

static long allocations, reads, writes, fail_alloc, fail_read, fail_write, fail_errno, fail_times, most;
static int fails_on, is_ready;

static long number(const char *name)
{
	const char *text = getenv(name);
	return text ? strtol(text, 0, 10) : 0;
}

__attribute__((constructor)) static void begin(void)
{
	const char *text = getenv("FAIL_ALLOC");
	fails_on = text && strchr(text, '+');
	fail_alloc = number("FAIL_ALLOC");
	fail_read = number("FAIL_READ");
	fail_write = number("FAIL_WRITE");
	fail_errno = number("FAIL_ERRNO");
	fail_times = getenv("FAIL_TIMES") ? number("FAIL_TIMES") : 1;
	most = number("SHORT");
	is_ready = 1;
}

__attribute__((destructor)) static void end(void)
{
	const char *file = getenv("COUNTS");
	char text[80];
	int handle, size;
	is_ready = 0;
	if (!file || (handle = open(file, O_WRONLY | O_CREAT | O_TRUNC, 0600)) < 0)
		return;
	size = snprintf(text, sizeof text, "%ld %ld %ld\n", allocations, reads, writes);
	syscall(SYS_write, handle, text, size);
	close(handle);
}

static int is_refused(void)
{
	if (!is_ready)
		return 0;
	allocations++;
	if (allocations != fail_alloc && !(fails_on && fail_alloc && allocations > fail_alloc))
		return 0;
	errno = ENOMEM;
	return 1;
}

void *malloc(size_t size) { return is_refused() ? 0 : __libc_malloc(size); }
void *realloc(void *old, size_t size) { return is_refused() ? 0 : __libc_realloc(old, size); }

static size_t shortened(size_t size)
{
	return most && size > (size_t)most ? (size_t)most : size;
}

ssize_t read(int handle, void *to, size_t size)
{
	if (handle != 0)
		return syscall(SYS_read, handle, to, size);
	if (++reads == fail_read) {
		errno = (int)fail_errno;
		return -1;
	}
	return syscall(SYS_read, handle, to, shortened(size));
}

ssize_t __write(int handle, const void *from, size_t size)
{
	if (handle != 1)
		return syscall(SYS_write, handle, from, size);
	writes++;
	if (fail_write && writes >= fail_write && writes - fail_write < fail_times) {
		errno = (int)fail_errno;
		return -1;
	}
	return syscall(SYS_write, handle, from, shortened(size));
}

ssize_t write(int handle, const void *from, size_t size)
{
	return __write(handle, from, size);
}
