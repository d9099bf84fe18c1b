// A library that is loaded before the C library and makes a call on a file fail: of the calls of open, write, pwrite, fsync and fdatasync
// the one whose number, counted from 1 in each process, is the value of the environment variable FAILING. A write fails with ENOSPC, any
// other call with EIO. Writes to the standard streams are not counted. After each call it writes how many there were into the file that
// COUNT_TO names.
#define _GNU_SOURCE
#include <dlfcn.h>
#include <errno.h>
#include <fcntl.h>
#include <stdarg.h>
#include <stdatomic.h>
#include <stdio.h>
#include <stdlib.h>
#include <sys/syscall.h>
#include <unistd.h>

static atomic_long count;

static int fails(void) {
  const char *number = getenv("FAILING"), *path = getenv("COUNT_TO");
  long now = atomic_fetch_add(&count, 1) + 1;
  if (path) {
    char text[32];
    long file = syscall(SYS_openat, AT_FDCWD, path, O_WRONLY | O_CREAT | O_TRUNC, 0600);
    syscall(SYS_write, file, text, snprintf(text, sizeof text, "%ld\n", now));
    syscall(SYS_close, file);
  }
  return number && atol(number) == now;
}

#define NEXT(name) ((__typeof__(&name))dlsym(RTLD_NEXT, #name))

static int opened(int (*next)(const char *, int, ...), const char *path, int flags, mode_t mode) {
  if (fails()) {
    errno = EIO;
    return -1;
  }
  return next(path, flags, mode);
}

int open(const char *path, int flags, ...) {
  va_list more;
  va_start(more, flags);
  mode_t mode = flags & O_CREAT ? va_arg(more, mode_t) : 0;
  va_end(more);
  return opened(NEXT(open), path, flags, mode);
}

int open64(const char *path, int flags, ...) {
  va_list more;
  va_start(more, flags);
  mode_t mode = flags & O_CREAT ? va_arg(more, mode_t) : 0;
  va_end(more);
  return opened(NEXT(open64), path, flags, mode);
}

ssize_t write(int file, const void *bytes, size_t size) {
  if (file > 2 && fails()) {
    errno = ENOSPC;
    return -1;
  }
  return NEXT(write)(file, bytes, size);
}

ssize_t pwrite(int file, const void *bytes, size_t size, off_t at) {
  if (fails()) {
    errno = ENOSPC;
    return -1;
  }
  return NEXT(pwrite)(file, bytes, size, at);
}

ssize_t pwrite64(int file, const void *bytes, size_t size, off64_t at) {
  if (fails()) {
    errno = ENOSPC;
    return -1;
  }
  return NEXT(pwrite64)(file, bytes, size, at);
}

int fsync(int file) {
  if (fails()) {
    errno = EIO;
    return -1;
  }
  return NEXT(fsync)(file);
}

int fdatasync(int file) {
  if (fails()) {
    errno = EIO;
    return -1;
  }
  return NEXT(fdatasync)(file);
}
