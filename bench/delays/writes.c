/* Notes when each write of standard output and of standard error ends, in a program that loads this file before it (LD_PRELOAD).

   WRITES_NOTED  a file that gets how many there were, and then of each one the number of its stream, how many bytes it moved,
                 and the monotonic clock at its end in nanoseconds, in words of eight bytes; at most 4,000,000 of them */
#define _GNU_SOURCE
#include <fcntl.h>
#include <stdatomic.h>
#include <stdlib.h>
#include <sys/mman.h>
#include <sys/syscall.h>
#include <sys/uio.h>
#include <time.h>
#include <unistd.h>

enum { MOST = 4000000 };

struct noted {
  atomic_long count;
  struct {
    long stream, size, time;
  } writes[MOST];
};
static struct noted *noted;

__attribute__((constructor)) static void begin(void) {
  const char *name = getenv("WRITES_NOTED");
  if (!name) return;
  int file = syscall(SYS_openat, AT_FDCWD, name, O_RDWR | O_CREAT | O_TRUNC, 0644);
  if (file < 0 || syscall(SYS_ftruncate, file, sizeof(struct noted))) return;
  void *shared = mmap(NULL, sizeof(struct noted), PROT_READ | PROT_WRITE, MAP_SHARED, file, 0);
  if (shared != MAP_FAILED) noted = shared;
  syscall(SYS_close, file);
}

static ssize_t note(int stream, ssize_t size) {
  if (!noted || size < 0 || (stream != 1 && stream != 2)) return size;
  struct timespec now;
  clock_gettime(CLOCK_MONOTONIC, &now);
  long at = atomic_fetch_add(&noted->count, 1);
  if (at < MOST) {
    noted->writes[at].stream = stream;
    noted->writes[at].size = size;
    noted->writes[at].time = now.tv_sec * 1000000000 + now.tv_nsec;
  }
  return size;
}

ssize_t write(int stream, const void *from, size_t size) {
  return note(stream, syscall(SYS_write, stream, from, size));
}
ssize_t writev(int stream, const struct iovec *from, int count) {
  return note(stream, syscall(SYS_writev, stream, from, count));
}
