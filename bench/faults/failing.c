/* Lets calls of the C library fail, in a program that loads this file before it (LD_PRELOAD). It fails the calls below a
   program: want of memory, a device that errs, a disk that is full or was made read-only, a sync that takes long.

   FAULT_KIND    which calls are counted: memory, read, write (streams), put (words of the image), sync, or make (of files)
   FAULT_CALL    the call that fails, from 1; 0 for none
   FAULT_LATE    where it is set, the call has its effect first
   FAULT_LASTING where it is set, each further call fails, too
   FAULT_SHORT   where it is set, such a call moves one byte and goes well, for writes alone
   FAULT_ERRNO   the number of the error, EIO where nothing is said
   FAULT_WAIT    milliseconds that the call waits in place of failing
   FAULT_SKIP    where it is set, such a call answers that it went well and does nothing, but for reads: no program is right
                 then, and what judges what it left has to find that
   FAULT_COUNT   a file that has the count of calls of this kind, in eight bytes */
#define _GNU_SOURCE
#include <dlfcn.h>
#include <errno.h>
#include <fcntl.h>
#include <stdarg.h>
#include <stdatomic.h>
#include <stdio.h>
#include <stdlib.h>
#include <string.h>
#include <sys/mman.h>
#include <sys/syscall.h>
#include <sys/uio.h>
#include <time.h>
#include <unistd.h>

enum kind { NONE, MEMORY, READ, WRITE, PUT, SYNC, MAKE };

static const char *const NAMES[] = {"none", "memory", "read", "write", "put", "sync", "make"};
static enum kind chosen;
static long call, wait_for;
static int late, lasting, skip, is_short, error = EIO;
static atomic_long own_count;
static atomic_long *made = &own_count;

__attribute__((constructor)) static void begin(void) {
  const char *word = getenv("FAULT_KIND");
  for (int i = 0; word && i < 7; i++)
    if (!strcmp(word, NAMES[i])) chosen = i;
  if ((word = getenv("FAULT_CALL"))) call = atol(word);
  if ((word = getenv("FAULT_ERRNO"))) error = atoi(word);
  if ((word = getenv("FAULT_WAIT"))) wait_for = atol(word);
  late = getenv("FAULT_LATE") != NULL;
  lasting = getenv("FAULT_LASTING") != NULL;
  skip = getenv("FAULT_SKIP") != NULL;
  is_short = getenv("FAULT_SHORT") != NULL;
  if (!(word = getenv("FAULT_COUNT"))) return;
  int file = syscall(SYS_openat, AT_FDCWD, word, O_RDWR | O_CREAT | O_TRUNC, 0644);
  if (file < 0 || syscall(SYS_ftruncate, file, 8)) return;
  void *shared = mmap(NULL, 8, PROT_READ | PROT_WRITE, MAP_SHARED, file, 0);
  if (shared != MAP_FAILED) made = shared;
  syscall(SYS_close, file);
}

/* Whether this call of a kind fails; one that only takes long has taken so long then. */
static int fails(enum kind kind) {
  if (kind != chosen) return 0;
  long now = atomic_fetch_add(made, 1) + 1;
  if (!call || (now != call && !(lasting && now > call))) return 0;
  if (!wait_for) return 1;
  struct timespec time = {wait_for / 1000, wait_for % 1000 * 1000000};
  nanosleep(&time, NULL);
  return skip;
}

/* A call fails: before it has an effect, or behind it; or it is left out, and answers `well`. */
#define FAIL_OR(kind, type, real, well)     \
  do {                                      \
    if (!fails(kind)) return (real);        \
    if (skip) return (well);                \
    if (late) {                             \
      type done = (real);                   \
      (void)done;                           \
    }                                       \
    errno = error;                          \
    return -1;                              \
  } while (0)

/* How much of a size a write moves. */
static size_t moved(enum kind kind, size_t size) { return is_short && size && fails(kind) ? 1 : size; }

/* The first byte of some pieces, which are counted as one write; they all where it is not cut short. */
static int moved_of(enum kind kind, const struct iovec *from, int count, struct iovec *first) {
  int at = 0;
  if (!is_short || !fails(kind)) return 0;
  while (at < count && !from[at].iov_len) at++;
  if (at == count) return 0;
  *first = (struct iovec){from[at].iov_base, 1};
  return 1;
}

/* The image's words are written where the place is said, its file is new or has a number over those of the streams. */
ssize_t pwrite(int file, const void *from, size_t size, off_t at) {
  if (is_short) return syscall(SYS_pwrite64, file, from, moved(PUT, size), at);
  FAIL_OR(PUT, ssize_t, syscall(SYS_pwrite64, file, from, size, at), size);
}
ssize_t pwrite64(int file, const void *from, size_t size, off_t at) { return pwrite(file, from, size, at); }
ssize_t pwritev(int file, const struct iovec *from, int count, off_t at) {
  struct iovec first;
  if (moved_of(PUT, from, count, &first)) return syscall(SYS_pwritev, file, &first, 1, at, 0);
  if (is_short) return syscall(SYS_pwritev, file, from, count, at, 0);
  FAIL_OR(PUT, ssize_t, syscall(SYS_pwritev, file, from, count, at, 0), 0);
}
ssize_t write(int file, const void *from, size_t size) {
  if (is_short) return syscall(SYS_write, file, from, moved(file <= 2 ? WRITE : PUT, size));
  FAIL_OR(file <= 2 ? WRITE : PUT, ssize_t, syscall(SYS_write, file, from, size), size);
}
ssize_t writev(int file, const struct iovec *from, int count) {
  enum kind kind = file <= 2 ? WRITE : PUT;
  struct iovec first;
  if (moved_of(kind, from, count, &first)) return syscall(SYS_writev, file, &first, 1);
  if (is_short) return syscall(SYS_writev, file, from, count);
  FAIL_OR(kind, ssize_t, syscall(SYS_writev, file, from, count), 0);
}
ssize_t read(int file, void *into, size_t size) { FAIL_OR(READ, ssize_t, syscall(SYS_read, file, into, size), -1); }
ssize_t pread(int file, void *into, size_t size, off_t at) {
  FAIL_OR(READ, ssize_t, syscall(SYS_pread64, file, into, size, at), -1);
}
ssize_t pread64(int file, void *into, size_t size, off_t at) {
  FAIL_OR(READ, ssize_t, syscall(SYS_pread64, file, into, size, at), -1);
}
int fdatasync(int file) { FAIL_OR(SYNC, int, syscall(SYS_fdatasync, file), 0); }
int fsync(int file) { FAIL_OR(SYNC, int, syscall(SYS_fsync, file), 0); }
int linkat(int from, const char *old, int to, const char *name, int flags) {
  FAIL_OR(MAKE, int, syscall(SYS_linkat, from, old, to, name, flags), 0);
}
int link(const char *old, const char *name) {
  FAIL_OR(MAKE, int, syscall(SYS_linkat, AT_FDCWD, old, AT_FDCWD, name, 0), 0);
}
int unlinkat(int from, const char *name, int flags) { FAIL_OR(MAKE, int, syscall(SYS_unlinkat, from, name, flags), 0); }
int unlink(const char *name) { FAIL_OR(MAKE, int, syscall(SYS_unlinkat, AT_FDCWD, name, 0), 0); }
int ftruncate(int file, off_t size) { FAIL_OR(MAKE, int, syscall(SYS_ftruncate, file, size), 0); }
int openat(int from, const char *name, int flags, ...) {
  va_list rest;
  va_start(rest, flags);
  int mode = va_arg(rest, int);
  va_end(rest);
  FAIL_OR(MAKE, int, syscall(SYS_openat, from, name, flags, mode), 0);
}
int open(const char *name, int flags, ...) {
  va_list rest;
  va_start(rest, flags);
  int mode = va_arg(rest, int);
  va_end(rest);
  FAIL_OR(MAKE, int, syscall(SYS_openat, AT_FDCWD, name, flags, mode), 0);
}

/* Memory: the C library's own calls stand behind other names, so that none is needed to find them. */
extern void *__libc_malloc(size_t);
extern void *__libc_calloc(size_t, size_t);
extern void *__libc_realloc(void *, size_t);
extern void *__libc_memalign(size_t, size_t);

static void *none(void) {
  errno = ENOMEM;
  return NULL;
}
void *malloc(size_t size) { return fails(MEMORY) ? none() : __libc_malloc(size); }
void *calloc(size_t count, size_t size) { return fails(MEMORY) ? none() : __libc_calloc(count, size); }
void *realloc(void *old, size_t size) { return fails(MEMORY) ? none() : __libc_realloc(old, size); }
void *aligned_alloc(size_t to, size_t size) { return fails(MEMORY) ? none() : __libc_memalign(to, size); }
int posix_memalign(void **into, size_t to, size_t size) {
  if (fails(MEMORY)) return ENOMEM;
  *into = __libc_memalign(to, size);
  return *into ? 0 : ENOMEM;
}
