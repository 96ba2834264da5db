// Preloaded into the program, it has one of its calls fail or move a single byte, for tests/sweep.py:
// FAIL_READ, FAIL_WRITE, FAIL_ALLOC, SHORT_READ and SHORT_WRITE name the call by its number, from 1 on. Reads are those
// of standard input, writes those of standard output and error. COUNTS names a descriptor that is told, at the end, how
// many reads, writes and allocations there were.
#define _GNU_SOURCE
#include <dlfcn.h>
#include <errno.h>
#include <stdio.h>
#include <stdlib.h>
#include <unistd.h>

static long reads, writes, allocations;
static int ready;

static long number(const char *name) {
  const char *value = getenv(name);
  return value ? atol(value) : 0;
}

ssize_t read(int from, void *to, size_t count) {
  static ssize_t (*real)(int, void *, size_t);
  if (!real) real = (ssize_t (*)(int, void *, size_t))dlsym(RTLD_NEXT, "read");
  if (from != 0) return real(from, to, count);
  if (++reads == number("FAIL_READ")) {
    errno = EIO;
    return -1;
  }
  return real(from, to, reads == number("SHORT_READ") && count > 1 ? 1 : count);
}

ssize_t write(int to, const void *from, size_t count) {
  static ssize_t (*real)(int, const void *, size_t);
  if (!real) real = (ssize_t (*)(int, const void *, size_t))dlsym(RTLD_NEXT, "write");
  if (to != 1 && to != 2) return real(to, from, count);
  if (++writes == number("FAIL_WRITE")) {
    errno = ENOSPC;
    return -1;
  }
  return real(to, from, writes == number("SHORT_WRITE") && count > 1 ? 1 : count);
}

// The C library's own start allocates too: the count begins behind it.
__attribute__((constructor)) static void begin(void) { ready = 1; }

static int fails(void) {
  if (!ready || ++allocations != number("FAIL_ALLOC")) return 0;
  errno = ENOMEM;
  return 1;
}

void *malloc(size_t size) {
  static void *(*real)(size_t);
  if (!real) real = (void *(*)(size_t))dlsym(RTLD_NEXT, "malloc");
  return fails() ? NULL : real(size);
}

void *realloc(void *old, size_t size) {
  static void *(*real)(void *, size_t);
  if (!real) real = (void *(*)(void *, size_t))dlsym(RTLD_NEXT, "realloc");
  return fails() ? NULL : real(old, size);
}

void *aligned_alloc(size_t alignment, size_t size) {
  static void *(*real)(size_t, size_t);
  if (!real) real = (void *(*)(size_t, size_t))dlsym(RTLD_NEXT, "aligned_alloc");
  return fails() ? NULL : real(alignment, size);
}

int posix_memalign(void **to, size_t alignment, size_t size) {
  static int (*real)(void **, size_t, size_t);
  if (!real) real = (int (*)(void **, size_t, size_t))dlsym(RTLD_NEXT, "posix_memalign");
  return fails() ? ENOMEM : real(to, alignment, size);
}

__attribute__((destructor)) static void tell(void) {
  int told = number("COUNTS");
  if (told > 2) dprintf(told, "%ld %ld %ld\n", reads, writes, allocations);
}
