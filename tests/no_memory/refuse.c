// Preloaded before a program, refuses its allocation number REFUSED (from 1, over all threads) and no other.
#define _GNU_SOURCE
#include <dlfcn.h>
#include <errno.h>
#include <stddef.h>
#include <stdlib.h>

static long made, refused = -1;

static int is_refused(void) {
  if (refused < 0) {
    const char *number = getenv("REFUSED");
    refused = number ? atol(number) : 0;
  }
  return __atomic_add_fetch(&made, 1, __ATOMIC_RELAXED) == refused;
}

void *malloc(size_t size) {
  static void *(*next)(size_t);
  if (!next) next = dlsym(RTLD_NEXT, "malloc");
  if (!is_refused()) return next(size);
  errno = ENOMEM;
  return NULL;
}

void *realloc(void *old, size_t size) {
  static void *(*next)(void *, size_t);
  if (!next) next = dlsym(RTLD_NEXT, "realloc");
  if (!is_refused()) return next(old, size);
  errno = ENOMEM;
  return NULL;
}

void *calloc(size_t count, size_t size) {
  static void *(*next)(size_t, size_t);
  if (!next) next = dlsym(RTLD_NEXT, "calloc");
  if (!is_refused()) return next(count, size);
  errno = ENOMEM;
  return NULL;
}

void *aligned_alloc(size_t alignment, size_t size) {
  static void *(*next)(size_t, size_t);
  if (!next) next = dlsym(RTLD_NEXT, "aligned_alloc");
  if (!is_refused()) return next(alignment, size);
  errno = ENOMEM;
  return NULL;
}

int posix_memalign(void **place, size_t alignment, size_t size) {
  static int (*next)(void **, size_t, size_t);
  if (!next) next = dlsym(RTLD_NEXT, "posix_memalign");
  return is_refused() ? ENOMEM : next(place, alignment, size);
}
