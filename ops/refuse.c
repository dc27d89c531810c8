/* For check-memory: an LD_PRELOAD library that counts the allocations of a program and refuses some of them. The file
 * that REFUSE_CONTROL names has four numbers of 64 bits: how many allocations there were, the first and the last one that
 * is refused (0 and 0: none), and how many were refused. The script beside it sets the first three and reads all of them,
 * while the program runs. */
#define _GNU_SOURCE
#include <errno.h>
#include <fcntl.h>
#include <stdint.h>
#include <stdlib.h>
#include <sys/mman.h>
#include <unistd.h>

struct control {
  uint64_t count, first, last, refused;
};

static struct control none;
static struct control *control = &none;

/* glibc's own, under the names that stay when malloc is another function */
extern void *__libc_malloc(size_t);
extern void *__libc_calloc(size_t, size_t);
extern void *__libc_realloc(void *, size_t);
extern void *__libc_memalign(size_t, size_t);

__attribute__((constructor)) static void attach(void) {
  const char *name = getenv("REFUSE_CONTROL");
  int file = name ? open(name, O_RDWR | O_CLOEXEC) : -1;
  if (file < 0) return;
  void *found = mmap(NULL, sizeof none, PROT_READ | PROT_WRITE, MAP_SHARED, file, 0);
  if (found != MAP_FAILED) control = found;
  close(file);
}

static int refuses(void) {
  uint64_t number = __atomic_add_fetch(&control->count, 1, __ATOMIC_SEQ_CST);
  if (number < __atomic_load_n(&control->first, __ATOMIC_SEQ_CST)) return 0;
  if (number > __atomic_load_n(&control->last, __ATOMIC_SEQ_CST)) return 0;
  __atomic_add_fetch(&control->refused, 1, __ATOMIC_SEQ_CST);
  return 1;
}

static void *no_memory(void) {
  errno = ENOMEM;
  return NULL;
}

void *malloc(size_t size) { return refuses() ? no_memory() : __libc_malloc(size); }

void *calloc(size_t number, size_t size) { return refuses() ? no_memory() : __libc_calloc(number, size); }

void *realloc(void *block, size_t size) { return refuses() ? no_memory() : __libc_realloc(block, size); }

void *memalign(size_t alignment, size_t size) { return refuses() ? no_memory() : __libc_memalign(alignment, size); }

void *aligned_alloc(size_t alignment, size_t size) { return memalign(alignment, size); }

int posix_memalign(void **block, size_t alignment, size_t size) {
  void *found = memalign(alignment, size);
  if (found == NULL) return ENOMEM;
  *block = found;
  return 0;
}
