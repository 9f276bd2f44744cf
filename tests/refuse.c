/* An allocator that is preloaded: it refuses the growth whose number is in REFUSED_GROWTH, counted from 1 on, says so by a
 * line on standard error, and has the C library serve all others. A growth is a call of any function here.
 *
 *     cc -O1 -shared -fPIC -o refuse.so refuse.c
 *     REFUSED_GROWTH=20 LD_PRELOAD=./refuse.so PROGRAM
 */
#include <errno.h>
#include <stdlib.h>
#include <unistd.h>

extern void *__libc_malloc(size_t size);
extern void *__libc_calloc(size_t count, size_t size);
extern void *__libc_realloc(void *block, size_t size);
extern void *__libc_memalign(size_t alignment, size_t size);

static const char said[] = "growth refused\n";

static long met = 0;
static long refused = -1; /* not asked for yet */

/* Counts a growth more, and tells whether it is the one to refuse; if so, it says so. */
static int is_refused(void) {
  if (refused < 0) {
    const char *number = getenv("REFUSED_GROWTH");
    refused = number ? atol(number) : 0;
  }
  met++;
  if (met != refused) return 0;
  ssize_t put = write(STDERR_FILENO, said, sizeof said - 1);
  (void)put;
  return 1;
}

/* No memory. */
static void *none(void) {
  errno = ENOMEM;
  return NULL;
}

void *malloc(size_t size) { return is_refused() ? none() : __libc_malloc(size); }

void *calloc(size_t count, size_t size) { return is_refused() ? none() : __libc_calloc(count, size); }

void *realloc(void *block, size_t size) { return is_refused() ? none() : __libc_realloc(block, size); }

void *memalign(size_t alignment, size_t size) { return is_refused() ? none() : __libc_memalign(alignment, size); }

void *aligned_alloc(size_t alignment, size_t size) { return memalign(alignment, size); }

int posix_memalign(void **block, size_t alignment, size_t size) {
  void *made = memalign(alignment, size);
  if (made) *block = made;
  return made ? 0 : ENOMEM;
}
