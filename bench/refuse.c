/* A library that refuses memory to a program. It is loaded before the C library. Requests of malloc and realloc are counted from 1; the one
 * with the number REFUSED is refused, and so are all after it if ONWARDS is set. When the program ends, their count is written to
 * descriptor 2. */
#include <stddef.h>
#include <stdio.h>
#include <stdlib.h>
#include <unistd.h>

extern void *__libc_malloc(size_t size);
extern void *__libc_realloc(void *old, size_t size);

static unsigned long asked, refused, last;

__attribute__((constructor)) static void begin(void) {
  const char *number = getenv("REFUSED");
  refused = number ? strtoul(number, NULL, 10) : 0;
  last = getenv("ONWARDS") ? (unsigned long)-1 : refused;
  asked = 0;
}

static int is_refused(void) {
  asked++;
  return refused && refused <= asked && asked <= last;
}

void *malloc(size_t size) { return is_refused() ? NULL : __libc_malloc(size); }

void *realloc(void *old, size_t size) { return is_refused() ? NULL : __libc_realloc(old, size); }

__attribute__((destructor)) static void end(void) {
  char line[32];
  unsigned long count = asked;
  int length = snprintf(line, sizeof line, "%lu", count);
  if (write(2, line, (size_t)length) < 0)
    _exit(99);
}
