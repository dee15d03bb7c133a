/* Loaded before a program, refuses it memory: the request for memory whose number is in REFUSED, and with ONWARDS all
 * that follow it. With ASKED it writes to standard error, when the program ends, how many requests came.
 * bench/refused-memory.sh compiles and uses it. */
#include <errno.h>
#include <stdio.h>
#include <stdlib.h>

void *__libc_malloc(size_t size);
void *__libc_realloc(void *old, size_t size);

static unsigned long asked, refused;
static int onwards;

__attribute__((constructor)) static void begin(void) {
  const char *number = getenv("REFUSED");
  refused = number ? strtoul(number, NULL, 10) : 0;
  onwards = getenv("ONWARDS") != NULL;
  asked = 0;
}

__attribute__((destructor)) static void end(void) {
  if (getenv("ASKED")) fprintf(stderr, "asked %lu\n", asked);
}

static int is_refused(void) {
  asked++;
  return refused != 0 && (asked == refused || (onwards && asked > refused));
}

void *malloc(size_t size) {
  if (is_refused()) {
    errno = ENOMEM;
    return NULL;
  }
  return __libc_malloc(size);
}

void *realloc(void *old, size_t size) {
  if (is_refused()) {
    errno = ENOMEM;
    return NULL;
  }
  return __libc_realloc(old, size);
}
