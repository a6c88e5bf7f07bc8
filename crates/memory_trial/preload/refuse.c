/*
 * Refuses one of a program's requests for memory, to see what the program does then.
 * tools/try-memory loads it into the program by LD_PRELOAD.
 *
 * REFUSED gives the number of the request, counted from 1. When the program makes that request, an
 * octet is written to descriptor 9, if it is open. So a caller that counts up knows that it is past
 * the last request once nothing is written.
 *
 * Counted are the requests of the program itself and those that the C library makes for it, such as
 * the one for a new thread. A program that hangs is ended by SIGALRM.
 *
 * MARK gives a number of octets. A request for just as many is a mark, and at the end it is written to
 * descriptor 9 how many marks there were, and how many requests were made between the first and the
 * second.
 */
#include <errno.h>
#include <stdatomic.h>
#include <stddef.h>
#include <stdio.h>
#include <stdlib.h>
#include <unistd.h>

/* The C library's own functions, by the names that it gives them besides. */
extern void *__libc_malloc(size_t octets);
extern void *__libc_calloc(size_t count, size_t octets);
extern void *__libc_realloc(void *place, size_t octets);

static atomic_ulong made;
static unsigned long refused;

static atomic_ulong marks;
static atomic_ulong between;
static size_t mark;

static unsigned long number_of(const char *name) {
  const char *number = getenv(name);
  return number ? strtoul(number, NULL, 10) : 0;
}

__attribute__((constructor)) static void begin(void) {
  alarm(20);
  atomic_store(&made, 0);
  refused = number_of("REFUSED");
  mark = number_of("MARK");
}

__attribute__((destructor)) static void end(void) {
  if (mark) {
    mark = 0;
    dprintf(9, "%lu marks, %lu requests between them\n", atomic_load(&marks), atomic_load(&between));
  }
}

static void count(size_t octets) {
  if (octets == mark) {
    atomic_fetch_add(&marks, 1);
  } else if (atomic_load(&marks) == 1) {
    atomic_fetch_add(&between, 1);
  }
}

static int is_refused(size_t octets) {
  if (mark) {
    count(octets);
  }
  if (atomic_fetch_add(&made, 1) + 1 != refused) {
    return 0;
  }
  (void)!write(9, "x", 1);
  errno = ENOMEM;
  return 1;
}

void *malloc(size_t octets) { return is_refused(octets) ? NULL : __libc_malloc(octets); }

void *calloc(size_t count, size_t octets) {
  return is_refused(count * octets) ? NULL : __libc_calloc(count, octets);
}

void *realloc(void *place, size_t octets) {
  return is_refused(octets) ? NULL : __libc_realloc(place, octets);
}
