/* An allocator to preload: it refuses a program's Nth request for memory, and counts the requests.
 *
 *   REFUSE_AT     which request is refused, from 1; none if it is 0 or missing
 *   REFUSE_ON     if it is 1, each later request is refused too
 *   REFUSE_COUNT  the file that gets the number of requests at exit
 *
 * A request for no bytes, and one that makes a block smaller, is a request as well.
 */
#include <errno.h>
#include <fcntl.h>
#include <stddef.h>
#include <stdio.h>
#include <stdlib.h>
#include <unistd.h>

/* The C library's own calls, under the names by which it gives them to a library that replaces them. */
void *__libc_malloc(size_t size);
void *__libc_calloc(size_t count, size_t size);
void *__libc_realloc(void *block, size_t size);
void *__libc_memalign(size_t alignment, size_t size);

static unsigned long requests, refused_at, refused_on, counts; /* nothing is counted before `begin` */

static int is_refused(void) {
    unsigned long number = counts ? ++requests : 0;
    return refused_at && (refused_on ? number >= refused_at : number == refused_at);
}

void *malloc(size_t size) { return is_refused() ? (errno = ENOMEM, NULL) : __libc_malloc(size); }
void *calloc(size_t count, size_t size) { return is_refused() ? (errno = ENOMEM, NULL) : __libc_calloc(count, size); }
void *realloc(void *block, size_t size) { return is_refused() ? (errno = ENOMEM, NULL) : __libc_realloc(block, size); }
void *aligned_alloc(size_t to, size_t size) { return is_refused() ? (errno = ENOMEM, NULL) : __libc_memalign(to, size); }

int posix_memalign(void **block, size_t alignment, size_t size) {
    void *found = is_refused() ? NULL : __libc_memalign(alignment, size);
    return found ? (*block = found, 0) : ENOMEM;
}

static unsigned long number_of(const char *name) { return getenv(name) ? strtoul(getenv(name), NULL, 10) : 0; }

__attribute__((constructor)) static void begin(void) {
    refused_at = number_of("REFUSE_AT"), refused_on = number_of("REFUSE_ON"), counts = 1;
}

__attribute__((destructor)) static void end(void) {
    char text[32];
    int file = getenv("REFUSE_COUNT") ? open(getenv("REFUSE_COUNT"), O_WRONLY | O_CREAT | O_TRUNC, 0600) : -1;
    counts = 0;
    if (file >= 0 && write(file, text, (size_t)snprintf(text, sizeof text, "%lu\n", requests)) < 0) _exit(125);
}
