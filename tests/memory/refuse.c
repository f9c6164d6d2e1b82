/* Loaded before the C library: of the requests for memory that a program makes, those of the one or two numbers in REFUSE_AT are refused
   (1 is the first), and then the file REFUSE_SAID is made. */
#include <errno.h>
#include <fcntl.h>
#include <stdlib.h>
#include <unistd.h>

static long first = -1, second, made;

static int is_refused(void) {
    if (first < 0) {
        const char *text = getenv("REFUSE_AT");
        char *rest = NULL;
        first = text ? strtol(text, &rest, 10) : 0;
        second = rest ? strtol(rest, NULL, 10) : 0;
    }
    made++;
    if (made != first && made != second)
        return 0;
    const char *said = getenv("REFUSE_SAID");
    int file = said ? open(said, O_CREAT | O_WRONLY, 0600) : -1;
    if (file >= 0)
        close(file);
    errno = ENOMEM;
    return 1;
}

extern void *__libc_malloc(size_t);
extern void *__libc_calloc(size_t, size_t);
extern void *__libc_realloc(void *, size_t);

void *malloc(size_t size) { return is_refused() ? NULL : __libc_malloc(size); }

void *calloc(size_t count, size_t size) { return is_refused() ? NULL : __libc_calloc(count, size); }

void *realloc(void *old, size_t size) { return is_refused() ? NULL : __libc_realloc(old, size); }
