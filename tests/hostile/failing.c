/* Refuses one request for memory of a program that is started with this library before all others (LD_PRELOAD).

   FAIL_REQUEST is the number of that request, counted from 1; with 0 none is refused. COUNT_FILE names a file that gets
   the number of all requests when the program ends, by _exit or otherwise. The names that begin with __libc are those of
   glibc. */
#include <errno.h>
#include <fcntl.h>
#include <stddef.h>
#include <stdio.h>
#include <stdlib.h>
#include <sys/syscall.h>
#include <unistd.h>

extern void *__libc_malloc(size_t size);
extern void *__libc_calloc(size_t count, size_t size);
extern void *__libc_realloc(void *old, size_t size);
extern void *__libc_memalign(size_t alignment, size_t size);

static unsigned long count, refused;

__attribute__((constructor)) static void begin(void) {
    const char *number = getenv("FAIL_REQUEST");
    refused = number ? strtoul(number, NULL, 10) : 0;
    count = 0;
}

static void tell(void) {
    const char *name = getenv("COUNT_FILE");
    int file = name ? open(name, O_WRONLY | O_CREAT | O_TRUNC, 0600) : -1;
    if (file >= 0) {
        dprintf(file, "%lu\n", count);
        close(file);
    }
}

__attribute__((destructor)) static void end(void) { tell(); }

void _exit(int status) {
    tell();
    syscall(SYS_exit_group, status);
    __builtin_unreachable();
}

static int is_refused(void) {
    if (__atomic_add_fetch(&count, 1, __ATOMIC_RELAXED) != refused) return 0;
    errno = ENOMEM;
    return 1;
}

void *malloc(size_t size) { return is_refused() ? NULL : __libc_malloc(size); }

void *calloc(size_t number, size_t size) { return is_refused() ? NULL : __libc_calloc(number, size); }

void *realloc(void *old, size_t size) { return is_refused() ? NULL : __libc_realloc(old, size); }

void *aligned_alloc(size_t alignment, size_t size) { return is_refused() ? NULL : __libc_memalign(alignment, size); }

int posix_memalign(void **place, size_t alignment, size_t size) {
    if (is_refused()) return ENOMEM;
    *place = __libc_memalign(alignment, size);
    return *place ? 0 : ENOMEM;
}
