/* Refuses one growth of memory to the program before which it is loaded (LD_PRELOAD): the REFUSE_AT-th time, from 1, that the program itself, and
   no library of its, calls malloc, calloc or realloc. The file REFUSE_TOLD has how often the program did, as a number of eight bytes. Where REFUSE_BEHIND
   is set, only the calls of its first thread count, from the first write to a file on (pwrite, which a pipe can't have); and where another thread makes
   that write, it is held until the first one waits for a thread to end, so that what it does of its own beforehand does not count. */
#define _GNU_SOURCE
#include <dlfcn.h>
#include <errno.h>
#include <link.h>
#include <pthread.h>
#include <stdatomic.h>
#include <stdlib.h>

#include "../shared/told.h"

extern void *__libc_malloc(size_t);
extern void *__libc_calloc(size_t, size_t);
extern void *__libc_realloc(void *, size_t);

static atomic_ulong none_told;
static atomic_ulong *calls = &none_told;
static unsigned long refused_at;
static char *low, *high;
static int only_behind;
static atomic_int has_written, is_waiting;
static __thread int is_first;
static ssize_t (*write_at)(int, const void *, size_t, off_t);
static int (*join)(pthread_t, void **);

/* The first object that is told is the program. */
static int bounds(struct dl_phdr_info *info, size_t size, void *data)
{
    (void)size;
    (void)data;
    for (int i = 0; i < info->dlpi_phnum; i++) {
        const ElfW(Phdr) *part = &info->dlpi_phdr[i];
        char *from = (char *)info->dlpi_addr + part->p_vaddr;
        if (part->p_type != PT_LOAD)
            continue;
        if (!low || from < low)
            low = from;
        if (from + part->p_memsz > high)
            high = from + part->p_memsz;
    }
    return 1;
}

__attribute__((constructor)) static void begin(void)
{
    const char *at = getenv("REFUSE_AT");
    refused_at = at ? strtoul(at, NULL, 10) : 0;
    only_behind = getenv("REFUSE_BEHIND") != NULL;
    is_first = 1;
    write_at = (ssize_t (*)(int, const void *, size_t, off_t))dlsym(RTLD_NEXT, "pwrite");
    join = (int (*)(pthread_t, void **))dlsym(RTLD_NEXT, "pthread_join");
    calls = told_in("REFUSE_TOLD", &none_told, sizeof none_told);
    dl_iterate_phdr(bounds, NULL);
}

static int refuses(const void *caller)
{
    if ((char *)caller < low || (char *)caller >= high)
        return 0;
    if (only_behind && !(is_first && atomic_load(&has_written)))
        return 0;
    if (atomic_fetch_add(calls, 1) + 1 != refused_at)
        return 0;
    errno = ENOMEM;
    return 1;
}

void *malloc(size_t size)
{
    return refuses(__builtin_return_address(0)) ? NULL : __libc_malloc(size);
}

void *calloc(size_t count, size_t size)
{
    return refuses(__builtin_return_address(0)) ? NULL : __libc_calloc(count, size);
}

void *realloc(void *old, size_t size)
{
    return refuses(__builtin_return_address(0)) ? NULL : __libc_realloc(old, size);
}

int pthread_join(pthread_t thread, void **value)
{
    if (is_first)
        atomic_store(&is_waiting, 1);
    int status = join(thread, value);
    if (is_first)
        atomic_store(&is_waiting, 0);
    return status;
}

ssize_t pwrite(int file, const void *bytes, size_t size, off_t at)
{
    if (only_behind && !atomic_load(&has_written)) {
        for (int ms = 0; ms < 10000 && !is_first && !atomic_load(&is_waiting); ms++)
            usleep(1000);
        atomic_store(&has_written, 1);
    }
    return write_at(file, bytes, size, at);
}
