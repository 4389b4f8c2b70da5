/* Makes each sync of the program before which it is loaded (LD_PRELOAD) wait SLOW_SYNC nanoseconds first, as a slow disk that takes syncs beside each
   other does. The file SLOW_TOLD has two numbers of eight bytes: how many syncs there were, and how many of them began while another one was waiting. */
#define _GNU_SOURCE
#include <dlfcn.h>
#include <stdatomic.h>
#include <stdlib.h>
#include <time.h>

#include "../../tools/shared/told.h"

struct told {
    atomic_ulong syncs, beside;
};

static struct told none_told;
static struct told *told = &none_told;
static atomic_int waiting;
static struct timespec pause_time;
static int (*sync_all)(int);
static int (*sync_data)(int);

__attribute__((constructor)) static void begin(void)
{
    const char *slow = getenv("SLOW_SYNC");
    unsigned long nanoseconds = slow ? strtoul(slow, NULL, 10) : 0;
    pause_time = (struct timespec){.tv_sec = nanoseconds / 1000000000, .tv_nsec = nanoseconds % 1000000000};
    sync_all = (int (*)(int))dlsym(RTLD_NEXT, "fsync");
    sync_data = (int (*)(int))dlsym(RTLD_NEXT, "fdatasync");
    told = told_in("SLOW_TOLD", &none_told, sizeof none_told);
}

static int slow_sync(int (*sync)(int), int file)
{
    atomic_fetch_add(&told->syncs, 1);
    if (atomic_fetch_add(&waiting, 1) > 0)
        atomic_fetch_add(&told->beside, 1);
    nanosleep(&pause_time, NULL);
    atomic_fetch_sub(&waiting, 1);
    return sync(file);
}

int fsync(int file)
{
    return slow_sync(sync_all, file);
}

int fdatasync(int file)
{
    return slow_sync(sync_data, file);
}
