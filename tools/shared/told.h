/* Where a library that is loaded before a program keeps its counts: in the file that this variable of the environment names, made anew, or where
   there is none, or it can't be had, in `none`, which nobody reads. */
#include <fcntl.h>
#include <stdlib.h>
#include <sys/mman.h>
#include <unistd.h>

static void *told_in(const char *variable, void *none, size_t size)
{
    const char *name = getenv(variable);
    int file = name ? open(name, O_RDWR | O_CREAT | O_TRUNC, 0644) : -1;
    void *told = MAP_FAILED;
    if (file >= 0 && !ftruncate(file, size))
        told = mmap(NULL, size, PROT_READ | PROT_WRITE, MAP_SHARED, file, 0);
    if (file >= 0)
        close(file);
    return told == MAP_FAILED ? none : told;
}
