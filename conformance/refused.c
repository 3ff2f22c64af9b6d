/* Refuses one allocation of the program that it is loaded into: the one whose number the variable REFUSED has. It then
   writes a byte to the file that REFUSED_AT names, which stays empty where the program asks less often than that.
   conformance/starved makes a library of it. */
#define _GNU_SOURCE
#include <dlfcn.h>
#include <errno.h>
#include <fcntl.h>
#include <stdlib.h>
#include <unistd.h>

static void *(*system_malloc)(size_t);
static void *(*system_realloc)(void *, size_t);
static long refused;
static long asked;

/* The system asks for memory of its own before this, which isn't counted. */
__attribute__((constructor)) static void begin(void) {
    const char *number = getenv("REFUSED");
    refused = number ? atol(number) : 0;
}

static int is_refused(void) {
    if (refused == 0 || ++asked != refused)
        return 0;
    int file = open(getenv("REFUSED_AT"), O_WRONLY);
    if (file < 0 || write(file, "1", 1) != 1 || close(file) != 0)
        _exit(99);
    errno = ENOMEM;
    return 1;
}

void *malloc(size_t size) {
    if (!system_malloc)
        system_malloc = dlsym(RTLD_NEXT, "malloc");
    return is_refused() ? NULL : system_malloc(size);
}

void *realloc(void *at, size_t size) {
    if (!system_realloc)
        system_realloc = dlsym(RTLD_NEXT, "realloc");
    return is_refused() ? NULL : system_realloc(at, size);
}
