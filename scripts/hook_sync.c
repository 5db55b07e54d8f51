/* Runs a command just before the fsync whose number HOOKED_SYNC says, from 1 on: the command of HOOK. Made into a library by
   disk_rows, which has the program load it before the C library. */
#define _GNU_SOURCE
#include <dlfcn.h>
#include <stdatomic.h>
#include <stdlib.h>

static atomic_ulong calls;

int fsync(int file) {
    int (*given)(int);
    const char *number = getenv("HOOKED_SYNC");
    const char *command = getenv("HOOK");
    *(void **)&given = dlsym(RTLD_NEXT, "fsync");
    if (number && command && atomic_fetch_add(&calls, 1) + 1 == strtoul(number, NULL, 10)) {
        unsetenv("LD_PRELOAD");
        if (system(command) != 0) return -1;
    }
    return given(file);
}
