/* Refuses the program one allocation: the one of the number that REFUSED_ALLOCATION says, from 1 on, and makes the file that
   REFUSED_MARK names where it came to that. Only calls of the program itself count, and none of the C library's own. Made into a
   library by refused_memory, which has the program load it before the C library. */
#define _GNU_SOURCE
#include <dlfcn.h>
#include <fcntl.h>
#include <link.h>
#include <stdatomic.h>
#include <stdint.h>
#include <stdlib.h>
#include <unistd.h>

static void *(*given_malloc)(size_t);
static void *(*given_realloc)(void *, size_t);
static uintptr_t program_start, program_end;
static unsigned long refused;
static atomic_ulong calls;

/* The program is the first of the loaded objects. */
static int find_program(struct dl_phdr_info *object, size_t size, void *unused) {
    (void)size;
    (void)unused;
    for (int k = 0; k < object->dlpi_phnum; k++) {
        const ElfW(Phdr) *part = &object->dlpi_phdr[k];
        uintptr_t start = object->dlpi_addr + part->p_vaddr;
        if (part->p_type != PT_LOAD) continue;
        if (program_end == 0) program_start = start;
        program_end = start + part->p_memsz;
    }
    return 1;
}

__attribute__((constructor)) static void begin(void) {
    const char *number = getenv("REFUSED_ALLOCATION");
    *(void **)&given_malloc = dlsym(RTLD_NEXT, "malloc");
    *(void **)&given_realloc = dlsym(RTLD_NEXT, "realloc");
    dl_iterate_phdr(find_program, NULL);
    refused = number ? strtoul(number, NULL, 10) : 0;
}

static int is_refused(void *caller) {
    uintptr_t at = (uintptr_t)caller;
    if (at < program_start || at >= program_end) return 0;
    if (atomic_fetch_add(&calls, 1) + 1 != refused) return 0;
    const char *mark = getenv("REFUSED_MARK");
    if (mark) close(open(mark, O_CREAT | O_WRONLY, 0666));
    return 1;
}

void *malloc(size_t size) {
    if (!given_malloc) *(void **)&given_malloc = dlsym(RTLD_NEXT, "malloc");
    return is_refused(__builtin_return_address(0)) ? NULL : given_malloc(size);
}

void *realloc(void *old, size_t size) {
    if (!given_realloc) *(void **)&given_realloc = dlsym(RTLD_NEXT, "realloc");
    return is_refused(__builtin_return_address(0)) ? NULL : given_realloc(old, size);
}
