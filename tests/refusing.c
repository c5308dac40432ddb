/* Refuses one allocation of a program. Preload it with REFUSE_AT=N, and the Nth call of malloc or realloc, from 1, that the
   program itself makes answers that there is no memory. With REFUSE_COUNT=PATH such calls are counted in the first 8 bytes of
   that file, a number of this machine's kind, however the program ends. */
#define _GNU_SOURCE
#include <errno.h>
#include <fcntl.h>
#include <link.h>
#include <stdatomic.h>
#include <stdint.h>
#include <stdlib.h>
#include <sys/mman.h>

extern void *__libc_malloc(size_t);
extern void *__libc_realloc(void *, size_t);

static atomic_llong unshared;
static atomic_llong *calls = &unshared;
static long long refused;
static uintptr_t low, high;

/* The addresses of the program's own code; the first object is the program. */
static int take_range(struct dl_phdr_info *info, size_t size, void *unused) {
    (void)size, (void)unused;
    low = UINTPTR_MAX;
    for (int i = 0; i < info->dlpi_phnum; i++) {
        if (info->dlpi_phdr[i].p_type != PT_LOAD) continue;
        uintptr_t start = info->dlpi_addr + info->dlpi_phdr[i].p_vaddr;
        uintptr_t end = start + info->dlpi_phdr[i].p_memsz;
        if (start < low) low = start;
        if (end > high) high = end;
    }
    return 1;
}

__attribute__((constructor)) static void begin(void) {
    const char *at = getenv("REFUSE_AT"), *path = getenv("REFUSE_COUNT");
    int file = path ? open(path, O_RDWR) : -1;
    void *shared = file < 0 ? MAP_FAILED : mmap(NULL, sizeof *calls, PROT_READ | PROT_WRITE, MAP_SHARED, file, 0);
    if (shared != MAP_FAILED) calls = shared;
    refused = at ? atoll(at) : 0;
    dl_iterate_phdr(take_range, NULL);
}

static int is_refused(void *caller) {
    uintptr_t place = (uintptr_t)caller;
    if (place < low || place >= high) return 0;
    if (atomic_fetch_add(calls, 1) + 1 != refused) return 0;
    errno = ENOMEM;
    return 1;
}

void *malloc(size_t size) {
    return is_refused(__builtin_return_address(0)) ? NULL : __libc_malloc(size);
}

void *realloc(void *old, size_t size) {
    return is_refused(__builtin_return_address(0)) ? NULL : __libc_realloc(old, size);
}
