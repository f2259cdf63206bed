/* Loaded before a program (LD_PRELOAD), it refuses the program's own allocation of number REFUSE, from 1: that one call
   answers that there is no memory. What the C library allocates for itself isn't counted. Once it has refused it writes
   one byte to descriptor 9. For `refuse`, which builds it. */
#define _GNU_SOURCE
#include <dlfcn.h>
#include <elf.h>
#include <errno.h>
#include <link.h>
#include <stdatomic.h>
#include <stdlib.h>
#include <sys/auxv.h>
#include <unistd.h>

extern void *__libc_malloc(size_t);
extern void *__libc_calloc(size_t, size_t);
extern void *__libc_realloc(void *, size_t);
extern void *__libc_memalign(size_t, size_t);

static atomic_ulong calls;
static unsigned long refused;
static size_t low, high;

/* Where the program's own code is, and which call is refused. */
__attribute__((constructor)) static void look(void) {
    const ElfW(Phdr) *heads = (const ElfW(Phdr) *)getauxval(AT_PHDR);
    size_t count = getauxval(AT_PHNUM), base = 0;
    for (size_t i = 0; i < count; i++)
        if (heads[i].p_type == PT_PHDR) base = (size_t)heads - heads[i].p_vaddr;
    for (size_t i = 0; i < count; i++)
        if (heads[i].p_type == PT_LOAD && heads[i].p_flags & PF_X) {
            low = base + heads[i].p_vaddr;
            high = low + heads[i].p_memsz;
        }
    const char *number = getenv("REFUSE");
    refused = number ? strtoul(number, NULL, 10) : 0;
}

static int is_refused(void *caller) {
    if ((size_t)caller < low || (size_t)caller >= high || atomic_fetch_add(&calls, 1) + 1 != refused) return 0;
    if (write(9, "x", 1) != 1) _exit(99);
    errno = ENOMEM;
    return 1;
}

void *malloc(size_t size) { return is_refused(__builtin_return_address(0)) ? NULL : __libc_malloc(size); }

void *calloc(size_t count, size_t size) {
    return is_refused(__builtin_return_address(0)) ? NULL : __libc_calloc(count, size);
}

void *realloc(void *old, size_t size) {
    return is_refused(__builtin_return_address(0)) ? NULL : __libc_realloc(old, size);
}

void *aligned_alloc(size_t align, size_t size) {
    return is_refused(__builtin_return_address(0)) ? NULL : __libc_memalign(align, size);
}

int posix_memalign(void **at, size_t align, size_t size) {
    if (is_refused(__builtin_return_address(0))) return ENOMEM;
    void *got = __libc_memalign(align, size);
    if (!got) return ENOMEM;
    *at = got;
    return 0;
}
