/* For tools/fail_alloc: an allocator in which one allocation fails, or each one from a number on.
 *
 * It stands before the C library's when the program is run with LD_PRELOAD. FAIL_AT is the number, from 1, of the allocation
 * that fails; with FAIL_ON set each later one fails too. OWN has the bounds of the functions by which the program's own code asks
 * for memory, as addresses of the program's file: `BEGIN END BEGIN END`. COUNTS names a file of four numbers of 64 bits, which
 * are kept in it while the program runs, so that they are right however it ends, with all its threads: the allocations; those of
 * the program's own code that failed; the others that failed, which the C library or the library of threads asked for; and how
 * many times a thread whose allocation had failed asked for as much or less with its next one.
 */
#define _GNU_SOURCE
#include <errno.h>
#include <fcntl.h>
#include <link.h>
#include <stdatomic.h>
#include <stdint.h>
#include <stdlib.h>
#include <sys/mman.h>
#include <unistd.h>

extern void *__libc_malloc(size_t size);
extern void *__libc_calloc(size_t count, size_t size);
extern void *__libc_realloc(void *old, size_t size);
extern void *__libc_memalign(size_t alignment, size_t size);

struct counts {
    atomic_ulong made, own_failed, other_failed, asked_again;
};

enum { BOUNDS = 4 };

static struct counts before_start;
static struct counts *counts = &before_start;
static unsigned long fail_at;
static int fail_on;
static uintptr_t own[BOUNDS];
static __thread size_t refused;

/* Takes the bounds of OWN, from where the first object that is loaded, the program, begins, and looks no further. */
static int take_bounds(struct dl_phdr_info *object, size_t size, void *text)
{
    char *rest = text;

    (void)size;
    for (int at = 0; at < BOUNDS && rest; at++)
        own[at] = object->dlpi_addr + strtoul(rest, &rest, 16);
    return 1;
}

/* Before the program's first line: what the loader allocated earlier is counted too, and never fails. */
__attribute__((constructor)) static void start(void)
{
    const char *name = getenv("COUNTS"), *at = getenv("FAIL_AT");
    int file = name ? open(name, O_RDWR | O_CLOEXEC) : -1;
    void *kept = file < 0 ? MAP_FAILED : mmap(NULL, sizeof *counts, PROT_READ | PROT_WRITE, MAP_SHARED, file, 0);

    dl_iterate_phdr(take_bounds, getenv("OWN"));
    if (kept == MAP_FAILED)
        _exit(126);
    close(file);
    atomic_store(&((struct counts *)kept)->made, atomic_load(&counts->made));
    counts = kept;
    fail_on = getenv("FAIL_ON") != NULL;
    fail_at = at ? strtoul(at, NULL, 10) : 0;
}

static int is_own(uintptr_t caller)
{
    return (caller >= own[0] && caller < own[1]) || (caller >= own[2] && caller < own[3]);
}

/* Counts an allocation of `size` bytes that `caller` asks for, and says whether it fails. */
static int fails(size_t size, const void *caller)
{
    unsigned long number = atomic_fetch_add(&counts->made, 1) + 1;

    if (refused != 0 && size <= refused)
        atomic_fetch_add(&counts->asked_again, 1);
    refused = 0;
    if (fail_at == 0 || number < fail_at || (number > fail_at && !fail_on))
        return 0;
    refused = size;
    atomic_fetch_add(is_own((uintptr_t)caller) ? &counts->own_failed : &counts->other_failed, 1);
    errno = ENOMEM;
    return 1;
}

void *malloc(size_t size)
{
    return fails(size, __builtin_return_address(0)) ? NULL : __libc_malloc(size);
}

void *calloc(size_t count, size_t size)
{
    return fails(count * size, __builtin_return_address(0)) ? NULL : __libc_calloc(count, size);
}

void *realloc(void *old, size_t size)
{
    return fails(size, __builtin_return_address(0)) ? NULL : __libc_realloc(old, size);
}

void *aligned_alloc(size_t alignment, size_t size)
{
    return fails(size, __builtin_return_address(0)) ? NULL : __libc_memalign(alignment, size);
}

int posix_memalign(void **out, size_t alignment, size_t size)
{
    void *made = fails(size, __builtin_return_address(0)) ? NULL : __libc_memalign(alignment, size);

    if (!made)
        return ENOMEM;
    *out = made;
    return 0;
}
