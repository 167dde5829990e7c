/* Refuses one of a program's requests for memory: of those made since its main began, the one whose number, counted from 1, stands in
   the environment as REFUSE. It then writes a line to the descriptor that TOLD names. A number of 0, or none, refuses nothing. Where MANY stands in the
   environment, so many requests in a row are refused, that one and those after it.

   Where LEFT stands in the environment, the file of that name gets the line `<n> blocks, <m> bytes` at the program's exit: what the
   program's own code has asked for since its main began and has not given back. What the loader and the C library ask for by themselves,
   before main, for streams or for threads, may be refused and is not counted as left: a call out of their code is none of the program's.
   A program that ends by a signal writes no such line.

   Where HALT stands in the environment, the program is ended by SIGALRM after so many seconds. Preloaded before the C library
   (LD_PRELOAD). */
#include <dlfcn.h>
#include <errno.h>
#include <fcntl.h>
#include <link.h>
#include <stdatomic.h>
#include <stdint.h>
#include <stdio.h>
#include <stdlib.h>
#include <sys/syscall.h>
#include <unistd.h>

typedef int main_function(int, char **, char **);
typedef int start_function(main_function *, int, char **, void (*)(void), void (*)(void), void (*)(void), void *);

void *__libc_malloc(size_t);
void *__libc_calloc(size_t, size_t);
void *__libc_realloc(void *, size_t);
void *__libc_memalign(size_t, size_t);
void __libc_free(void *);

static main_function *program_main;
static atomic_bool counting;
static atomic_ulong requests;
static unsigned long refused, many, told;

/* Where the program's own code lies. */
static uintptr_t code_start = UINTPTR_MAX, code_end;

/* The blocks that are left, by their addresses: each stands in the first free slot behind that of its address. */
#define SLOTS ((size_t)1 << 20)
static struct {
    void *block;
    size_t size;
} left[SLOTS];
static size_t blocks, bytes;
static atomic_flag is_locked = ATOMIC_FLAG_INIT;

static size_t slot_of(const void *block)
{
    return ((uintptr_t)block >> 4) * 0x9E3779B97F4A7C15u >> 44;
}

static void lock(void)
{
    while (atomic_flag_test_and_set(&is_locked))
        continue;
}

static void unlock(void)
{
    atomic_flag_clear(&is_locked);
}

/* Counts a block that the program's own code asked for from this address. */
static void *keep(void *block, size_t size, const void *caller)
{
    size_t slot = slot_of(block);
    uintptr_t address = (uintptr_t)caller;
    if (!block || !atomic_load(&counting) || address < code_start || address >= code_end)
        return block;
    lock();
    if (++blocks == SLOTS)
        abort();
    while (left[slot].block)
        slot = (slot + 1) % SLOTS;
    left[slot].block = block;
    left[slot].size = size;
    bytes += size;
    unlock();
    return block;
}

/* Empties a slot, and moves up what was put behind it for want of room. */
static void empty(size_t slot)
{
    size_t next = slot;
    blocks--;
    bytes -= left[slot].size;
    while (left[next = (next + 1) % SLOTS].block) {
        if ((next - slot_of(left[next].block)) % SLOTS >= (next - slot) % SLOTS) {
            left[slot] = left[next];
            slot = next;
        }
    }
    left[slot].block = NULL;
}

/* Counts a block no more. Says how many bytes it has, and whether it was counted. */
static int forget(void *block, size_t *size)
{
    size_t slot = slot_of(block);
    int is_there;
    if (!block)
        return 0;
    lock();
    while (left[slot].block && left[slot].block != block)
        slot = (slot + 1) % SLOTS;
    is_there = left[slot].block == block;
    if (is_there) {
        *size = left[slot].size;
        empty(slot);
    }
    unlock();
    return is_there;
}

/* The number in the environment, or 0. */
static unsigned long number(const char *name)
{
    const char *digits = getenv(name);
    return digits ? strtoul(digits, NULL, 10) : 0;
}

/* Whether this request is one to refuse. */
static int is_refused(void)
{
    unsigned long request;
    if (!atomic_load(&counting))
        return 0;
    request = atomic_fetch_add(&requests, 1) + 1;
    if (!refused || request < refused || request - refused >= many)
        return 0;
    (void)!write((int)told, "refused\n", 8);
    errno = ENOMEM;
    return 1;
}

void *malloc(size_t size)
{
    return is_refused() ? NULL : keep(__libc_malloc(size), size, __builtin_return_address(0));
}

void *calloc(size_t count, size_t size)
{
    return is_refused() ? NULL : keep(__libc_calloc(count, size), count * size, __builtin_return_address(0));
}

void *aligned_alloc(size_t alignment, size_t size)
{
    return is_refused() ? NULL : keep(__libc_memalign(alignment, size), size, __builtin_return_address(0));
}

int posix_memalign(void **block_out, size_t alignment, size_t size)
{
    void *block = is_refused() ? NULL : keep(__libc_memalign(alignment, size), size, __builtin_return_address(0));
    if (!block)
        return ENOMEM;
    *block_out = block;
    return 0;
}

/* The old block is counted no more before the call, since another thread may have its address once it is given back. */
void *realloc(void *block, size_t size)
{
    const void *caller = __builtin_return_address(0);
    size_t old_size = 0;
    int was_there;
    void *moved;
    if (is_refused())
        return NULL;
    was_there = forget(block, &old_size);
    moved = __libc_realloc(block, size);
    if (!moved && size && was_there)
        keep(block, old_size, caller);
    return keep(moved, size, caller);
}

void free(void *block)
{
    size_t size;
    forget(block, &size);
    __libc_free(block);
}

/* Sees where the program's own code lies: the program is the first that is shown. */
static int see_code(struct dl_phdr_info *shown, size_t size, void *nothing)
{
    (void)size, (void)nothing;
    for (int at = 0; at < shown->dlpi_phnum; at++) {
        const ElfW(Phdr) *part = &shown->dlpi_phdr[at];
        uintptr_t start = shown->dlpi_addr + part->p_vaddr;
        if (part->p_type != PT_LOAD || !(part->p_flags & PF_X))
            continue;
        code_start = start < code_start ? start : code_start;
        code_end = start + part->p_memsz > code_end ? start + part->p_memsz : code_end;
    }
    return 1;
}

static int begin(int count, char **words, char **environment)
{
    refused = number("REFUSE");
    told = number("TOLD");
    many = number("MANY") ? number("MANY") : 1;
    alarm((unsigned)number("HALT"));
    dl_iterate_phdr(see_code, NULL);
    atomic_store(&counting, 1);
    return program_main(count, words, environment);
}

int __libc_start_main(main_function *entry, int count, char **words, void (*init)(void), void (*fini)(void), void (*loader_fini)(void),
                      void *stack_end)
{
    start_function *start = (start_function *)dlsym(RTLD_NEXT, "__libc_start_main");
    program_main = entry;
    return start(begin, count, words, init, fini, loader_fini, stack_end);
}

/* At an exit by main or by exit, and at one that runs nothing else before. */
__attribute__((destructor)) static void tell_left(void)
{
    const char *name = getenv("LEFT");
    int file;
    atomic_store(&counting, 0);
    if (!name || (file = open(name, O_WRONLY | O_CREAT | O_TRUNC, 0600)) < 0)
        return;
    dprintf(file, "%zu blocks, %zu bytes\n", blocks, bytes);
    close(file);
}

void _exit(int status)
{
    tell_left();
    for (;;)
        syscall(SYS_exit_group, status);
}
