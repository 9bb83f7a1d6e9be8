// Preloaded into a program, it counts the program's requests for memory and refuses one of them:
//
//     REFUSE=N REPORT=FILE LD_PRELOAD=.../refuse.so PROGRAM >OUTPUT
//
// refuses request number N, from 1; 0: none. When the program ends by itself, it writes one line to
// FILE: how many requests there were, how many blocks were not given back, and how many octets of
// OUTPUT, a file, were there when request N was refused, or -1 where none was.
//
// Only the program's own calls count: those of the C library and the loader are never refused.
#define _GNU_SOURCE
#include <errno.h>
#include <fcntl.h>
#include <link.h>
#include <stdbool.h>
#include <stddef.h>
#include <stdint.h>
#include <stdio.h>
#include <stdlib.h>
#include <unistd.h>

// The C library's own, which it gives out under these names too.
void *__libc_malloc(size_t size);
void *__libc_calloc(size_t count, size_t size);
void *__libc_realloc(void *block, size_t size);
void *__libc_memalign(size_t align, size_t size);
void __libc_free(void *block);

static uintptr_t program_start, program_end;
static unsigned long requests, refused;
static long blocks;
static long printed = -1;

// The first object that the loader names is the program.
static int find_program(struct dl_phdr_info *info, size_t size, void *unused) {
    (void)size, (void)unused;
    program_start = UINTPTR_MAX;
    for (int i = 0; i < info->dlpi_phnum; i++) {
        if (info->dlpi_phdr[i].p_type != PT_LOAD) continue;
        uintptr_t start = info->dlpi_addr + info->dlpi_phdr[i].p_vaddr;
        uintptr_t end = start + info->dlpi_phdr[i].p_memsz;
        if (start < program_start) program_start = start;
        if (end > program_end) program_end = end;
    }
    return 1;
}

__attribute__((constructor)) static void begin(void) {
    const char *number = getenv("REFUSE");
    refused = number ? strtoul(number, NULL, 10) : 0;
    dl_iterate_phdr(find_program, NULL);
}

__attribute__((destructor)) static void end(void) {
    const char *file = getenv("REPORT");
    int report = file ? open(file, O_WRONLY | O_CREAT | O_TRUNC, 0666) : -1;
    if (report < 0) return;
    char line[80];
    int length = snprintf(line, sizeof line, "%lu %ld %ld\n", requests, blocks, printed);
    if (write(report, line, length) != length) unlink(file);
    close(report);
}

static bool is_program(void *caller) {
    return (uintptr_t)caller >= program_start && (uintptr_t)caller < program_end;
}

// Counts a request, and tells whether it is the one to be refused.
static bool is_refused(void *caller) {
    if (!is_program(caller) || ++requests != refused) return false;
    printed = lseek(STDOUT_FILENO, 0, SEEK_CUR);
    return true;
}

// Counts a new block, if there is one.
static void *counted(void *caller, void *block) {
    blocks += block != NULL && is_program(caller);
    return block;
}

static void *no_block(void) {
    errno = ENOMEM;
    return NULL;
}

#define CALLER __builtin_return_address(0)

void *malloc(size_t size) {
    return is_refused(CALLER) ? no_block() : counted(CALLER, __libc_malloc(size));
}

void *calloc(size_t count, size_t size) {
    return is_refused(CALLER) ? no_block() : counted(CALLER, __libc_calloc(count, size));
}

void *memalign(size_t align, size_t size) {
    return is_refused(CALLER) ? no_block() : counted(CALLER, __libc_memalign(align, size));
}

void *aligned_alloc(size_t align, size_t size) {
    return is_refused(CALLER) ? no_block() : counted(CALLER, __libc_memalign(align, size));
}

int posix_memalign(void **out, size_t align, size_t size) {
    void *block = is_refused(CALLER) ? NULL : counted(CALLER, __libc_memalign(align, size));
    if (block == NULL) return ENOMEM;
    *out = block;
    return 0;
}

// Where it is refused, the old block is as it was.
void *realloc(void *old, size_t size) {
    if (is_refused(CALLER)) return no_block();
    void *block = __libc_realloc(old, size);
    return old ? block : counted(CALLER, block);
}

void free(void *block) {
    blocks -= block != NULL && is_program(CALLER);
    __libc_free(block);
}
