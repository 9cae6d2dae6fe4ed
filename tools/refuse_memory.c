/* Refuses allocations of a program that is started with this library in LD_PRELOAD: its malloc and realloc answer that
   there is no memory. REFUSE_FROM is the number of the first one that is refused, from 1, or 0 for none; REFUSE_COUNT
   says how many are from there on; the number of all is written to the file REFUSE_TOLD as the program ends. Only calls
   of the program's own code are counted, and none that the C library makes. */
#define _GNU_SOURCE
#include <link.h>
#include <stdatomic.h>
#include <stdint.h>
#include <stdio.h>
#include <stdlib.h>
#include <sys/syscall.h>
#include <unistd.h>

void *__libc_malloc(size_t size);
void *__libc_realloc(void *old, size_t size);

static uintptr_t code_begin, code_end;
static unsigned long refused_first, refused_count;
static atomic_ulong calls;

/* The first object is the program itself. */
static int note_program(struct dl_phdr_info *info, size_t size, void *data) {
    (void)size, (void)data;
    for (int i = 0; i < info->dlpi_phnum; i++) {
        if (info->dlpi_phdr[i].p_type == PT_LOAD && (info->dlpi_phdr[i].p_flags & PF_X)) {
            code_begin = info->dlpi_addr + info->dlpi_phdr[i].p_vaddr;
            code_end = code_begin + info->dlpi_phdr[i].p_memsz;
        }
    }
    return 1;
}

static unsigned long number_in(const char *name) {
    const char *said = getenv(name);
    return said ? strtoul(said, NULL, 10) : 0;
}

__attribute__((constructor)) static void begin(void) {
    refused_first = number_in("REFUSE_FROM");
    refused_count = number_in("REFUSE_COUNT");
    dl_iterate_phdr(note_program, NULL);
}

static void tell(void) {
    const char *name = getenv("REFUSE_TOLD");
    FILE *told = name ? fopen(name, "w") : NULL;
    if (told) {
        fprintf(told, "%lu\n", atomic_load(&calls));
        fclose(told);
    }
}

/* The program ends by this call. */
void _exit(int status) {
    tell();
    syscall(SYS_exit_group, status);
    __builtin_unreachable();
}

static int is_refused(void *caller) {
    uintptr_t at = (uintptr_t)caller;
    if (at < code_begin || at >= code_end) {
        return 0;
    }
    unsigned long call = atomic_fetch_add(&calls, 1) + 1;
    return refused_first != 0 && call >= refused_first && call - refused_first < refused_count;
}

void *malloc(size_t size) {
    return is_refused(__builtin_return_address(0)) ? NULL : __libc_malloc(size);
}

void *realloc(void *old, size_t size) {
    return is_refused(__builtin_return_address(0)) ? NULL : __libc_realloc(old, size);
}
