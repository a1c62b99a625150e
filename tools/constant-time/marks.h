/* What a traced program says of itself: the marks by which its trace is cut, and where its objects lie. */
#define _GNU_SOURCE
#include <errno.h>
#include <link.h>
#include <stdint.h>
#include <stdio.h>

/* A store to one of these is a mark: a group of runs over the same lengths begins, a run with another secret, and the stretch
   that is looked at begins and ends. They are not zero at first, since the loader's zeros would be stores too. */
volatile uint64_t ct_group = 1, ct_secret = 1, ct_on = 1, ct_off = 1;

static int print_object(struct dl_phdr_info *info, size_t size, void *out) {
    uint64_t low = UINT64_MAX, high = 0;
    (void)size;
    for (int i = 0; i < info->dlpi_phnum; i++) {
        if (info->dlpi_phdr[i].p_type != PT_LOAD) continue;
        uint64_t start = info->dlpi_addr + info->dlpi_phdr[i].p_vaddr, end = start + info->dlpi_phdr[i].p_memsz;
        low = start < low ? start : low;
        high = end > high ? end : high;
    }
    fprintf(out, "object %#llx %#llx %#llx %s\n", (unsigned long long)low, (unsigned long long)high,
            (unsigned long long)info->dlpi_addr, info->dlpi_name[0] ? info->dlpi_name : program_invocation_short_name);
    return 0;
}

/* Prints 'marks' with the addresses of the marks, and a line 'object LOW HIGH BIAS NAME' for each object of the process. */
static void print_places(FILE *out) {
    fprintf(out, "marks %p %p %p %p\n", (void *)&ct_group, (void *)&ct_secret, (void *)&ct_on, (void *)&ct_off);
    dl_iterate_phdr(print_object, out);
    fflush(out);
}
