/* A library to put before the C library of the program `aeadkit`, for constant-time.sh. It makes secret, under memcheck, the values
   that the program decodes of its command line and the text that it reads, and sets the marks of a trace (marks.h).

   SECRETS has the bytes of the secret values in the order in which they are decoded, in hexadecimal and with spaces between. A
   value is decoded once the next request for memory comes, and from the first one on the program is looked at. READS=secret makes
   the bytes of files secret.
   PUBLIC=LENGTH, under memcheck, is the length of the text of a wrapping with padding. The program decrypts it, so for memcheck it
   is secret; but like the validity of the wrapping it is a verdict, and the program goes on with it. It is made public when memory
   is next asked for or returned.
   CHANGED=READING flips a bit of the byte at DIFFERENCE in one reading of the file. Readings are counted from 1 as they are begun.
   GROUP=LENGTH begins a group of runs over texts of this length; each later run of it has GROUP=-. The variables of all have the
   same length, since the stack begins below them.
   TRACED says that the program runs under QEMU. */
#include "marks.h"
#include <dlfcn.h>
#include <stdlib.h>
#include <string.h>
#include <unistd.h>
#include <valgrind/memcheck.h>

enum { MOST_SECRETS = 2, MOST_BYTES = 2048, MOST_READINGS = 3 };

static struct { unsigned char bytes[MOST_BYTES]; size_t length; } secrets[MOST_SECRETS];
static size_t secret_count, found, last_size;
static void *last;
static int reads_secrets, readings[MOST_READINGS], reading_count, changed;
static size_t difference, offset;
static uint32_t public_length; /* or 0 */
extern void *__libc_stack_end;

static int number_of(const char *variable) {
    const char *digits = getenv(variable);
    return digits ? atoi(digits) : 0;
}

__attribute__((constructor)) static void begin(void) {
    if (!RUNNING_ON_VALGRIND && !getenv("TRACED")) return; /* but one of the programs that start valgrind */
    for (const char *digits = getenv("SECRETS"); digits && *digits; secret_count++) {
        for (unsigned byte; sscanf(digits, "%2x", &byte) == 1 && *digits != ' '; digits += 2)
            secrets[secret_count].bytes[secrets[secret_count].length++] = (unsigned char)byte;
        digits += *digits == ' ';
    }
    reads_secrets = getenv("READS") != NULL;
    changed = number_of("CHANGED");
    difference = (size_t)number_of("DIFFERENCE");
    public_length = (uint32_t)number_of("PUBLIC");
    VALGRIND_DISABLE_ERROR_REPORTING;
    print_places(stderr);
    const char *length = getenv("GROUP");
    if (length && *length != '-') {
        fprintf(stderr, "group %s 0 0\n", length);
        ct_group = 1;
    }
    ct_secret = 1;
}

__attribute__((destructor)) static void end(void) { ct_off = 1; }

/* Looks whether the block that was asked for last has the next value, decoded. */
static void look(void) {
    if (!last || found == secret_count || last_size != secrets[found].length) return;
    VALGRIND_DISABLE_ERROR_REPORTING;
    if (!memcmp(last, secrets[found].bytes, last_size)) {
        (void)VALGRIND_MAKE_MEM_UNDEFINED(last, last_size);
        if (found++ == 0) VALGRIND_ENABLE_ERROR_REPORTING;
        ct_on = 1;
    }
    VALGRIND_ENABLE_ERROR_REPORTING;
}

/* Makes the length public wherever it stands, as 32 or 64 bits: on the stack, and in the registers that a call keeps, since this
   function names them as changed and so stores them on the stack, perhaps in the 128 bytes below its pointer. A secret number that
   equals the length by chance would become public too. */
__attribute__((noinline)) static void declare_length(void) {
    const uint32_t *at;
    VALGRIND_DISABLE_ERROR_REPORTING;
    __asm__ volatile("lea -128(%%rsp), %0" : "=r"(at) : : "rbx", "rbp", "r12", "r13", "r14", "r15", "memory");
    for (; at < (const uint32_t *)__libc_stack_end; at++)
        if (*at == public_length) (void)VALGRIND_MAKE_MEM_DEFINED(at, at[1] ? sizeof *at : 2 * sizeof *at);
    VALGRIND_ENABLE_ERROR_REPORTING;
}

/* Whether there is such a length, and the key is decoded. */
static int length_is_declared(void) { return public_length && found == secret_count; }

void *malloc(size_t size) {
    static void *(*next)(size_t);
    if (!next) *(void **)&next = dlsym(RTLD_NEXT, "malloc");
    if (length_is_declared()) declare_length();
    look();
    last_size = size;
    return last = next(size);
}

void free(void *block) {
    static void (*next)(void *);
    if (!next) *(void **)&next = dlsym(RTLD_NEXT, "free");
    if (length_is_declared()) declare_length();
    if (block == last) last = NULL;
    next(block);
}

/* The number of the reading for which a file is read. */
static int reading_of(int file) {
    int reading = 0;
    while (reading < reading_count && readings[reading] != file) reading++;
    if (reading == reading_count && reading < MOST_READINGS) readings[reading_count++] = file;
    return reading + 1;
}

/* Flips the bit, if it is among the next bytes of its reading, by the same instructions and addresses wherever it is. */
static void change(uint8_t *bytes, size_t count) {
    for (size_t i = 0; i < count; i++) bytes[i] ^= offset + i == difference;
    offset += count;
}

ssize_t read(int file, void *to, size_t length) {
    static ssize_t (*next)(int, void *, size_t);
    if (!next) *(void **)&next = dlsym(RTLD_NEXT, "read");
    ssize_t count = next(file, to, length);
    if (changed && count > 0 && reading_of(file) == changed) change(to, (size_t)count);
    if (reads_secrets && count > 0) (void)VALGRIND_MAKE_MEM_UNDEFINED(to, count);
    return count;
}

ssize_t write(int file, const void *from, size_t length) {
    static ssize_t (*next)(int, const void *, size_t);
    if (!next) *(void **)&next = dlsym(RTLD_NEXT, "write");
    (void)VALGRIND_MAKE_MEM_DEFINED(from, length);
    return next(file, from, length);
}
