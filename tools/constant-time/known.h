/* Code of which it is known what the check has to find in it. */
#include <stddef.h>
#include <stdint.h>

struct known {
    const char *name;
    int taint_branches, taint_addresses; /* how many memcheck has to report */
    int trace_branches, trace_addresses; /* how many differ between traces */
    uint32_t (*run)(const uint8_t key[32], uint8_t *out, size_t n);
};
extern const struct known known_code[];
