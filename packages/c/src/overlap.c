/* What stands between C and the nine proved calls that write beside what they read. Each of them returns AEADKIT_OVERLAP here if
   the output shares a byte with anything else that the call is given, and otherwise what the proved function returns for the same
   arguments. It looks at addresses and lengths alone, and reads and writes no memory of the caller. Below them stands aeadkit_wipe.

   A slice that Rattle writes shares no byte with another one: the proofs rely on that, and a caller in C may break it. lib.sh links
   this file before the proved code, in which it renames `aeadkit_seal` to `aeadkit_seal_proved`, a name that is not exported. The
   WebAssembly module goes without: its package copies each argument to a place of its own. */
#include "aeadkit.h"

/* Whether two ranges share a byte. Where one begins in the other is a difference of addresses, and no sum can wrap round. */
static inline int meet(const void *a, size_t a_length, const void *b, size_t b_length) {
    uintptr_t a_in_b = (uintptr_t)a - (uintptr_t)b;
    return (a_in_b < b_length && a_length != 0) || (-a_in_b < a_length && b_length != 0);
}

/* The proved functions. */
#pragma GCC visibility push(hidden)
__typeof__(aeadkit_seal) aeadkit_seal_proved;
__typeof__(aeadkit_open) aeadkit_open_proved;
__typeof__(aeadkit_seal_with) aeadkit_seal_with_proved;
__typeof__(aeadkit_open_with) aeadkit_open_with_proved;
__typeof__(aeadkit_wrap) aeadkit_wrap_proved;
__typeof__(aeadkit_unwrap) aeadkit_unwrap_proved;
__typeof__(aeadkit_wrap_padded) aeadkit_wrap_padded_proved;
__typeof__(aeadkit_unwrap_padded) aeadkit_unwrap_padded_proved;
__typeof__(aeadkit_key_init) aeadkit_key_init_proved;
#pragma GCC visibility pop

uint32_t aeadkit_seal(uint32_t suite, const void *key, size_t key_length, const void *nonce, size_t nonce_length,
                      const void *text, size_t text_length, const void *aad, size_t aad_length, uint8_t *sealed,
                      size_t sealed_length) {
    if (meet(key, key_length, sealed, sealed_length) || meet(nonce, nonce_length, sealed, sealed_length)
        || meet(text, text_length, sealed, sealed_length) || meet(aad, aad_length, sealed, sealed_length))
        return AEADKIT_OVERLAP;
    return aeadkit_seal_proved(suite, key, key_length, nonce, nonce_length, text, text_length, aad, aad_length, sealed,
                               sealed_length);
}

uint32_t aeadkit_open(uint32_t suite, const void *key, size_t key_length, const void *nonce, size_t nonce_length,
                      const void *sealed, size_t sealed_length, const void *aad, size_t aad_length, uint8_t *text,
                      size_t text_length) {
    if (meet(key, key_length, text, text_length) || meet(nonce, nonce_length, text, text_length)
        || meet(sealed, sealed_length, text, text_length) || meet(aad, aad_length, text, text_length))
        return AEADKIT_OVERLAP;
    return aeadkit_open_proved(suite, key, key_length, nonce, nonce_length, sealed, sealed_length, aad, aad_length, text,
                               text_length);
}

uint32_t aeadkit_seal_with(const struct aeadkit_key *kept, const void *nonce, size_t nonce_length, const void *text,
                           size_t text_length, const void *aad, size_t aad_length, uint8_t *sealed, size_t sealed_length) {
    if (meet(kept, sizeof *kept, sealed, sealed_length) || meet(nonce, nonce_length, sealed, sealed_length)
        || meet(text, text_length, sealed, sealed_length) || meet(aad, aad_length, sealed, sealed_length))
        return AEADKIT_OVERLAP;
    return aeadkit_seal_with_proved(kept, nonce, nonce_length, text, text_length, aad, aad_length, sealed, sealed_length);
}

uint32_t aeadkit_open_with(const struct aeadkit_key *kept, const void *nonce, size_t nonce_length, const void *sealed,
                           size_t sealed_length, const void *aad, size_t aad_length, uint8_t *text, size_t text_length) {
    if (meet(kept, sizeof *kept, text, text_length) || meet(nonce, nonce_length, text, text_length)
        || meet(sealed, sealed_length, text, text_length) || meet(aad, aad_length, text, text_length))
        return AEADKIT_OVERLAP;
    return aeadkit_open_with_proved(kept, nonce, nonce_length, sealed, sealed_length, aad, aad_length, text, text_length);
}

uint32_t aeadkit_wrap(const void *key, size_t key_length, const void *text, size_t text_length, uint8_t *wrapped,
                      size_t wrapped_length) {
    if (meet(key, key_length, wrapped, wrapped_length) || meet(text, text_length, wrapped, wrapped_length)) return AEADKIT_OVERLAP;
    return aeadkit_wrap_proved(key, key_length, text, text_length, wrapped, wrapped_length);
}

uint32_t aeadkit_unwrap(const void *key, size_t key_length, const void *wrapped, size_t wrapped_length, uint8_t *text,
                        size_t text_length) {
    if (meet(key, key_length, text, text_length) || meet(wrapped, wrapped_length, text, text_length)) return AEADKIT_OVERLAP;
    return aeadkit_unwrap_proved(key, key_length, wrapped, wrapped_length, text, text_length);
}

uint32_t aeadkit_wrap_padded(const void *key, size_t key_length, const void *text, size_t text_length, uint8_t *wrapped,
                             size_t wrapped_length) {
    if (meet(key, key_length, wrapped, wrapped_length) || meet(text, text_length, wrapped, wrapped_length)) return AEADKIT_OVERLAP;
    return aeadkit_wrap_padded_proved(key, key_length, text, text_length, wrapped, wrapped_length);
}

uint32_t aeadkit_unwrap_padded(const void *key, size_t key_length, const void *wrapped, size_t wrapped_length, uint8_t *text,
                               size_t text_room, size_t *text_length) {
    if (meet(key, key_length, text, text_room) || meet(wrapped, wrapped_length, text, text_room)
        || meet(text, text_room, text_length, sizeof *text_length) || meet(key, key_length, text_length, sizeof *text_length)
        || meet(wrapped, wrapped_length, text_length, sizeof *text_length))
        return AEADKIT_OVERLAP;
    return aeadkit_unwrap_padded_proved(key, key_length, wrapped, wrapped_length, text, text_room, text_length);
}

uint32_t aeadkit_key_init(struct aeadkit_key *kept, uint32_t suite, const void *key, size_t key_length) {
    if (meet(key, key_length, kept, sizeof *kept)) return AEADKIT_OVERLAP;
    return aeadkit_key_init_proved(kept, suite, key, key_length);
}

void aeadkit_wipe(void *bytes, size_t length) {
    if (length != 0) __builtin_memset(bytes, 0, length);
    /* It may read the bytes, as far as the compiler knows. */
    __asm__ __volatile__("" : : "r"(bytes) : "memory");
}
