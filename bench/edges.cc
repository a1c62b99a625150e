// Runs a vector file through the library and its peers, and prints each record that one of them answers otherwise: edges FILE.
// Beside the peers of peers.h, here with all that the processor has, there are Botan, BearSSL and libtomcrypt. The status is 1 if
// the library is one of them.
extern "C" {
#include "aeadkit.h"
}
#include <algorithm>
#include <fstream>
#include <iostream>
#include <map>
#include <string>
#include <vector>

#include "peers.h"

#ifdef WITH_BOTAN
#include <botan/aead.h>
#include <botan/block_cipher.h>
#include <botan/nist_keywrap.h>
#include <botan/version.h>

// Botan 2 has no AES-GCM-SIV.
static int botan_has(const struct kind *kind) { return kind->form != SIV; }

static int by_botan(const struct kind *kind, const struct message *m, enum direction direction) {
    const std::string aes = "AES-" + std::to_string(8 * kind->key_length);
    size_t sealed = whole(kind, m);
    uint8_t *text = text_of(kind, m);
    try {
        if (kind->form >= WRAP) {
            auto cipher = Botan::BlockCipher::create_or_throw(aes);
            cipher->set_key(m->key, kind->key_length);
            if (direction == SEALING) {
                auto wrapped = kind->form == WRAP ? Botan::nist_key_wrap(text, m->length, *cipher)
                                                  : Botan::nist_key_wrap_padded(text, m->length, *cipher);
                std::copy(wrapped.begin(), wrapped.end(), m->bytes);
            } else {
                auto unwrapped = kind->form == WRAP ? Botan::nist_key_unwrap(m->bytes, sealed, *cipher)
                                                    : Botan::nist_key_unwrap_padded(m->bytes, m->length + 8, *cipher);
                std::copy(unwrapped.begin(), unwrapped.end(), text);
            }
            return 1;
        }
        auto mode = Botan::AEAD_Mode::create_or_throw(kind->form == CHACHA ? "ChaCha20Poly1305" : aes + "/GCM",
                                                      direction == SEALING ? Botan::ENCRYPTION : Botan::DECRYPTION);
        mode->set_key(m->key, kind->key_length);
        mode->set_associated_data(m->aad, m->aad_length);
        mode->start(m->nonce, 12);
        Botan::secure_vector<uint8_t> bytes(m->bytes, m->bytes + (direction == SEALING ? m->length : sealed));
        mode->finish(bytes);
        std::copy(bytes.begin(), bytes.end(), m->bytes);
        return 1;
    } catch (const std::exception &) {
        return 0;
    }
}
#endif

#ifdef WITH_BEARSSL
#include <bearssl.h>

static int bearssl_has(const struct kind *kind) { return kind->form == CHACHA || kind->form == GCM; }
static int bearssl_has_chacha(const struct kind *kind) { return kind->form == CHACHA; }

static int by_bearssl_gcm(const struct kind *kind, const struct message *m, enum direction direction, br_ghash ghash) {
    br_aes_ct64_ctr_keys keys;
    br_gcm_context context;
    br_aes_ct64_ctr_init(&keys, m->key, kind->key_length);
    br_gcm_init(&context, &keys.vtable, ghash);
    br_gcm_reset(&context, m->nonce, 12);
    br_gcm_aad_inject(&context, m->aad, m->aad_length);
    br_gcm_flip(&context);
    br_gcm_run(&context, direction == SEALING, m->bytes, m->length);
    if (direction == OPENING) return br_gcm_check_tag(&context, m->bytes + m->length) == 1;
    br_gcm_get_tag(&context, m->bytes + m->length);
    return 1;
}

static int by_bearssl_chacha(const struct message *m, enum direction direction, br_poly1305_run run) {
    uint8_t tag[16];
    run(m->key, m->nonce, m->bytes, m->length, m->aad, m->aad_length, tag, br_chacha20_ct_run, direction == SEALING);
    if (direction == OPENING) return memcmp(tag, m->bytes + m->length, 16) == 0;
    memcpy(m->bytes + m->length, tag, 16);
    return 1;
}

// BearSSL has several bodies of one function, and a program takes one of them.
static int by_bearssl(const struct kind *kind, const struct message *m, enum direction direction) {
    return kind->form == GCM ? by_bearssl_gcm(kind, m, direction, br_ghash_ctmul64) : by_bearssl_chacha(m, direction, br_poly1305_ctmul_run);
}

static int by_bearssl_32(const struct kind *kind, const struct message *m, enum direction direction) {
    return kind->form == GCM ? by_bearssl_gcm(kind, m, direction, br_ghash_ctmul32) : by_bearssl_chacha(m, direction, br_poly1305_ctmul32_run);
}

static int by_bearssl_i15(const struct kind *kind, const struct message *m, enum direction direction) {
    return kind->form == GCM ? by_bearssl_gcm(kind, m, direction, br_ghash_ctmul) : by_bearssl_chacha(m, direction, br_poly1305_i15_run);
}

static int by_bearssl_q(const struct kind *, const struct message *m, enum direction direction) {
    br_poly1305_run run = br_poly1305_ctmulq_get();
    return run && by_bearssl_chacha(m, direction, run);
}
#endif

#ifdef WITH_TOMCRYPT
#undef chacha_crypt // which nettle defines
#include <tomcrypt.h>

static int tomcrypt_has(const struct kind *kind) { return kind->form == CHACHA || kind->form == GCM; }

static int by_tomcrypt(const struct kind *kind, const struct message *m, enum direction direction) {
    static const int aes = register_cipher(&aes_desc);
    uint8_t *bytes = m->bytes, tag[16];
    unsigned long sixteen = 16;
    memcpy(tag, bytes + m->length, 16);
    // Its calls write the tag in both directions, and the caller compares it.
    int error = kind->form == CHACHA
        ? chacha20poly1305_memory(m->key, 32, m->nonce, 12, m->aad, m->aad_length, bytes, m->length, bytes, tag, &sixteen,
                                  direction == SEALING ? CHACHA20POLY1305_ENCRYPT : CHACHA20POLY1305_DECRYPT)
        : gcm_memory(aes, m->key, kind->key_length, m->nonce, 12, m->aad, m->aad_length, bytes, m->length, bytes, tag, &sixteen,
                     direction == SEALING ? GCM_ENCRYPT : GCM_DECRYPT);
    if (direction == OPENING) return error == CRYPT_OK && memcmp(tag, bytes + m->length, 16) == 0;
    memcpy(bytes + m->length, tag, 16);
    return error == CRYPT_OK;
}
#endif

static const struct party more[] = {
#ifdef WITH_BOTAN
    {"Botan", botan_has, by_botan},
#endif
#ifdef WITH_BEARSSL
    {"BearSSL (ctmul, ctmul64)", bearssl_has, by_bearssl},
    {"BearSSL (ctmul32)", bearssl_has, by_bearssl_32},
    {"BearSSL (i15, ctmul)", bearssl_has, by_bearssl_i15},
    {"BearSSL (ctmulq)", bearssl_has_chacha, by_bearssl_q},
#endif
#ifdef WITH_TOMCRYPT
    {"libtomcrypt", tomcrypt_has, by_tomcrypt},
#endif
    {nullptr, nullptr, nullptr},
};

using bytes = std::vector<uint8_t>;

static bytes of_hex(const std::string &digits) {
    bytes found;
    for (size_t i = 0; i + 1 < digits.size(); i += 2) found.push_back((uint8_t)std::stoi(digits.substr(i, 2), nullptr, 16));
    return found;
}

static std::string hex(const uint8_t *bytes, size_t length) {
    std::string digits;
    for (size_t i = 0; i < length; i++) digits += {"0123456789abcdef"[bytes[i] >> 4], "0123456789abcdef"[bytes[i] & 15]};
    return digits;
}

struct record {
    int number;
    std::string comment;
    const struct kind *kind;
    bytes key, nonce, aad, sealed, text;
    bool invalid;
};

static std::vector<record> read(const char *path) {
    std::ifstream file(path);
    std::vector<record> records;
    std::map<std::string, std::string> values;
    std::string line, comment;
    while (std::getline(file, line)) {
        size_t at = line.find('=');
        std::string name = line.substr(0, line.find(' ')), value = at == line.npos || at + 2 > line.size() ? "" : line.substr(at + 2);
        if (line[0] == '#') comment = line.substr(2);
        values[name] = value;
        if (name != "text" && name != "invalid") continue;
        std::string suite = values["suite"];
        std::transform(suite.begin(), suite.end(), suite.begin(), toupper);
        const struct kind *kind = kinds;
        while (kind < kinds + KINDS && strcasecmp(kind->name, suite.c_str()) != 0) kind++;
        if (kind == kinds + KINDS) {
            std::cerr << "no suite " << suite << "\n";
            exit(2);
        }
        records.push_back({(int)records.size() + 1, comment, kind, of_hex(values["key"]), of_hex(values["nonce"]), of_hex(values["aad"]),
                           of_hex(values["sealed"]), of_hex(values["text"]), name == "invalid"});
        values.clear();
    }
    return records;
}

// What a peer answers to a record otherwise than the file says; empty if nothing.
static std::string difference(const party &peer, const record &record) {
    const struct kind *kind = record.kind;
    size_t n = record.sealed.size() - (kind->form >= WRAP ? 8 : 16);
    uint8_t room[1 << 13] = {0};
    struct message m = {};
    memcpy(m.key, record.key.data(), record.key.size());
    memcpy(m.nonce, record.nonce.data(), record.nonce.size());
    m.aad = record.aad.data();
    m.aad_length = record.aad.size();
    m.bytes = room;
    m.length = n;
    memcpy(room, record.sealed.data(), record.sealed.size());
    int opened = peer.act(kind, &m, OPENING);
    const uint8_t *text = text_of(kind, &m);
    if (record.invalid) return opened ? "opens it" : "";
    std::string what = !opened ? "refuses it" : "opens it to " + hex(text, n);
    if (opened && memcmp(text, record.text.data(), record.text.size()) == 0) what.clear();
    memset(room, 0, sizeof room);
    m.length = record.text.size();
    if (m.length) memcpy(text_of(kind, &m), record.text.data(), m.length);
    if (!peer.act(kind, &m, SEALING)) return what + " does not seal it";
    size_t tag = std::min<size_t>(16, record.sealed.size()), end = record.sealed.size() - tag;
    if (memcmp(room, record.sealed.data(), record.sealed.size()) != 0)
        what += ", seals it to .." + hex(room + end, tag) + ", not .." + hex(record.sealed.data() + end, tag);
    return what;
}

// Whether a peer takes a record: calls take neither sealed bytes that are shorter than what sealing adds, nor nettle other lengths
// of a wrapping than multiples of 8.
static bool takes(const party &peer, const record &record) {
    size_t length = record.sealed.size();
    if (!peer.has(record.kind) || length < (record.kind->form >= WRAP ? 8 : 16)) return false;
    return record.kind->form < WRAP || strcmp(peer.name, "nettle") != 0 || (length % 8 == 0 && length >= 24);
}

int main(int count, char **words) {
    if (count != 2) {
        std::cerr << "usage: edges FILE\n";
        return 2;
    }
    capability = ALL;
    prepare(words);
#ifdef WITH_BOTAN
    std::cout << "Botan " << Botan::short_version_string() << ". ";
#endif
#ifdef WITH_BEARSSL
    std::cout << "BearSSL " BEARSSL_VERSION ". ";
#endif
#ifdef WITH_TOMCRYPT
    std::cout << "libtomcrypt " SCRYPT ".";
#endif
    std::cout << "\n\n";
    std::vector<record> records = read(words[1]);
    std::vector<party> peers(parties, parties + PARTIES);
    for (const party *peer = more; peer->name; peer++) peers.push_back(*peer);
    int own = 0;
    for (const party &peer : peers) {
        int tried = 0, otherwise = 0;
        for (const record &record : records) {
            if (!takes(peer, record)) continue;
            tried++;
            std::string what = difference(peer, record);
            if (what.empty()) continue;
            otherwise++;
            std::cout << peer.name << ", record " << record.number << ", " << record.kind->name << ": " << record.comment << ": " << what << "\n";
        }
        std::cout << peer.name << ": " << otherwise << " of " << tried << " records otherwise\n";
        if (peer.act == by_aeadkit) own = otherwise;
    }
    return own != 0;
}
