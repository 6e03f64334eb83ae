/* The three Ed25519 calls by both adapters, which have to agree; the answers are libsodium's. */
#include <sodium.h>
#include <string.h>

#include "../../desk/adapter.h"
#include "input.h"

/* The adapters' functions, as host/fuzz/guided renames them. */
uint32_t sodium_public_key(uint64_t tally, const uint8_t secret[32], uint8_t out[32]);
uint32_t openssl_public_key(uint64_t tally, const uint8_t secret[32], uint8_t out[32]);
uint32_t sodium_sign(uint64_t tally, const uint8_t secret[32], const uint8_t *message, size_t len, uint8_t out[64]);
uint32_t openssl_sign(uint64_t tally, const uint8_t secret[32], const uint8_t *message, size_t len, uint8_t out[64]);
uint32_t sodium_verify(const uint8_t key[32], const uint8_t *message, size_t len, const uint8_t signature[64]);
uint32_t openssl_verify(const uint8_t key[32], const uint8_t *message, size_t len, const uint8_t signature[64]);

uint32_t desk_ed25519_public_key(uint64_t tally, const uint8_t secret[32], uint8_t out[32])
{
    uint8_t other[32];
    if (sodium_public_key(tally, secret, out) != 1 || openssl_public_key(tally, secret, other) != 1)
        wrong("an adapter makes no public key");
    if (memcmp(out, other, sizeof other) != 0)
        wrong("the adapters make two public keys of one secret");
    return 1;
}

uint32_t desk_ed25519_sign(uint64_t tally, const uint8_t secret[32], const uint8_t *message, size_t len, uint8_t out[64])
{
    uint8_t other[64];
    if (sodium_sign(tally, secret, message, len, out) != 1 || openssl_sign(tally, secret, message, len, other) != 1)
        wrong("an adapter does not sign");
    if (memcmp(out, other, sizeof other) != 0)
        wrong("the adapters make two signatures");
    return 1;
}

/* libsodium refuses keys and first halves that are no points of the full group, and so may differ there (docs/ASSUMPTIONS.md). */
static int may_differ(const uint8_t *key, const uint8_t *signature)
{
#ifdef PLANTED
    return 0;
#endif
    return !crypto_core_ed25519_is_valid_point(key) || !crypto_core_ed25519_is_valid_point(signature);
}

uint32_t desk_ed25519_verify(const uint8_t key[32], const uint8_t *message, size_t len, const uint8_t signature[64])
{
    uint32_t answer = sodium_verify(key, message, len, signature), other = openssl_verify(key, message, len, signature);
    if (answer > 1 || other > 1)
        wrong("an adapter's verdict is neither 0 nor 1");
    if (answer > other)
        wrong("libsodium accepts what OpenSSL refuses");
    if (answer < other && !may_differ(key, signature))
        wrong("OpenSSL accepts what libsodium refuses, of points of the full group");
    return answer;
}
