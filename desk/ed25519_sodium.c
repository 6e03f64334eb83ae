/* The three Ed25519 calls of libkes, by libsodium. */
#include <sodium.h>

#include "adapter.h"

/* The public key is always made from the secret, here too where it is only part of signing: a signature made with another
   public key gives the secret away to whoever also sees the right one, so none is ever taken from a caller. */
static int make_pair(const uint8_t secret[32], uint8_t public_key[32], uint8_t pair[64])
{
    return sodium_init() >= 0 && crypto_sign_seed_keypair(public_key, pair, secret) == 0;
}

uint32_t desk_ed25519_public_key(uint64_t tally, const uint8_t secret[32], uint8_t out[32])
{
    uint8_t pair[64];
    int made = make_pair(secret, out, pair);
    (void)tally;
    sodium_memzero(pair, sizeof pair);
    return made ? 1 : 0;
}

uint32_t desk_ed25519_sign(uint64_t tally, const uint8_t secret[32], const uint8_t *message, size_t message_len, uint8_t out[64])
{
    uint8_t public_key[32], pair[64];
    int made = make_pair(secret, public_key, pair) && crypto_sign_detached(out, NULL, bytes_of(message, message_len), message_len, pair) == 0;
    (void)tally;
    sodium_memzero(pair, sizeof pair);
    return made ? 1 : 0;
}

uint32_t desk_ed25519_verify(const uint8_t public_key[32], const uint8_t *message, size_t message_len, const uint8_t signature[64])
{
    if (sodium_init() < 0)
        stop("libsodium does not start");
    return crypto_sign_verify_detached(signature, bytes_of(message, message_len), message_len, public_key) == 0;
}
