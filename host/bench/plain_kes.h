/* The same key in plain C over libsodium and its adapter, unproved, written for the race. Each call answers and leaves what its namesake in kes.h does.
 * The host calls sodium_init before. */
#ifndef PLAIN_KES_H
#define PLAIN_KES_H

#include <stddef.h>
#include <stdint.h>

#include "kes.h"

uint64_t plain_make(uint64_t h1, uint64_t h2, uint8_t *seed, size_t seed_len, uint8_t *table, size_t table_len, uint64_t *tally);
uint64_t plain3_make(uint64_t h1, uint64_t h2, uint64_t h3, uint8_t *seed, size_t seed_len, uint8_t *table, size_t table_len, uint64_t *tally);
uint32_t plain_read_key(const uint8_t *table, size_t table_len, uint8_t *key, size_t key_len);
uint64_t plain_move(uint8_t *table, size_t table_len, uint64_t step, uint64_t *tally);
uint32_t plain_release(uint8_t *table, size_t table_len, uint64_t window, uint64_t step);
uint32_t plain_sign(const uint8_t *table, size_t table_len, const uint8_t *message, size_t message_len, uint8_t *signature, size_t signature_len, uint64_t *tally);
uint32_t plain_verify(uint64_t h1, uint64_t h2, const uint8_t *key, size_t key_len, uint64_t step, const uint8_t *message, size_t message_len, const uint8_t *signature, size_t signature_len);
uint32_t plain3_verify(uint64_t h1, uint64_t h2, uint64_t h3, const uint8_t *key, size_t key_len, uint64_t step, const uint8_t *message, size_t message_len, const uint8_t *signature, size_t signature_len);

/* The link of the last signature that was accepted: the parent's step, the child's root, the parent's sum signature. */
struct plain_link {
    int held;
    uint64_t t1;
    uint8_t root[32], sum[96 + 32 * KES_HEIGHT_MAX];
};

/* plain_verify of what is in range, where only the child's part is checked below the same link; an accepted signature leaves its own. */
int plain_accepts(struct plain_link *link, uint64_t h1, uint64_t h2, const uint8_t *key, uint64_t step, const uint8_t *message, size_t message_len, const uint8_t *signature);

#endif
