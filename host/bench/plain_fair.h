/* The same fair's cache in plain C over libsodium and its adapter, unproved, written for the race. Each call answers and leaves what its namesake in kes.h
 * does. The host calls sodium_init before. */
#ifndef PLAIN_FAIR_H
#define PLAIN_FAIR_H

#include <stddef.h>
#include <stdint.h>

uint32_t plain_fair_make(uint64_t n, uint8_t *master, size_t master_len, uint8_t *seeds, size_t seeds_len, uint8_t *cache, size_t cache_len, uint8_t *key, size_t key_len, uint64_t *tally);
uint32_t plain_fair_move(uint8_t *cache, size_t cache_len, uint64_t step);
uint32_t plain_fair_sign(const uint8_t *cache, size_t cache_len, const uint8_t *message, size_t message_len, uint8_t *signature, size_t signature_len, uint64_t *tally);
uint32_t plain_fair_verify(uint64_t n, const uint8_t *key, size_t key_len, uint64_t step, const uint8_t *message, size_t message_len, const uint8_t *signature, size_t signature_len);

#endif
