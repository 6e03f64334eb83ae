/* The fair's cache of the proved library and of its plain peer, call by call. */
#ifndef FAIRS_H
#define FAIRS_H

#include "kes.h"
#include "plain_fair.h"

struct fair {
    uint32_t (*make)(uint64_t n, uint8_t *master, size_t master_len, uint8_t *seeds, size_t seeds_len, uint8_t *cache, size_t cache_len, uint8_t *key, size_t key_len, uint64_t *tally);
    uint32_t (*move)(uint8_t *cache, size_t cache_len, uint64_t step);
    uint32_t (*sign)(const uint8_t *cache, size_t cache_len, const uint8_t *message, size_t message_len, uint8_t *signature, size_t signature_len, uint64_t *tally);
    uint32_t (*verify)(uint64_t n, const uint8_t *key, size_t key_len, uint64_t step, const uint8_t *message, size_t message_len, const uint8_t *signature, size_t signature_len);
};

static const struct fair library_fair = {kes_fair_make, kes_fair_move, kes_fair_sign, kes_fair_verify};
static const struct fair plain_fair = {plain_fair_make, plain_fair_move, plain_fair_sign, plain_fair_verify};

#endif
