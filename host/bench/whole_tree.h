/* The plain engine once more in plain C over libsodium and its adapter, unproved, written for the race. Each call answers and leaves what kes_plain_* does.
 * The host calls sodium_init before. */
#ifndef WHOLE_TREE_H
#define WHOLE_TREE_H

#include <stddef.h>
#include <stdint.h>

#include "kes.h"

uint32_t whole_fill(uint64_t h, uint8_t *seed, size_t seed_len, uint8_t *table, size_t table_len, uint64_t *tally);
uint32_t whole_root(uint64_t h, const uint8_t *table, size_t table_len, uint8_t *root, size_t root_len);
uint32_t whole_path(uint64_t h, const uint8_t *table, size_t table_len, uint64_t leaf, uint8_t *path, size_t path_len);
uint32_t whole_sign(uint64_t h, const uint8_t *table, size_t table_len, uint64_t leaf, const uint8_t *message, size_t message_len, uint8_t *signature, size_t signature_len, uint64_t *tally);

/* The proved library's and the peer's, call by call. */
struct whole {
    uint32_t (*fill)(uint64_t h, uint8_t *seed, size_t seed_len, uint8_t *table, size_t table_len, uint64_t *tally);
    uint32_t (*root)(uint64_t h, const uint8_t *table, size_t table_len, uint8_t *root, size_t root_len);
    uint32_t (*path)(uint64_t h, const uint8_t *table, size_t table_len, uint64_t leaf, uint8_t *path, size_t path_len);
    uint32_t (*sign)(uint64_t h, const uint8_t *table, size_t table_len, uint64_t leaf, const uint8_t *message, size_t message_len, uint8_t *signature, size_t signature_len, uint64_t *tally);
};

static const struct whole library_whole = {kes_plain_fill, kes_plain_root, kes_plain_path, kes_plain_sign};
static const struct whole plain_whole = {whole_fill, whole_root, whole_path, whole_sign};

#endif
