/* What the host supplies to libkes: the three Ed25519 calls (RFC 8032), and what every adapter for a library of them needs.
   No two of the buffers overlap; message may be NULL where its length is 0. */
#ifndef DESK_ADAPTER_H
#define DESK_ADAPTER_H

#include <stddef.h>
#include <stdint.h>
#include <stdio.h>
#include <stdlib.h>

/* 1 answered, 0 not: then what stands in out says nothing. tally is the number that the call is made at. */
uint32_t desk_ed25519_public_key(uint64_t tally, const uint8_t secret[32], uint8_t out[32]);
uint32_t desk_ed25519_sign(uint64_t tally, const uint8_t secret[32], const uint8_t *message, size_t message_len, uint8_t out[64]);
/* 1 accepted, 0 not. */
uint32_t desk_ed25519_verify(const uint8_t public_key[32], const uint8_t *message, size_t message_len, const uint8_t signature[64]);

/* Ends the process where the library cannot verify: what is proved holds only of right verdicts.
   No abort, since a core file would keep the host's secrets, and no exit, since no handler may run in the middle of a call. */
static inline void stop(const char *why)
{
    fprintf(stderr, "ed25519: %s\n", why);
    _Exit(EXIT_FAILURE);
}

/* A pointer that any library takes, for an empty message too. */
static inline const uint8_t *bytes_of(const uint8_t *message, size_t message_len)
{
    static const uint8_t none[1] = {0};
    return message_len == 0 ? none : message;
}

#endif
