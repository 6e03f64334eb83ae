/* The calls of libsodium's Ed25519 that a piece of work makes, kept so that they can be made again alone: they are that work's floor.
 * Link with the words of WRAP in host/bench/build. */
#ifndef RECORDED_H
#define RECORDED_H

#include <stddef.h>
#include <stdint.h>

#include "kes.h"

/* The most calls of one work: two trees of the greatest height, and a signature, before which its key pair is made. */
enum { RECORD_MAX = (2 << KES_HEIGHT_MAX) + 2, RECORD_MESSAGE_MAX = 64 };
enum record_kind { RECORD_PAIR, RECORD_SIGN, RECORD_VERIFY, RECORD_KINDS };

struct record {
    enum record_kind kind;
    uint32_t len;
    uint8_t key[64]; /* seed, key pair or public key */
    uint8_t message[RECORD_MESSAGE_MAX];
    uint8_t signature[64];
};

/* Starts a new record; record_end answers how many calls there were, and hands out the record, which the next start overwrites. */
void record_start(void);
size_t record_end(const struct record **calls);

/* Makes the calls again, and nothing else. */
void replay(const struct record *calls, size_t count);

#endif
