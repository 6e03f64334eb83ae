/* kes.h: an evolving signing key, a fair's cache of keys, an index of cards, and a plain engine to train by, for C99 and C++.
 *
 * THE ORDER OF WORK. A move destroys the key of the step it leaves, so a desk keeps this order and no other:
 *     sign, store the record, write the chip, show "done", and only then move.
 *
 * Conventions
 *   - A slice is a pointer and a length in bytes. A null pointer goes only with length 0.
 *   - No two slices lent to one call overlap: not seed and table, not table and signature, not any other two; nor does the tally.
 *   - Every call answers on every input. A refusal changes nothing that was lent, but for KES_UNANSWERED, which changes the tally.
 *   - Sizes are exact: a table, cache, key or signature one byte too long is refused as one that is too short.
 *   - Nothing is kept between calls. The caller owns all memory; a host stores a table or a cache with its length.
 *   - What a call leaves in dead stack frames, secrets of the past among it, goes by kes_wipe alone.
 *   - One table or cache, one thread at a time.
 *   - THE TALLY. Ed25519 may stand in a module that drops out. The calls that ask it for public keys and signatures are lent a tally,
 *     which is not null: each asking is made at its number and makes it one more, answered or not; after 2^64 - 1 comes 0. A call stops
 *     at the first asking without an answer and gives KES_UNANSWERED: then the tally has gone on and nothing else has changed, and the
 *     same call may be made again with the tally as it was left. Keep one tally for one module, in one variable, for all calls; begin
 *     anywhere, never set it back, and share it with no other thread.
 *   - kes_make, kes3_make, kes_move and kes_catch_up answer a number and a count in one word: take them apart with kes_number and kes_count.
 *     When a make or a move is done the word is never 0, so `if (kes_move(..) == 0)` is always wrong; of a catch-up it is 0 where
 *     the key has stayed.
 *     The other calls, those of the fair and the plain engine too, answer the number alone;
 *     those of the card index are told of below.
 */
#ifndef KES_H
#define KES_H

#include <stddef.h>
#include <stdint.h>

#if defined(__GNUC__)
#define KES_CHECKED __attribute__((warn_unused_result))
#else
#define KES_CHECKED
#endif

#ifdef __cplusplus
extern "C" {
#endif

/* What a call can answer. */
enum kes_numbers {
    KES_DONE = 0,         /* done, or accepted */
    KES_HEIGHT = 1,       /* a height above KES_HEIGHT_MAX, of three trees above KES_HEIGHT3_MAX, of the plain engine above KES_PLAIN_HEIGHT_MAX */
    KES_SEED_OR_KEY = 2,  /* seed or verification key not 32 bytes, a fair's seeds not 32 for each entry */
    KES_TABLE = 3,        /* not a well-formed table, cache or card index */
    KES_LENGTH = 4,       /* output, signature or plain table not its exact length, or not KES_CARDS entries */
    KES_NOT_LATER = 5,    /* new step not later than the table's or cache's */
    KES_PAST_END = 6,     /* step at or past kes_steps or kes3_steps, a cache's entries, or a plain tree's leaves */
    KES_TOO_LONG = 7,     /* message, or bytes fed to the hash, above KES_MESSAGE_MAX */
    KES_ENTRIES = 8,      /* a fair's entries not 1 to KES_FAIR_MAX */
    KES_UNANSWERED = 9,   /* the module did not answer: only the tally has changed */
    KES_WINDOW = 10,      /* a window that is not 0 or 1 */
    KES_LOWERED = 11,     /* a release lower than it stood, or past kes_steps or kes3_steps */
    KES_NOT_RELEASED = 12, /* a step that a window has not yet released */
    KES_FULL = 13,        /* a new card when KES_CARDS are held */
    KES_CARD_OR_AMOUNT = 14, /* card or amount out of the journal's range */
    KES_COUNT_FULL = 15,  /* the card's count is already 4,294,967,295 */
    KES_NOT_ACCEPTED = 100 /* verify: well formed, not accepted */
};

#define KES_HEIGHT_MAX 12u
#define KES_HEIGHT3_MAX 8u
#define KES_MESSAGE_MAX 4096u
#define KES_SEED_SIZE 32u
#define KES_KEY_SIZE 32u
#define KES_DIGEST_SIZE 32u
/* The largest sizes, at heights 8, 8 and 8; of two trees, at 12 and 12, they are 2960 and 992. */
#define KES_TABLE_MAX 3280u
#define KES_SIGNATURE_MAX 1120u

#define KES_FAIR_MAX 256u
#define KES_FAIR_SIGNATURE_SIZE 160u
/* The largest cache, of 256 entries. */
#define KES_FAIR_CACHE_MAX 32772u

#define KES_PLAIN_HEIGHT_MAX 8u
/* The largest plain table, at height 8. */
#define KES_PLAIN_TABLE_MAX 32736u

/* Stack that a caller leaves free below it: what a call may use, with the Ed25519 library, and what kes_wipe clears.
 * docs/HOST.md has what each call was measured to use. */
#define KES_STACK 73728

/* Sizes and steps of a key of these heights, 0 where a height is not 0 to 12, of whatever type. */
#define KES_HEIGHTS_FIT(h1, h2) ((uint64_t)(h1) <= KES_HEIGHT_MAX && (uint64_t)(h2) <= KES_HEIGHT_MAX)
#define KES_TABLE_SIZE(h1, h2) (KES_HEIGHTS_FIT(h1, h2) ? 272u + 128u * (size_t)(h1) + 96u * (size_t)(h2) : 0u)
#define KES_SIGNATURE_SIZE(h1, h2) (KES_HEIGHTS_FIT(h1, h2) ? 224u + 32u * ((size_t)(h1) + (size_t)(h2)) : 0u)

static inline size_t kes_table_size(uint64_t h1, uint64_t h2) { return KES_TABLE_SIZE(h1, h2); }
static inline size_t kes_signature_size(uint64_t h1, uint64_t h2) { return KES_SIGNATURE_SIZE(h1, h2); }
static inline uint64_t kes_steps(uint64_t h1, uint64_t h2) { return KES_HEIGHTS_FIT(h1, h2) ? (uint64_t)1 << (h1 + h2) : 0; }

/* The same of a key of three trees, 0 where a height is not 0 to 8. */
#define KES3_HEIGHTS_FIT(h1, h2, h3) ((uint64_t)(h1) <= KES_HEIGHT3_MAX && (uint64_t)(h2) <= KES_HEIGHT3_MAX && (uint64_t)(h3) <= KES_HEIGHT3_MAX)
#define KES3_TABLE_SIZE(h1, h2, h3) (KES3_HEIGHTS_FIT(h1, h2, h3) ? 464u + 128u * ((size_t)(h1) + (size_t)(h2)) + 96u * (size_t)(h3) : 0u)
#define KES3_SIGNATURE_SIZE(h1, h2, h3) (KES3_HEIGHTS_FIT(h1, h2, h3) ? 352u + 32u * ((size_t)(h1) + (size_t)(h2) + (size_t)(h3)) : 0u)

static inline size_t kes3_table_size(uint64_t h1, uint64_t h2, uint64_t h3) { return KES3_TABLE_SIZE(h1, h2, h3); }
static inline size_t kes3_signature_size(uint64_t h1, uint64_t h2, uint64_t h3) { return KES3_SIGNATURE_SIZE(h1, h2, h3); }
static inline uint64_t kes3_steps(uint64_t h1, uint64_t h2, uint64_t h3) { return KES3_HEIGHTS_FIT(h1, h2, h3) ? (uint64_t)1 << (h1 + h2 + h3) : 0; }

/* Sizes of a cache of n entries and of the seeds that it is made from, 0 where n is not 1 to 256. */
#define KES_FAIR_FITS(n) ((uint64_t)(n) >= 1 && (uint64_t)(n) <= KES_FAIR_MAX)
#define KES_FAIR_CACHE_SIZE(n) (KES_FAIR_FITS(n) ? 4u + 128u * (size_t)(n) : 0u)
#define KES_FAIR_SEEDS_SIZE(n) (KES_FAIR_FITS(n) ? 32u * (size_t)(n) : 0u)

static inline size_t kes_fair_cache_size(uint64_t n) { return KES_FAIR_CACHE_SIZE(n); }
static inline size_t kes_fair_seeds_size(uint64_t n) { return KES_FAIR_SEEDS_SIZE(n); }

/* Sizes of a plain table and of what is read from it, for a tree of height h, 0 where h is not 0 to 8; a path of height 0 is 0 bytes too. */
#define KES_PLAIN_FITS(h) ((uint64_t)(h) <= KES_PLAIN_HEIGHT_MAX)
#define KES_PLAIN_TABLE_SIZE(h) (KES_PLAIN_FITS(h) ? ((size_t)128 << ((h) & 15)) - 32u : 0u)
#define KES_PLAIN_PATH_SIZE(h) (KES_PLAIN_FITS(h) ? 32u * (size_t)(h) : 0u)
#define KES_PLAIN_SIGNATURE_SIZE(h) (KES_PLAIN_FITS(h) ? 96u + 32u * (size_t)(h) : 0u)

static inline size_t kes_plain_table_size(uint64_t h) { return KES_PLAIN_TABLE_SIZE(h); }
static inline size_t kes_plain_path_size(uint64_t h) { return KES_PLAIN_PATH_SIZE(h); }
static inline size_t kes_plain_signature_size(uint64_t h) { return KES_PLAIN_SIGNATURE_SIZE(h); }

/* The number and the count in the answer of kes_make, kes3_make, kes_move and kes_catch_up. */
static inline uint32_t kes_number(uint64_t answer) { return (uint32_t)answer; }
static inline uint32_t kes_count(uint64_t answer) { return (uint32_t)(answer >> 32); }

/* Makes a key of 2^(h1+h2) steps from a seed, at step 0, and zeroes the seed.
 * Refuses 1, 2, 4, 9 in this order. The count is that of leaf key pairs grown.
 *     uint64_t made = kes_make(6, 6, seed, sizeof seed, table, kes_table_size(6, 6), &tally);
 *     if (kes_number(made) != KES_DONE) ... */
KES_CHECKED uint64_t kes_make(uint64_t h1, uint64_t h2, uint8_t *seed, size_t seed_len, uint8_t *table, size_t table_len, uint64_t *tally);

/* Reads the verification key, which is the same at every step. Refuses 3, 4. */
KES_CHECKED uint32_t kes_read_key(const uint8_t *table, size_t table_len, uint8_t *key, size_t key_len);

/* Moves a key to a later step; the steps before it can never be signed again. Refuses 3, 6, 5, 12, 9.
 *     uint64_t moved = kes_move(table, table_len, now, &tally);
 *     if (kes_number(moved) == KES_DONE) ... kes_count(moved) key pairs were grown */
KES_CHECKED uint64_t kes_move(uint8_t *table, size_t table_len, uint64_t step, uint64_t *tally);

/* Moves a key to this step if that is later. A step that is not later is no fault: done with count 0, the table and the tally as they
 * were. So two timers may ask in any order, under one lock. Refuses 3, 6, 12, 9.
 *     uint64_t caught = kes_catch_up(table, table_len, now, &tally);
 *     if (kes_number(caught) == KES_DONE && kes_count(caught) > 0) ... the key has moved: store it */
KES_CHECKED uint64_t kes_catch_up(uint8_t *table, size_t table_len, uint64_t step, uint64_t *tally);

/* TWO WINDOWS on one key. The table holds for window 0 and for window 1 the first step that it still needs, 0 when the key is made. A
 * move or a catch-up past the present step needs both at that step or above. A release sets a window's number, from the one that stands
 * up to kes_steps (of three trees kes3_steps), and changes nothing else; so a desk with one window releases the other to it right after
 * making.
 * Refuses 3, 10, 11. */
KES_CHECKED uint32_t kes_release(uint8_t *table, size_t table_len, uint64_t window, uint64_t step);

/* Signs a message at the table's step. Refuses 3, 7, 4, 9. */
KES_CHECKED uint32_t kes_sign(const uint8_t *table, size_t table_len, const uint8_t *message, size_t message_len, uint8_t *signature, size_t signature_len, uint64_t *tally);

/* Verifies a signature over a message at a step. Answers KES_DONE or KES_NOT_ACCEPTED; refuses 1, 2, 4, 7, 6. */
KES_CHECKED uint32_t kes_verify(uint64_t h1, uint64_t h2, const uint8_t *key, size_t key_len, uint64_t step, const uint8_t *message, size_t message_len, const uint8_t *signature, size_t signature_len);

/* THREE TREES, for a desk that is registered once for years: 2^(h1+h2+h3) steps, heights 0 to 8 each. The left tree vouches for the middle
 * one, and that for the right. Only making and verifying have calls of their own: byte 2 of a table says how many trees it has, 1 for two
 * and 2 for three, and kes_read_key, kes_move, kes_catch_up, kes_release and kes_sign take either. docs/HOST.md has heights for years. */

/* Makes a key of three trees. As kes_make in all else: refuses 1, 2, 4, 9.
 *     uint64_t made = kes3_make(6, 6, 6, seed, sizeof seed, table, kes3_table_size(6, 6, 6), &tally); */
KES_CHECKED uint64_t kes3_make(uint64_t h1, uint64_t h2, uint64_t h3, uint8_t *seed, size_t seed_len, uint8_t *table, size_t table_len, uint64_t *tally);

/* Verifies a signature by a key of three trees. As kes_verify in all else: refuses 1, 2, 4, 7, 6. */
KES_CHECKED uint32_t kes3_verify(uint64_t h1, uint64_t h2, uint64_t h3, const uint8_t *key, size_t key_len, uint64_t step, const uint8_t *message, size_t message_len, const uint8_t *signature, size_t signature_len);

/* BLAKE2b (RFC 7693), no key, 32-byte digest, of message into digest; for running vectors. Refuses 7, 4. */
KES_CHECKED uint32_t kes_hash(const uint8_t *message, size_t message_len, uint8_t *digest, size_t digest_len);

/* THE FAIR. A cache signs at n steps, each with a key of its own, in 160 bytes. The master's public key
 * verifies all of them and says nothing of a desk: docs/HOST.md tells how a desk's own key vouches for it. */

/* Makes a cache of n entries at step 0 from a master seed of 32 bytes and n seeds of 32 bytes, one behind the other; writes the
 * master's public key to key, and zeroes master and seeds. Refuses 8, 2, 4, 9. */
KES_CHECKED uint32_t kes_fair_make(uint64_t n, uint8_t *master, size_t master_len, uint8_t *seeds, size_t seeds_len, uint8_t *cache, size_t cache_len, uint8_t *key, size_t key_len, uint64_t *tally);

/* Moves a cache to a later step and zeroes every entry before it. The last step is n - 1: a day ends when the host destroys the
 * cache. Refuses 3, 6, 5. */
KES_CHECKED uint32_t kes_fair_move(uint8_t *cache, size_t cache_len, uint64_t step);

/* Signs a message at the cache's step, into KES_FAIR_SIGNATURE_SIZE bytes. Refuses 3, 7, 4, 9. */
KES_CHECKED uint32_t kes_fair_sign(const uint8_t *cache, size_t cache_len, const uint8_t *message, size_t message_len, uint8_t *signature, size_t signature_len, uint64_t *tally);

/* Verifies a signature over a message at a step of a fair of n entries. Answers KES_DONE or KES_NOT_ACCEPTED; refuses 8, 2, 4, 7, 6. */
KES_CHECKED uint32_t kes_fair_verify(uint64_t n, const uint8_t *key, size_t key_len, uint64_t step, const uint8_t *message, size_t message_len, const uint8_t *signature, size_t signature_len);

/* THE PLAIN ENGINE, TO TRAIN BY. The whole of one tree in a table: all node hashes, level by level from the root, then each leaf's
 * secret and vk. NEVER A DESK'S KEY: every leaf's secret stays in the table, so whoever reads it once signs at every step. */

/* Fills the table of the tree of height h that grows from a seed, and zeroes the seed. Refuses 1, 2, 4, 9.
 *     uint8_t table[KES_PLAIN_TABLE_SIZE(3)];
 *     if (kes_plain_fill(3, seed, sizeof seed, table, sizeof table, &tally) != KES_DONE) ... */
KES_CHECKED uint32_t kes_plain_fill(uint64_t h, uint8_t *seed, size_t seed_len, uint8_t *table, size_t table_len, uint64_t *tally);

/* Reads the root, 32 bytes. Refuses 1, 4. */
KES_CHECKED uint32_t kes_plain_root(uint64_t h, const uint8_t *table, size_t table_len, uint8_t *root, size_t root_len);

/* Reads the witnesses of a leaf, 32 bytes for each level, from the leaf upwards. Refuses 1, 4, 6. */
KES_CHECKED uint32_t kes_plain_path(uint64_t h, const uint8_t *table, size_t table_len, uint64_t leaf, uint8_t *path, size_t path_len);

/* Signs a message by a leaf, into 96 + 32h bytes: vk, Ed25519's signature, the witnesses. Refuses 1, 4, 7, 6, 9. */
KES_CHECKED uint32_t kes_plain_sign(uint64_t h, const uint8_t *table, size_t table_len, uint64_t leaf, const uint8_t *message, size_t message_len, uint8_t *signature, size_t signature_len, uint64_t *tally);

/* THE CARD INDEX. A table of KES_CARDS entries, of which the first `held` are in use: a card, how many good lines it has had, and the sum
 * of their cents, in rising order of cards. Empty is held 0; the entries may then be anything, and those past `held` are never judged.
 * Enter each line that `journal` calls good, and keep the number held beside the table. */
#define KES_CARDS 1024u

struct kes_card {
    uint64_t card, count, cents;
};

/* Enters a good line's card (its 16 digits as a number) and cents. The table's first entries are then the summary of all lines entered
 * since it was empty, whatever their order. Refuses 4, 3, 14, 15, 13, and changes nothing. The upper half of the answer is the number
 * held now, 0 on any refusal.
 *     uint64_t entered = kes_card_enter(cards, KES_CARDS, held, card, cents);
 *     if (kes_number(entered) == KES_DONE) held = kes_held(entered); */
KES_CHECKED uint64_t kes_card_enter(struct kes_card *cards, size_t n, uint64_t held, uint64_t card, uint64_t cents);

/* Looks a card up. Refuses 4, 3, 14. The upper half of the answer is the place of its entry + 1, and 0 where there is none.
 *     uint64_t found = kes_card_find(cards, KES_CARDS, held, card);
 *     if (kes_number(found) == KES_DONE && kes_place(found) > 0) ... cards[kes_place(found) - 1] */
KES_CHECKED uint64_t kes_card_find(const struct kes_card *cards, size_t n, uint64_t held, uint64_t card);

static inline uint32_t kes_held(uint64_t answer) { return (uint32_t)(answer >> 32); }
static inline uint32_t kes_place(uint64_t answer) { return (uint32_t)(answer >> 32); }

/* NOT PROVED: C beside the proofs. Clears what the calls left behind below its caller: KES_STACK bytes of dead stack, and on
 * x86-64 and 64-bit Arm the registers that a call may leave as it likes. Call it after each call that makes, fills, moves or signs, the
 * fair's and the plain engine's too, from the function that called it or one that called that. docs/SECURITY.md says what it does not reach. */
void kes_wipe(void);

#ifdef __cplusplus
}
#endif
#endif
