#define _DEFAULT_SOURCE
#include "lent.h"

#include <signal.h>
#include <stdio.h>
#include <stdlib.h>
#include <string.h>
#include <sys/mman.h>
#include <unistd.h>

#include "kes.h"

enum { FILL = 0xa5 };
enum edge { PAGE_AFTER, PAGE_BEFORE };

static size_t page;
/* Each room has MOST bytes and a page on both sides that faults. */
static uint8_t *rooms[LENT];
static uint8_t *lent[LENT];
/* One more for the tally. */
static uint8_t *tally_room;
static uint64_t *tally;
static uint32_t asked[3];
/* What is being asked, or none, and the number of the next asking. */
static const struct request *present;
static uint64_t next;

/* The linker puts these before the adapter's functions, so that each call is counted. */
uint32_t __real_desk_ed25519_public_key(uint64_t number, const uint8_t *secret, uint8_t *out);
uint32_t __real_desk_ed25519_sign(uint64_t number, const uint8_t *secret, const uint8_t *message, size_t len, uint8_t *out);
uint32_t __real_desk_ed25519_verify(const uint8_t *key, const uint8_t *message, size_t len, const uint8_t *signature);
uint32_t __wrap_desk_ed25519_public_key(uint64_t number, const uint8_t *secret, uint8_t *out);
uint32_t __wrap_desk_ed25519_sign(uint64_t number, const uint8_t *secret, const uint8_t *message, size_t len, uint8_t *out);
uint32_t __wrap_desk_ed25519_verify(const uint8_t *key, const uint8_t *message, size_t len, const uint8_t *signature);

/* Ends the process from anywhere, a signal handler too. */
static void stop(const char *why)
{
    size_t len = strlen(why);
    if (write(STDERR_FILENO, why, len) != (ssize_t)len)
        _exit(2);
    abort();
}

static void count(size_t which)
{
    size_t i;
    asked[which]++;
    for (i = 0; present != NULL && i < LENT; i++)
        if (present->len[i] > 0 && memcmp(lent[i], present->bytes[i], present->len[i]) != 0)
            stop("lent: a buffer was written before Ed25519 was asked for the last time\n");
}

/* Whether the asking that is made at this number is answered. */
static int answered(uint64_t number)
{
    if (present == NULL)
        return 1;
    if (number != next++)
        stop("lent: Ed25519 was asked at another number than the next\n");
    return present->every == 0 || number % present->every != present->silent;
}

uint32_t __wrap_desk_ed25519_public_key(uint64_t number, const uint8_t *secret, uint8_t *out)
{
    count(0);
    memset(out, FILL, 32);
    return answered(number) ? __real_desk_ed25519_public_key(number, secret, out) : 0;
}

uint32_t __wrap_desk_ed25519_sign(uint64_t number, const uint8_t *secret, const uint8_t *message, size_t len, uint8_t *out)
{
    count(1);
    memset(out, FILL, 64);
    return answered(number) ? __real_desk_ed25519_sign(number, secret, message, len, out) : 0;
}

uint32_t __wrap_desk_ed25519_verify(const uint8_t *key, const uint8_t *message, size_t len, const uint8_t *signature)
{
    count(2);
    return __real_desk_ed25519_verify(key, message, len, signature);
}

static void on_fault(int signal)
{
    (void)signal;
    stop("lent: the call touched what it was not lent, or wrote what it was lent to read\n");
}

static void on_alarm(int signal)
{
    (void)signal;
    stop("lent: the call does not end\n");
}

static uint8_t *new_room(size_t len)
{
    uint8_t *pages = mmap(NULL, page + len + page, PROT_NONE, MAP_PRIVATE | MAP_ANONYMOUS, -1, 0);
    if (pages == MAP_FAILED)
        stop("lent: no memory\n");
    return pages + page;
}

void lend_start(void)
{
    size_t i;
    page = (size_t)sysconf(_SC_PAGESIZE);
    if (MOST % page != 0)
        stop("lent: a room is not whole pages\n");
    for (i = 0; i < LENT; i++)
        rooms[i] = new_room(MOST);
    tally_room = new_room(page);
    signal(SIGSEGV, on_fault);
    signal(SIGBUS, on_fault);
    signal(SIGALRM, on_alarm);
}

static void protect(uint8_t *pages, size_t len, int how)
{
    if (mprotect(pages, len, how) != 0)
        stop("lent: a room cannot be protected\n");
}

/* Lays a buffer at an edge of its room. */
static void place(const struct request *r, size_t i, enum edge edge)
{
    protect(rooms[i], MOST, PROT_READ | PROT_WRITE);
    memset(rooms[i], FILL, MOST);
    lent[i] = edge == PAGE_AFTER ? rooms[i] + MOST - r->len[i] : rooms[i];
    memcpy(lent[i], r->bytes[i], r->len[i]);
    if (edge == PAGE_BEFORE && r->len[i] == 0)
        lent[i] = NULL;
}

static void place_tally(const struct request *r, enum edge edge)
{
    protect(tally_room, page, PROT_READ | PROT_WRITE);
    memset(tally_room, FILL, page);
    tally = (uint64_t *)(void *)(edge == PAGE_AFTER ? tally_room + page - sizeof *tally : tally_room);
    *tally = next = r->tally;
}

static uint64_t take_tally(void)
{
    size_t at, first = (size_t)((uint8_t *)tally - tally_room);
    for (at = 0; at < page; at++)
        if ((at < first || at >= first + sizeof *tally) && tally_room[at] != FILL)
            stop("lent: a byte beside the tally was written\n");
    if (*tally != next)
        stop("lent: the tally left is not that of the next asking\n");
    return *tally;
}

/* Takes a buffer back. Nothing but the bytes that were lent may have changed. */
static void take(const struct request *r, size_t i, enum edge edge, struct outcome *o)
{
    size_t at, first = edge == PAGE_AFTER ? MOST - r->len[i] : 0;
    memcpy(o->left[i], rooms[i] + first, r->len[i]);
    for (at = 0; at < MOST; at++)
        if ((at < first || at >= first + r->len[i]) && rooms[i][at] != FILL)
            stop("lent: a byte beside a buffer was written\n");
}

static int read_only(int op, size_t i)
{
    static const int lent_to_read[ALL_CALLS] = {[READ_KEY] = 1, [SIGN] = 3, [VERIFY] = 7, [VERIFY3] = 7, [HASH] = 1, [FAIR_SIGN] = 3, [FAIR_VERIFY] = 7,
        [PLAIN_ROOT] = 1, [PLAIN_PATH] = 1, [PLAIN_SIGN] = 3, [CARD_FIND] = 1};
    return lent_to_read[op] >> i & 1;
}

static uint64_t call(const struct request *r)
{
    uint8_t *a = lent[0], *b = lent[1], *c = lent[2], *d = lent[3];
    const size_t *len = r->len;
    switch (r->op) {
    case MAKE: return kes_make(r->h1, r->h2, a, len[0], b, len[1], tally);
    case READ_KEY: return kes_read_key(a, len[0], b, len[1]);
    case MOVE: return kes_move(a, len[0], r->step, tally);
    case CATCH_UP: return kes_catch_up(a, len[0], r->step, tally);
    case RELEASE: return kes_release(a, len[0], r->h1, r->step);
    case SIGN: return kes_sign(a, len[0], b, len[1], c, len[2], tally);
    case VERIFY: return kes_verify(r->h1, r->h2, a, len[0], r->step, b, len[1], c, len[2]);
    case MAKE3: return kes3_make(r->h1, r->h2, r->h3, a, len[0], b, len[1], tally);
    case VERIFY3: return kes3_verify(r->h1, r->h2, r->h3, a, len[0], r->step, b, len[1], c, len[2]);
    case HASH: return kes_hash(a, len[0], b, len[1]);
    case FAIR_MAKE: return kes_fair_make(r->h1, a, len[0], b, len[1], c, len[2], d, len[3], tally);
    case FAIR_MOVE: return kes_fair_move(a, len[0], r->step);
    case FAIR_SIGN: return kes_fair_sign(a, len[0], b, len[1], c, len[2], tally);
    case FAIR_VERIFY: return kes_fair_verify(r->h1, a, len[0], r->step, b, len[1], c, len[2]);
    case PLAIN_FILL: return kes_plain_fill(r->h1, a, len[0], b, len[1], tally);
    case PLAIN_ROOT: return kes_plain_root(r->h1, a, len[0], b, len[1]);
    case PLAIN_PATH: return kes_plain_path(r->h1, a, len[0], r->step, b, len[1]);
    case PLAIN_SIGN: return kes_plain_sign(r->h1, a, len[0], r->step, b, len[1], c, len[2], tally);
    case CARD_ENTER: return kes_card_enter((struct kes_card *)(void *)a, len[0] / sizeof(struct kes_card), r->h1, r->h2, r->step);
    default: return kes_card_find((const struct kes_card *)(const void *)a, len[0] / sizeof(struct kes_card), r->h1, r->h2);
    }
}

/* number is that of the first time, which says what may be written. */
static void lend_at(const struct request *r, enum edge edge, uint32_t number, struct outcome *o)
{
    size_t i;
    for (i = 0; i < LENT; i++) {
        place(r, i, edge);
        if (number != KES_DONE || read_only(r->op, i))
            protect(rooms[i], MOST, PROT_READ);
    }
    place_tally(r, edge);
    if (number != KES_DONE && number != KES_UNANSWERED)
        protect(tally_room, page, PROT_READ);
    memset(asked, 0, sizeof asked);
    present = r;
    alarm(TIME_LIMIT);
    o->answer = call(r);
    alarm(0);
    present = NULL;
    o->tally = take_tally();
    memcpy(o->asked, asked, sizeof asked);
    for (i = 0; i < LENT; i++)
        take(r, i, edge, o);
}

static int same(const struct request *r, const struct outcome *a, const struct outcome *b)
{
    size_t i;
    for (i = 0; i < LENT; i++)
        if (memcmp(a->left[i], b->left[i], r->len[i]) != 0)
            return 0;
    return a->answer == b->answer && a->tally == b->tally && memcmp(a->asked, b->asked, sizeof a->asked) == 0;
}

void lend(const struct request *r, struct outcome *o)
{
    static struct outcome again;
    if (r->op < 0 || r->op >= ALL_CALLS)
        stop("lent: an unknown call\n");
    lend_at(r, PAGE_AFTER, KES_DONE, o);
    lend_at(r, PAGE_BEFORE, kes_number(o->answer), &again);
    if (!same(r, o, &again))
        stop("lent: the call answers or leaves something else at another address\n");
}
