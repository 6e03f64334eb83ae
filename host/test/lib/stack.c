/* stack: how far below its caller each call of kes.h reaches at heights 12 and 12 or 8, 8 and 8, with 256 entries or in a plain tree of height 8, and that a thread with the least
 * stack that kes.h allows can make them all. Each is the first call of its process, so what the dynamic linker and the Ed25519 library do once counts. */
#define _GNU_SOURCE
#include <pthread.h>
#include <stdio.h>
#include <sys/mman.h>
#include <sys/wait.h>
#include <unistd.h>

#include "painted.h"

enum { H1 = KES_HEIGHT_MAX, H2 = KES_HEIGHT_MAX, H3 = KES_HEIGHT3_MAX, N = KES_FAIR_MAX, DEPTHS = 4 };

/* Shared by the processes, so that each finds what the one before it made. */
struct lent {
    /* of two trees, and of three */
    struct {
        uint8_t fresh[KES_TABLE_MAX], key[KES_KEY_SIZE], signature[KES_SIGNATURE_MAX];
    } of[2];
    uint8_t seed[KES_SEED_SIZE], table[KES_TABLE_MAX], digest[KES_DIGEST_SIZE], root[KES_DIGEST_SIZE], message[KES_MESSAGE_MAX];
    uint8_t seeds[KES_FAIR_SEEDS_SIZE(N)], fair[KES_FAIR_CACHE_MAX], cache[KES_FAIR_CACHE_MAX], fair_key[KES_KEY_SIZE], sale[KES_FAIR_SIGNATURE_SIZE];
    uint8_t tree[KES_PLAIN_TABLE_MAX], path[KES_PLAIN_PATH_SIZE(8)], lesson[KES_PLAIN_SIGNATURE_SIZE(8)];
    struct kes_card cards[KES_CARDS];
    uint64_t step, answer, tally;
    size_t three, reach;
};

static struct lent *l;

static size_t table_len(void) { return l->three ? KES3_TABLE_SIZE(H3, H3, H3) : KES_TABLE_SIZE(H1, H2); }
static size_t signature_len(void) { return l->three ? KES3_SIGNATURE_SIZE(H3, H3, H3) : KES_SIGNATURE_SIZE(H1, H2); }
static uint8_t *fresh(void) { return l->of[l->three].fresh; }
static uint8_t *key(void) { return l->of[l->three].key; }
static uint8_t *signature(void) { return l->of[l->three].signature; }

static void make(void)
{
    HERE();
    memset(l->seed, 7, sizeof l->seed);
    l->answer = kes_make(H1, H2, l->seed, sizeof l->seed, fresh(), table_len(), &l->tally);
}

static void make3(void)
{
    HERE();
    memset(l->seed, 7, sizeof l->seed);
    l->answer = kes3_make(H3, H3, H3, l->seed, sizeof l->seed, fresh(), table_len(), &l->tally);
}

static void release(void)
{
    HERE();
    memcpy(l->table, fresh(), table_len());
    l->answer = kes_release(l->table, table_len(), 0, l->step);
    l->answer |= kes_release(l->table, table_len(), 1, l->step);
}

static void move(void)
{
    HERE();
    release();
    l->answer = kes_move(l->table, table_len(), l->step, &l->tally);
}

static void catch_up(void)
{
    HERE();
    release();
    l->answer = kes_catch_up(l->table, table_len(), l->step, &l->tally);
}

static void read_key(void)
{
    HERE();
    l->answer = kes_read_key(fresh(), table_len(), key(), KES_KEY_SIZE);
}

static void sign(void)
{
    HERE();
    l->answer = kes_sign(fresh(), table_len(), l->message, sizeof l->message, signature(), signature_len(), &l->tally);
}

static void verify(void)
{
    HERE();
    l->answer = kes_verify(H1, H2, key(), KES_KEY_SIZE, 0, l->message, sizeof l->message, signature(), signature_len());
}

static void verify3(void)
{
    HERE();
    l->answer = kes3_verify(H3, H3, H3, key(), KES_KEY_SIZE, 0, l->message, sizeof l->message, signature(), signature_len());
}

static void hash(void)
{
    HERE();
    l->answer = kes_hash(l->message, sizeof l->message, l->digest, sizeof l->digest);
}

static void fair_make(void)
{
    HERE();
    memset(l->seed, 7, sizeof l->seed);
    memset(l->seeds, 8, sizeof l->seeds);
    l->answer = kes_fair_make(N, l->seed, sizeof l->seed, l->seeds, sizeof l->seeds, l->fair, sizeof l->fair, l->fair_key, sizeof l->fair_key, &l->tally);
}

static void fair_move(void)
{
    HERE();
    memcpy(l->cache, l->fair, sizeof l->cache);
    l->answer = kes_fair_move(l->cache, sizeof l->cache, l->step);
}

static void fair_sign(void)
{
    HERE();
    l->answer = kes_fair_sign(l->fair, sizeof l->fair, l->message, sizeof l->message, l->sale, sizeof l->sale, &l->tally);
}

static void fair_verify(void)
{
    HERE();
    l->answer = kes_fair_verify(N, l->fair_key, sizeof l->fair_key, 0, l->message, sizeof l->message, l->sale, sizeof l->sale);
}

static void plain_fill(void)
{
    HERE();
    memset(l->seed, 7, sizeof l->seed);
    l->answer = kes_plain_fill(KES_PLAIN_HEIGHT_MAX, l->seed, sizeof l->seed, l->tree, sizeof l->tree, &l->tally);
}

static void plain_root(void)
{
    HERE();
    l->answer = kes_plain_root(KES_PLAIN_HEIGHT_MAX, l->tree, sizeof l->tree, l->root, sizeof l->root);
}

static void plain_path(void)
{
    HERE();
    l->answer = kes_plain_path(KES_PLAIN_HEIGHT_MAX, l->tree, sizeof l->tree, 255, l->path, sizeof l->path);
}

static void plain_sign(void)
{
    HERE();
    l->answer = kes_plain_sign(KES_PLAIN_HEIGHT_MAX, l->tree, sizeof l->tree, 255, l->message, sizeof l->message, l->lesson, sizeof l->lesson, &l->tally);
}

static void card_enter(void)
{
    HERE();
    l->answer = kes_card_enter(l->cards, KES_CARDS, 0, 1, 1);
}

static void card_find(void)
{
    HERE();
    l->answer = kes_card_find(l->cards, KES_CARDS, 1, 1);
}

static const struct {
    const char *name;
    void (*run)(void);
    uint64_t step;
    size_t three;
} calls[] = {
    {"make", make, 0, 0},
    {"read key", read_key, 0, 0},
    {"sign", sign, 0, 0},
    {"verify", verify, 0, 0},
    {"hash", hash, 0, 0},
    {"move to the next step", move, 1, 0},
    {"move to the child's last step", move, ((uint64_t)1 << H2) - 1, 0},
    {"move to the next parent step", move, (uint64_t)1 << H2, 0},
    {"move to the last step", move, ((uint64_t)1 << (H1 + H2)) - 1, 0},
    {"catch up to the last step", catch_up, ((uint64_t)1 << (H1 + H2)) - 1, 0},
    {"release", release, 1, 0},
    {"three: make", make3, 0, 1},
    {"three: read key", read_key, 0, 1},
    {"three: sign", sign, 0, 1},
    {"three: verify", verify3, 0, 1},
    {"three: to the next step", move, 1, 1},
    {"three: to the next middle step", move, (uint64_t)1 << H3, 1},
    {"three: to the next left step", move, (uint64_t)1 << (H3 + H3), 1},
    {"three: to the last step", move, ((uint64_t)1 << (H3 + H3 + H3)) - 1, 1},
    {"three: catch up to it", catch_up, ((uint64_t)1 << (H3 + H3 + H3)) - 1, 1},
    {"fair make", fair_make, 0, 0},
    {"fair sign", fair_sign, 0, 0},
    {"fair verify", fair_verify, 0, 0},
    {"fair move to the last step", fair_move, N - 1, 0},
    {"plain fill", plain_fill, 0, 0},
    {"plain root", plain_root, 0, 0},
    {"plain path", plain_path, 0, 0},
    {"plain sign", plain_sign, 0, 0},
    {"card enter", card_enter, 0, 0},
    {"card find", card_find, 0, 0},
};

enum { CALLS = sizeof calls / sizeof calls[0] };

static void check(int holds, const char *what)
{
    if (holds)
        return;
    fprintf(stderr, "stack: FAILED: %s\n", what);
    exit(1);
}

static void measure(size_t i)
{
    uint8_t *low = lowest(calls[i].run);
    l->reach = (size_t)(caller - low);
}

static void wipe_at(size_t depth)
{
    volatile uint8_t frame[512];
    frame[0] = (uint8_t)depth;
    if (depth > 0)
        wipe_at(depth - 1);
    kes_wipe();
    check(frame[0] == (uint8_t)depth, "kes_wipe changes its caller's frame");
}

static void *all_calls(void *none)
{
    size_t i;
    for (i = 0; i < CALLS; i++) {
        l->step = calls[i].step, l->three = calls[i].three;
        calls[i].run();
        check(kes_number(l->answer) == KES_DONE, calls[i].name);
        wipe_at(DEPTHS);
    }
    return none;
}

static void small_thread(size_t unused)
{
    size_t least = KES_STACK + (size_t)sysconf(_SC_THREAD_STACK_MIN);
    pthread_attr_t attributes;
    pthread_t thread;
    (void)unused;
    check(pthread_attr_init(&attributes) == 0 && pthread_attr_setstacksize(&attributes, least) == 0, "a stack's size is set");
    check(pthread_create(&thread, &attributes, all_calls, NULL) == 0 && pthread_join(thread, NULL) == 0, "a thread runs");
    l->reach = least;
}

/* Runs a function in a process of its own, in which the library was never called. */
static void apart(void (*function)(size_t), size_t i, const char *name)
{
    int status = 0;
    pid_t child = fork();
    if (child == 0) {
        function(i);
        _exit(0);
    }
    check(child > 0 && waitpid(child, &status, 0) == child && status == 0, name);
    check(kes_number(l->answer) == KES_DONE, name);
}

int main(void)
{
    size_t i, most = 0;
    l = mmap(NULL, sizeof *l, PROT_READ | PROT_WRITE, MAP_SHARED | MAP_ANONYMOUS, -1, 0);
    check(l != MAP_FAILED, "memory is shared");
    for (i = 0; i < CALLS; i++) {
        l->step = calls[i].step, l->three = calls[i].three;
        apart(measure, i, calls[i].name);
        printf("stack: %-30s %6zu bytes\n", calls[i].name, l->reach);
        most = l->reach > most ? l->reach : most;
    }
    check(2 * most <= KES_STACK, "KES_STACK is twice what the calls use, or more");
    apart(small_thread, 0, "every call and kes_wipe in a small thread");
    printf("stack: at most %zu of KES_STACK's %d bytes; a thread of %zu bytes makes every call and wipes\n", most, KES_STACK, l->reach);
    return 0;
}
