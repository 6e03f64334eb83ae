/* The order of work of a fair's day:
 *
 *     the morning:  make the cache, certify it with the desk's key, write the certificate as the fair's first line, sync, write
 *                   cache.new, sync, move the desk's key on as at a tick, rename cache.new to cache, sync
 *     a sale:       sign, check, append the record, sync, append its LF, sync, print the receipt, show "done", and only then
 *                   move the cache, and replace its file as a tick replaces the key's
 *     the evening:  rename cache to cache.old, sync, zero it, sync, remove it
 *
 * and each step of it waits for the one before. The desk's key moves on before the first sale: who steals it in the afternoon cannot
 * certify a second cache at the morning's step. It moves only when the certificate is safe, since it can never sign that one again.
 * The cache gets its name last, so where there is a cache, both are done. A sale has a step of its own, so the steps of the fair's
 * sales are 0, 1, 2 and so on, and the cache stands at the next one: a start can tell whether the last sale was shown as done.
 *
 * A call that fails ends the desk, as in desk.c, and the next start repairs what it leaves; one that the module does not answer is tried
 * again. */
#include "fair.h"

#include <inttypes.h>
#include <string.h>

#include "desk.h"
#include "files.h"
#include "lines.h"
#include "memory.h"
#include "module.h"
#include "random.h"
#include "sale.h"
#include "secret.h"
#include "show.h"

static const struct secret CACHE = {"cache", "cache.new", "cache.old"};
static const char FAIR[] = "fair";

/* All that the fair knows. Master seed, seeds and cache are its secrets, and stand nowhere else. */
static struct {
    uint8_t master[KES_SEED_SIZE];
    uint8_t seeds[KES_FAIR_SEEDS_SIZE(KES_FAIR_MAX)];
    uint8_t cache[KES_FAIR_CACHE_MAX];
    size_t cache_len; /* 0 when the fair is over */
    struct certificate certificate;
    int file;
} fair;

/* The cache's entries and step, where request 3 lays them. */
static uint64_t cache_entries(void) { return (uint64_t)fair.cache[0] | (uint64_t)fair.cache[1] << 8; }
static uint64_t cache_step(void) { return (uint64_t)fair.cache[2] | (uint64_t)fair.cache[3] << 8; }

/* Opening the desk syncs the folder, so what bears the cache's name is settled, and the other two names can go. */
static void begin(const char *folder)
{
    memory_guard(&fair, sizeof fair);
    desk_open(folder);
    secret_tidy(&CACHE);
}

static void destroy_cache(void)
{
    secret_destroy(&CACHE);
    memory_clear(fair.cache, sizeof fair.cache);
    fair.cache_len = 0;
    show("over: the cache is destroyed\n");
}

/* Nothing is made where a fair is on, nor over a file with sales. A certificate alone is what a morning that was cut off leaves. */
static void need_no_fair(void)
{
    char line[LINE_MOST];
    int file = file_open(FAIR);
    if (file_open(CACHE.name) >= 0)
        refuse("a fair is on in this folder already");
    if (file < 0)
        return;
    if (file_size(file) > (off_t)lines_first(file, line, sizeof line))
        refuse("the file of an earlier fair has sales; take it away first");
    file_close(file);
}

static void need_later_step(void)
{
    const struct registered *desk = desk_registered();
    if (desk_step() + 1 >= kes_steps(desk->h1, desk->h2))
        refuse("the desk's key is at its last step and cannot move on; make a new key and have it registered");
}

static void make_cache(uint64_t entries)
{
    uint32_t number;
    size_t seeds_len = KES_FAIR_SEEDS_SIZE(entries);
    random_fill(fair.master, sizeof fair.master);
    random_fill(fair.seeds, seeds_len);
    fair.cache_len = KES_FAIR_CACHE_SIZE(entries);
    do {
        number = kes_fair_make(entries, fair.master, sizeof fair.master, fair.seeds, seeds_len, fair.cache, fair.cache_len, fair.certificate.master, sizeof fair.certificate.master, module_tally());
        kes_wipe();
    } while (module_silent(number));
    need(number, "kes_fair_make");
}

static void certify(uint64_t entries)
{
    char text[CERTIFICATE_TEXT_MOST];
    fair.certificate.entries = entries;
    fair.certificate.step = desk_step();
    fair.certificate.signature_len = signature_size(desk_registered());
    desk_sign(text, certificate_text(text, &fair.certificate), fair.certificate.signature);
}

static void store_certificate(void)
{
    char line[LINE_MOST];
    fair.file = lines_new(FAIR, line, certificate_line(line, &fair.certificate));
}

/* The name of the fair's file is synced with that of cache.new, so the certificate is safe when the key moves on. */
void fair_morning(const char *folder, uint64_t entries)
{
    begin(folder);
    need_no_fair();
    need_later_step();
    make_cache(entries);
    certify(entries);
    store_certificate();
    secret_write_new(&CACHE, fair.cache, fair.cache_len);
    desk_tick(desk_step() + 1);
    secret_name_new(&CACHE);
    show("fair: %" PRIu64 " sales, certified at the desk's step %" PRIu64 "\n", entries, fair.certificate.step);
}

/* No crash leaves a cache whose header does not fit it. */
static int is_cache(void)
{
    return fair.cache_len >= 4 && fair.cache_len == KES_FAIR_CACHE_SIZE(cache_entries()) && cache_step() < cache_entries();
}

/* Answers whether there is a cache. */
static int open_cache(void)
{
    fair.cache_len = secret_read(&CACHE, fair.cache, sizeof fair.cache);
    if (fair.cache_len > 0 && !is_cache())
        refuse("the cache is damaged; no more can be sold with it");
    return fair.cache_len > 0;
}

static void check_certificate(void)
{
    char line[LINE_MOST];
    size_t len = lines_first(fair.file, line, sizeof line);
    struct certificate *certificate = &fair.certificate;
    if (!certificate_read(certificate, desk_registered(), line, len) || !certificate_signed(certificate, desk_registered()))
        refuse("the fair's first line is not a certificate by this desk");
    if (certificate->entries != cache_entries())
        refuse("the certificate is not this cache's");
    if (certificate->step >= desk_step())
        refuse("the desk's key can still certify at the fair's step; was an old key put back?");
}

static int is_good(const struct sale *sale)
{
    return sale_signed(sale, &fair.certificate, desk_registered());
}

/* Reads the last sale; answers how many were sold. */
static uint64_t read_last(struct sale *last, const struct tail *tail)
{
    if (lines_only_first(tail))
        return 0;
    if (!sale_read(last, tail->bytes + tail->start, tail->end - tail->start) || !is_good(last))
        refuse("the fair's last line is not a good sale; it is left as it is");
    return last->step + 1;
}

/* There is no state of a cache after its last step. */
static void move_on(void)
{
    uint32_t number;
    uint64_t next = cache_step() + 1;
    if (next == cache_entries()) {
        destroy_cache();
        return;
    }
    number = kes_fair_move(fair.cache, fair.cache_len, next);
    kes_wipe();
    need(number, "kes_fair_move");
    secret_replace(&CACHE, fair.cache, fair.cache_len);
}

/* Stands for the printer at the till. */
static void print_receipt(const struct sale *sale)
{
    char line[SALE_LINE_MOST];
    size_t len = sale_line(line, sale);
    show("receipt: %.*s", (int)len, line);
}

/* A cache that stands at the last sale's step was not moved, and "done" perhaps not shown: that sale is named and its receipt printed
 * again, so that nobody sells a second time at its step. */
static void finish(const struct sale *last)
{
    show("last sale: step %" PRIu64 ", card %s, %" PRIu64 " cents\nif it was not shown as done, hand out this receipt\n", last->step, last->card, last->amount);
    print_receipt(last);
    move_on();
}

static void open_sales(void)
{
    struct tail tail;
    struct sale last;
    uint64_t sold;
    fair.file = file_open(FAIR);
    if (fair.file < 0)
        refuse("there is a cache in this folder and no file of a fair");
    check_certificate();
    lines_tail(fair.file, &tail);
    sold = read_last(&last, &tail);
    if (sold != cache_step() && sold != cache_step() + 1)
        refuse("cache and sales do not fit; was an old cache put back, or are sales missing?");
    lines_repair(fair.file, &tail);
    if (sold == cache_step() + 1)
        finish(&last);
}

void fair_open(const char *folder)
{
    begin(folder);
    if (!open_cache())
        refuse("no fair is on in this folder");
    open_sales();
    if (fair.cache_len > 0)
        show("fair: next sale is step %" PRIu64 " of %" PRIu64 "\n", cache_step(), cache_entries());
}

/* What no check of a receipt would accept is neither stored nor printed. */
static void sign(struct sale *sale)
{
    char message[SALE_MESSAGE_MOST];
    size_t len = sale_message(message, sale, desk_registered());
    uint32_t number;
    do {
        number = kes_fair_sign(fair.cache, fair.cache_len, (const uint8_t *)message, len, sale->signature, sizeof sale->signature, module_tally());
        kes_wipe();
    } while (module_silent(number));
    need(number, "kes_fair_sign");
    if (!is_good(sale))
        refuse("a new sale is not good; is the cache damaged?");
}

static void store_sale(const struct sale *sale)
{
    char line[SALE_LINE_MOST];
    lines_append(fair.file, line, sale_line(line, sale));
}

static void show_done(const struct sale *sale)
{
    show("done: step %" PRIu64 ", card %s, %" PRIu64 " cents\n", sale->step, sale->card, sale->amount);
}

void fair_sell(const char *card, uint64_t amount)
{
    struct sale sale = {.desk_step = fair.certificate.step, .step = cache_step(), .amount = amount};
    if (fair.cache_len == 0)
        refuse("the fair is over; its last step is sold");
    memcpy(sale.card, card, CARD_DIGITS);
    sign(&sale);
    store_sale(&sale);
    print_receipt(&sale);
    show_done(&sale);
    move_on();
}

/* Also where none is on, since a morning that was cut off may have left a cache that never got its name. */
void fair_evening(const char *folder)
{
    begin(folder);
    if (open_cache())
        open_sales();
    if (fair.cache_len > 0)
        destroy_cache();
}
