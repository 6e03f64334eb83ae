/* The order of work, which is the point of this example. A desk once showed "done", moved its key, and only then went to sign:
 * the step was gone, its top-up could no longer be signed, and a member lost the money. So here
 *
 *     a top-up:  sign, check, append the record, sync, append its LF, sync, write the chip, show "done"
 *     a tick:    release the steps before it, move in memory, write key.new, sync, give key the second name key.old, sync, rename key.new to key, sync,
 *                zero key.old, sync, remove it
 *
 * and each step of it waits for the one before. Money is on a chip only if its record is safe. A moved key signs only once it is
 * stored: the stored key is never behind the journal, so no line written after a crash falls back to an earlier step.
 *
 * A call that fails ends the desk. An error thus leaves what a crash leaves, and one repair serves both: desk_open. Where the module is
 * not reached, the desk waits at that very call, and tries it again until it is answered. */
#include "desk.h"

#include <inttypes.h>
#include <string.h>

#include "files.h"
#include "lines.h"
#include "memory.h"
#include "module.h"
#include "random.h"
#include "record.h"
#include "secret.h"
#include "show.h"

static const struct secret KEY = {"key", "key.new", "key.old"};
/* Of each window; a desk with one has the first. */
static const char *const JOURNALS[] = {"journal", "refunds"};


/* Heights, step and the windows' numbers. */
enum { HEADER_SIZE = 16 };

/* All that the desk knows. Seed and table are its secrets, and stand nowhere else. */
static struct {
    uint8_t seed[KES_SEED_SIZE];
    uint8_t table[KES_TABLE_MAX];
    size_t table_len;
    struct registered registered;
    uint64_t serial; /* the last record's */
    int window, journal;
} desk;

/* Where document 01 lays it in the table. */
uint64_t desk_step(void)
{
    const uint8_t *t = desk.table + 4;
    return (uint64_t)t[0] | (uint64_t)t[1] << 8 | (uint64_t)t[2] << 16 | (uint64_t)t[3] << 24;
}

const struct registered *desk_registered(void)
{
    return &desk.registered;
}

static void read_registered(void)
{
    struct registered *registered = &desk.registered;
    need(kes_read_key(desk.table, desk.table_len, registered->key, sizeof registered->key), "kes_read_key");
    registered->h1 = desk.table[0];
    registered->h2 = desk.table[1];
}

static void store_header(void)
{
    char line[HEADER_MOST + 1];
    size_t len = header_line(line, &desk.registered);
    desk.journal = lines_new(JOURNALS[desk.window], line, len);
}

static void make_table(uint64_t h1, uint64_t h2)
{
    uint64_t made;
    random_fill(desk.seed, sizeof desk.seed);
    desk.table_len = kes_table_size(h1, h2);
    do {
        made = kes_make(h1, h2, desk.seed, sizeof desk.seed, desk.table, desk.table_len, module_tally());
        kes_wipe();
    } while (module_silent(kes_number(made)));
    need(kes_number(made), "kes_make");
    read_registered();
}

/* Opens the journal, if there is one. At one of the old word, whose records are signed otherwise, the desk stops before it has changed
 * anything. */
static int find_journal(void)
{
    char word[4];
    int journal = file_open(JOURNALS[desk.window]);
    if (journal >= 0 && file_read(journal, 0, word, sizeof word) == sizeof word && memcmp(word, "kes\t", sizeof word) == 0)
        refuse("the journal begins with kes, not kes2: it is an old one; make a new key and a new journal in another folder");
    return journal;
}

/* Nothing is made where a key is, nor over a journal with records. A header alone is what a making that was cut off leaves. */
static void need_no_desk(void)
{
    int journal = find_journal();
    if (file_open(KEY.name) >= 0)
        refuse("there is a key in this folder already");
    if (journal < 0)
        return;
    if (file_size(journal) > HEADER_MOST)
        refuse("there is a journal in this folder already, and no key to it");
    file_close(journal);
}

static void each_window(int windows, void (*does)(void))
{
    for (desk.window = 0; desk.window < windows; desk.window++)
        does();
}

/* The key gets its name last: where it has it, a journal with a whole header is on the disk too, its name synced with key.new's. A desk
 * with one window releases the other at once: nobody else will. */
void desk_make(const char *folder, uint64_t h1, uint64_t h2, int windows)
{
    memory_guard(&desk, sizeof desk);
    folder_open(folder);
    each_window(windows, need_no_desk);
    secret_tidy(&KEY);
    make_table(h1, h2);
    if (windows == 1)
        need(kes_release(desk.table, desk.table_len, 1, kes_steps(h1, h2)), "kes_release");
    each_window(windows, store_header);
    secret_write_new(&KEY, desk.table, desk.table_len);
    secret_name_new(&KEY);
    show("made: a key of %" PRIu64 " steps; its verification key is in line 1 of the journal\n", kes_steps(h1, h2));
}

/* A killed desk's rename may not be on the disk yet. It has to be before anything is signed, or a power cut could bring the key of
 * an earlier step back. */
static void open_key(void)
{
    folder_sync();
    desk.table_len = secret_read(&KEY, desk.table, sizeof desk.table);
    if (desk.table_len == 0)
        refuse("there is no key in this folder");
    read_registered();
    secret_tidy(&KEY);
}

static void check_header(void)
{
    char line[HEADER_MOST + 1], found[HEADER_MOST];
    size_t len = header_line(line, &desk.registered);
    if (file_read(desk.journal, 0, found, len) != len || memcmp(found, line, len) != 0)
        refuse("the journal's first line is not this key's");
}

static int is_good(const struct record *record)
{
    char message[MESSAGE_MOST];
    size_t len = record_message(message, record);
    return registered_signed(&desk.registered, record->step, message, len, record->signature);
}

/* Reads the last record; answers 0 where there is none, since the last whole line is the header. */
static int read_last(struct record *last, const struct tail *tail)
{
    if (lines_only_first(tail))
        return 0;
    if (!record_read(last, tail->bytes + tail->start, tail->end - tail->start) || !is_good(last))
        refuse("the journal's last line is not a good record; it is left as it is");
    if (last->step > desk_step())
        refuse("the journal is at a later step than the key; was an old key put back?");
    return 1;
}

/* Whether the last record was shown as done, only the clerk knows, who is told of it as the program starts. */
static void open_journal(int starts)
{
    struct tail tail;
    struct record last = {.signature_len = signature_size(&desk.registered)};
    if (desk.journal < 0)
        refuse("there is no journal in this folder");
    check_header();
    lines_tail(desk.journal, &tail);
    if (read_last(&last, &tail))
        desk.serial = last.serial;
    lines_repair(desk.journal, &tail);
    if (desk.serial > 0 && starts)
        show("last record: serial %" PRIu64 ", card %s, %" PRIu64 " cents\nif it was not shown as done, look at the chip\n", last.serial, last.card, last.amount);
}

void desk_open(const char *folder)
{
    memory_guard(&desk, sizeof desk);
    folder_open(folder);
    desk.journal = find_journal();
    open_key();
    open_journal(1);
    show("open: step %" PRIu64 ", next serial %" PRIu64 "\n", desk_step(), desk.serial + 1);
}

/* A window's turn: while it has the folder's lock, the key's file and its own journal are its own. It begins with the repair that a
 * crashed turn of either window needs, and ends with no key in memory: the other window may move it on. */
void desk_turn(const char *folder, int window)
{
    static int turns;
    desk.window = window;
    desk.serial = 0;
    folder_enter(folder);
    desk.journal = find_journal();
    open_key();
    open_journal(turns++ == 0);
}

void desk_turn_end(void)
{
    file_close(desk.journal);
    memory_clear(desk.table, sizeof desk.table);
    folder_leave();
}

void desk_guard(void)
{
    memory_guard(&desk, sizeof desk);
}

/* What nobody would call good is not stored, and no money follows it. */
void desk_sign(const char *text, size_t len, uint8_t *signature)
{
    uint32_t number;
    do {
        number = kes_sign(desk.table, desk.table_len, (const uint8_t *)text, len, signature, signature_size(&desk.registered), module_tally());
        kes_wipe();
    } while (module_silent(number));
    need(number, "kes_sign");
    if (!registered_signed(&desk.registered, desk_step(), text, len, signature))
        refuse("a new signature is not good; is the key file damaged?");
}

static void sign(struct record *record)
{
    char message[MESSAGE_MOST];
    size_t len = record_message(message, record);
    desk_sign(message, len, record->signature);
}

static void store_record(const struct record *record)
{
    char line[LINE_MOST];
    lines_append(desk.journal, line, record_line(line, record));
    desk.serial = record->serial;
}

/* Stands for the device that writes the card's chip. */
static void write_chip(const struct record *record)
{
    show("chip: serial %" PRIu64 ", card %s, %" PRIu64 " cents\n", record->serial, record->card, record->amount);
}

static void show_done(const struct record *record)
{
    show("done: serial %" PRIu64 ", card %s, %" PRIu64 " cents\n", record->serial, record->card, record->amount);
}

void desk_top_up(const char *card, uint64_t amount)
{
    struct record record = {.step = desk_step(), .serial = desk.serial + 1, .amount = amount};
    if (record.serial > SERIAL_MOST)
        refuse("the journal is full");
    memcpy(record.card, card, CARD_DIGITS);
    record.signature_len = signature_size(&desk.registered);
    sign(&record);
    store_record(&record);
    write_chip(&record);
    show_done(&record);
}

/* This window needs no earlier step any more. One that is lower than what stands, or past the end, the catch-up tells of. */
static void release(uint64_t step)
{
    uint32_t number = kes_release(desk.table, desk.table_len, (uint64_t)desk.window, step);
    if (number != KES_LOWERED)
        need(number, "kes_release");
}

/* This window needs no earlier step any more, and the key catches up, once more after each silence of the module. */
static uint64_t released_and_moved(uint64_t step)
{
    uint64_t moved;
    release(step);
    do {
        moved = kes_catch_up(desk.table, desk.table_len, step, module_tally());
        kes_wipe();
    } while (module_silent(kes_number(moved)));
    if (kes_number(moved) == KES_PAST_END)
        refuse("the clock is past the key's last step; make a new key and have it registered");
    return moved;
}

/* A step that is not later is no fault: after a restart, or where two timers tick, the clock may say again what it said before. Then
 * the key stays, and its file is not written. */
void desk_jump(uint64_t step)
{
    uint64_t moved = released_and_moved(step);
    need(kes_number(moved), "kes_catch_up");
    if (kes_count(moved) == 0)
        return;
    secret_replace(&KEY, desk.table, desk.table_len);
    show("step: %" PRIu64 "\n", step);
}

/* Both windows' ticks: this one needs no earlier step any more, which is stored; and the key moves if the other needs none either. What
 * a tick changes, the header says. */
void desk_release(uint64_t step)
{
    uint8_t before[HEADER_SIZE];
    uint64_t moved;
    memcpy(before, desk.table, sizeof before);
    moved = released_and_moved(step);
    if (kes_number(moved) != KES_NOT_RELEASED)
        need(kes_number(moved), "kes_catch_up");
    if (memcmp(before, desk.table, sizeof before) != 0)
        secret_replace(&KEY, desk.table, desk.table_len);
    show(kes_count(moved) > 0 ? "step: %" PRIu64 "\n" : "released: %" PRIu64 "\n", step);
}

void desk_tick(uint64_t step)
{
    if (step > desk_step() + DESK_TICK_MOST)
        show("ask: the clock says step %" PRIu64 ", and the key is at step %" PRIu64 "; if the clock is right, say: jump %" PRIu64 "\n", step, desk_step(), step);
    else
        desk_jump(step);
}
