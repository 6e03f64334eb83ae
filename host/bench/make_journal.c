/* make_journal LINES TWO ONE: writes a journal of good lines, of a key of heights 6 and 6; to the file TWO the two Ed25519 calls that each line's verdict takes,
 * and to ONE the second of them, by which the child's part is checked. */
#include <stdio.h>
#include <stdlib.h>

#include "kes.h"
#include "recorded.h"

enum { H1 = 6, H2 = 6, MESSAGE_MAX = 64 };

static uint8_t table[KES_TABLE_SIZE(H1, H2)], key[KES_KEY_SIZE], signature[KES_SIGNATURE_SIZE(H1, H2)];
static uint64_t tally;

static void must(int fine, const char *why)
{
    if (!fine) {
        fprintf(stderr, "make_journal: %s\n", why);
        exit(1);
    }
}

static void print_hex(const uint8_t *bytes, size_t len)
{
    size_t i;
    for (i = 0; i < len; i++)
        printf("%02x", bytes[i]);
    puts("");
}

static void begin(void)
{
    uint8_t seed[KES_SEED_SIZE] = "a race may take a fixed seed...";
    must(kes_number(kes_make(H1, H2, seed, sizeof seed, table, sizeof table, &tally)) == KES_DONE, "no key is made");
    must(kes_release(table, sizeof table, 0, kes_steps(H1, H2)) == KES_DONE && kes_release(table, sizeof table, 1, kes_steps(H1, H2)) == KES_DONE, "nothing is released");
    must(kes_read_key(table, sizeof table, key, sizeof key) == KES_DONE, "no key is read");
    printf("kes2\t%d\t%d\t", H1, H2);
    print_hex(key, sizeof key);
}

/* Signs and writes a line; message gets what was signed. */
static size_t write_line(unsigned long serial, unsigned long step, char message[MESSAGE_MAX])
{
    unsigned long card = serial * 7919 % 10000, amount = 1 + serial * 104729 % 2000000;
    int len = snprintf(message, MESSAGE_MAX, "111122223333%04lu\t%lu\t%lu", card, serial, amount);
    must(kes_sign(table, sizeof table, (uint8_t *)message, (size_t)len, signature, sizeof signature, &tally) == KES_DONE, "nothing is signed");
    printf("%lu\t111122223333%04lu\t%lu\t%lu\t", step, card, serial, amount);
    print_hex(signature, sizeof signature);
    return (size_t)len;
}

/* The calls that the verdict on the line just written takes. */
static void write_calls(const char *message, size_t len, unsigned long step, FILE *two, FILE *one)
{
    const struct record *calls;
    size_t count;
    record_start();
    must(kes_verify(H1, H2, key, sizeof key, step, (const uint8_t *)message, len, signature, sizeof signature) == KES_DONE, "a line is not good");
    count = record_end(&calls);
    must(count == 2, "a verdict takes not two Ed25519 calls");
    must(fwrite(calls, sizeof *calls, 2, two) == 2 && fwrite(calls + 1, sizeof *calls, 1, one) == 1, "the calls cannot be written");
}

/* The lines spread evenly over the key's steps. */
static void write_lines(unsigned long lines, FILE *two, FILE *one)
{
    unsigned long serial, step = 0;
    char message[MESSAGE_MAX];
    for (serial = 1; serial <= lines; serial++) {
        unsigned long next = (serial - 1) * kes_steps(H1, H2) / lines;
        must(next == step || kes_number(kes_move(table, sizeof table, next, &tally)) == KES_DONE, "the key does not move");
        step = next;
        write_calls(message, write_line(serial, step, message), step, two, one);
    }
}

int main(int argc, char **argv)
{
    FILE *two = argc == 4 ? fopen(argv[2], "wb") : NULL, *one = argc == 4 ? fopen(argv[3], "wb") : NULL;
    must(two != NULL && one != NULL, "name the number of lines, and two files for the calls");
    begin();
    write_lines(strtoul(argv[1], NULL, 10), two, one);
    must(fclose(two) == 0 && fclose(one) == 0 && fflush(stdout) == 0, "not all could be written");
    return 0;
}
