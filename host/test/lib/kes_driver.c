/* Calls the library as requests on standard input ask (lent.h says how), and writes to standard output what it answered and left.
 * A request: op (1 byte), h1, h2, h3, step, the tally, every, silent (8 bytes each), four lengths (4 each), four buffers; numbers lowest byte
 * first. An answer: the answer (8), how often each Ed25519 call was made (3 times 4), the tally (8) and the four buffers as they were left. */
#include <stdio.h>
#include <stdlib.h>

#include "lent.h"

static struct request request;
static struct outcome outcome;

static void stop(const char *why)
{
    fprintf(stderr, "kes_driver: %s\n", why);
    exit(1);
}

static uint64_t number(size_t bytes)
{
    uint64_t n = 0;
    size_t i;
    for (i = 0; i < bytes; i++) {
        int byte = getchar();
        if (byte == EOF)
            stop("a request is cut off");
        n |= (uint64_t)(unsigned)byte << (8 * i);
    }
    return n;
}

static void answer(uint64_t n, size_t bytes)
{
    size_t i;
    for (i = 0; i < bytes; i++)
        putchar((int)(n >> (8 * i) & 0xff));
}

static void read_request(int op)
{
    size_t i;
    request.op = op;
    request.h1 = number(8);
    request.h2 = number(8);
    request.h3 = number(8);
    request.step = number(8);
    request.tally = number(8);
    request.every = number(8);
    request.silent = number(8);
    for (i = 0; i < LENT; i++) {
        request.len[i] = (size_t)number(4);
        if (request.len[i] > MOST)
            stop("a buffer is too long");
    }
    for (i = 0; i < LENT; i++)
        if (fread(request.bytes[i], 1, request.len[i], stdin) != request.len[i])
            stop("a buffer is cut off");
}

static void write_outcome(void)
{
    size_t i;
    answer(outcome.answer, 8);
    for (i = 0; i < 3; i++)
        answer(outcome.asked[i], 4);
    answer(outcome.tally, 8);
    for (i = 0; i < LENT; i++)
        fwrite(outcome.left[i], 1, request.len[i], stdout);
    fflush(stdout);
}

int main(void)
{
    int op;
    lend_start();
    while ((op = getchar()) != EOF) {
        read_request(op);
        lend(&request, &outcome);
        write_outcome();
    }
    return 0;
}
