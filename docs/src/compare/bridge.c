/* A C client of the whole header at the other end of a pipe: reads calls from standard input, makes each on what it lends, and
 * writes the answer and the lent bytes to standard output. So the archive, which is for x86-64, can be compared and measured on any
 * processor that runs this program. All numbers are words, low byte first, as an x86-64 has them. */
#define _XOPEN_SOURCE 600
#include <stdio.h>
#include <string.h>
#include <time.h>
#include <ucontext.h>

#include "tillerwrap.h"

enum function { JUDGE, START, STEP, LIST };
/* What is wanted: the answer; the nanoseconds of the quickest of a round of calls; the bytes of stack of one. */
enum wanted { ANSWER, TIME, STACK };

/* A call is these words, then three slices: the image; what else is only read, a first memory or the machine of a list; and what is
 * lent to be written, a machine or the rows of a list. */
struct call {
    uint32_t function, wanted, image_length, given_length, lent_length, process, direction;
};

/* What is written: these words, then the bytes of what was lent. Kept says whether all else is as it was. */
struct answer {
    uint32_t code, place, blocks, peak, kept, measured;
};

enum { ROW = sizeof(struct tillerwrap_row), ROOM_ROWS = 8192, LARGEST = ROOM_ROWS * ROW, GUARD_BYTE = 0xA5 };
enum { GUARD_ROWS = 6, GUARD = GUARD_ROWS * ROW };
static const double ROUND = 20e6;

/* What is read, with a copy to compare it with; what is to be lent; and the room that it is lent in, between guard rows. */
static uint8_t image[LARGEST], given[LARGEST], image_before[LARGEST], given_before[LARGEST], before[LARGEST];
static struct tillerwrap_row room[GUARD_ROWS + ROOM_ROWS + GUARD_ROWS];
static struct tillerwrap_row *const rows = room + GUARD_ROWS;
static uint8_t *const lent = (uint8_t *)(room + GUARD_ROWS);

static int take(uint8_t *bytes, uint32_t length)
{
    return length <= LARGEST && fread(bytes, 1, length, stdin) == length;
}

static int take_call(struct call *c)
{
    return fread(c, sizeof *c, 1, stdin) == 1 && take(image, c->image_length) && take(given, c->given_length) &&
           take(before, c->lent_length);
}

static void make_ready(const struct call *c)
{
    memcpy(lent, before, c->lent_length);
}

static struct answer make(const struct call *c)
{
    struct answer a = {0, 0, 0, 0, 0, 0};
    struct tillerwrap_answer got = {0, 0};
    if (c->function == JUDGE) {
        struct tillerwrap_judged judged = tillerwrap_judge(image, c->image_length);
        a.code = judged.code, a.place = judged.place, a.blocks = judged.blocks, a.peak = judged.peak;
        return a;
    }
    if (c->function == START)
        got = tillerwrap_start(image, c->image_length, given, c->given_length, lent, c->lent_length);
    if (c->function == STEP)
        got = tillerwrap_step(image, c->image_length, c->process, c->direction, lent, c->lent_length);
    if (c->function == LIST)
        got = tillerwrap_list(image, c->image_length, given, c->given_length, rows, c->lent_length / ROW);
    a.code = got.code, a.place = got.place;
    return a;
}

static int are_guards(const uint8_t *bytes)
{
    int i, kept = 1;
    for (i = 0; i < GUARD; i++)
        kept &= bytes[i] == GUARD_BYTE;
    return kept;
}

/* Makes the call between guards, and says whether they and what is only read were left alone. */
static struct answer make_guarded(const struct call *c)
{
    struct answer a;
    uint8_t *end = lent + c->lent_length;
    make_ready(c);
    memcpy(image_before, image, c->image_length);
    memcpy(given_before, given, c->given_length);
    memset(room, GUARD_BYTE, GUARD);
    memset(end, GUARD_BYTE, GUARD);
    a = make(c);
    a.kept = are_guards((const uint8_t *)room) && are_guards(end) && memcmp(image_before, image, c->image_length) == 0 &&
             memcmp(given_before, given, c->given_length) == 0;
    return a;
}

static double now(void)
{
    struct timespec t;
    clock_gettime(CLOCK_MONOTONIC, &t);
    return (double)t.tv_sec * 1e9 + (double)t.tv_nsec;
}

/* Nanoseconds of the quickest call of a round. Making ready for it is not measured. */
static uint32_t timed(const struct call *c)
{
    double spent = 0, best = UINT32_MAX;
    while (spent < ROUND) {
        double took;
        make_ready(c);
        took = now();
        make(c);
        took = now() - took;
        spent += took;
        if (took < best)
            best = took;
    }
    return (uint32_t)best;
}

static uint8_t stack[256 * 1024];
static ucontext_t here, aside;
static struct call call_aside;

static void make_aside(void)
{
    make(&call_aside);
}

/* How far one call writes into a stack of its own, painted before, with the two frames of this measure itself. */
static uint32_t stack_of(const struct call *c)
{
    size_t untouched = 0;
    make_ready(c);
    call_aside = *c;
    memset(stack, GUARD_BYTE, sizeof stack);
    getcontext(&aside);
    aside.uc_stack.ss_sp = stack;
    aside.uc_stack.ss_size = sizeof stack;
    aside.uc_link = &here;
    makecontext(&aside, make_aside, 0);
    swapcontext(&here, &aside);
    while (untouched < sizeof stack && stack[untouched] == GUARD_BYTE)
        untouched++;
    return (uint32_t)(sizeof stack - untouched);
}

int main(void)
{
    struct call c;
    while (take_call(&c)) {
        struct answer a = make_guarded(&c);
        if (c.wanted == TIME)
            a.measured = timed(&c);
        if (c.wanted == STACK)
            a.measured = stack_of(&c);
        if (c.wanted != ANSWER)
            make_ready(&c);
        fwrite(&a, sizeof a, 1, stdout);
        fwrite(lent, 1, c.lent_length, stdout);
        fflush(stdout);
    }
    return 0;
}
