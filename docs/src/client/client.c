/* A C client of the whole header: judges a few images whose answers document 01 gives, starts a machine and runs the worked session
 * on it, lists what its processes could do, tries refusals, and fails where an answer or a lent byte differs. */
#include <stdio.h>
#include <string.h>

#include "tillerwrap.h"

static int failures;

static void expect(const char *what, const uint8_t *image, size_t length, struct tillerwrap_judged wanted)
{
    struct tillerwrap_judged got = tillerwrap_judge(image, length);
    if (got.code != wanted.code || got.place != wanted.place || got.blocks != wanted.blocks || got.peak != wanted.peak) {
        printf("%s: %u %u %u %u\n", what, (unsigned)got.code, (unsigned)got.place, (unsigned)got.blocks, (unsigned)got.peak);
        failures++;
    }
}

/* The lent machine stands between guards that no call may touch. */
enum { MACHINE = TILLERWRAP_MACHINE_BYTES, GUARD = 64, GUARD_BYTE = 0x5A };
static uint8_t room[GUARD + MACHINE + GUARD];
static uint8_t *const machine = room + GUARD;

static void set_guards(void)
{
    memset(room, GUARD_BYTE, GUARD);
    memset(machine + MACHINE, GUARD_BYTE, GUARD);
}

static void look_at_guards(void)
{
    int i;
    for (i = 0; i < GUARD; i++)
        if (room[i] != GUARD_BYTE || machine[MACHINE + i] != GUARD_BYTE) {
            printf("bytes around the machine were written\n");
            failures++;
            return;
        }
}

static const uint8_t zeros[TILLERWRAP_MEMORY_BYTES] = {0};

static uint32_t word(int at)
{
    const uint8_t *b = machine + 4 * at;
    return (uint32_t)b[0] | (uint32_t)b[1] << 8 | (uint32_t)b[2] << 16 | (uint32_t)b[3] << 24;
}

static void answers(const char *what, struct tillerwrap_answer got, uint32_t code, uint32_t place)
{
    if (got.code != code || got.place != place) {
        printf("%s: %u %u\n", what, (unsigned)got.code, (unsigned)got.place);
        failures++;
    }
}

/* A refusal, with every lent byte as it was. */
static void keeps(const char *what, const uint8_t *before, struct tillerwrap_answer got, uint32_t code, uint32_t place)
{
    answers(what, got, code, place);
    if (memcmp(before, machine, MACHINE) != 0) {
        printf("%s: bytes were written\n", what);
        failures++;
    }
}

/* The commands of the worked session, with the code, live count and history count after each. */
static const struct {
    uint32_t direction, process, code, live, kept;
} session[] = {
    {TILLERWRAP_FORWARD, 0, 0, 1, 1}, {TILLERWRAP_FORWARD, 0, 0, 3, 2}, {TILLERWRAP_FORWARD, 2, 0, 3, 3},
    {TILLERWRAP_FORWARD, 1, 0, 3, 4}, {TILLERWRAP_UNDO, 2, 27, 3, 4},   {TILLERWRAP_UNDO, 1, 0, 3, 3},
    {TILLERWRAP_UNDO, 2, 0, 3, 2},    {TILLERWRAP_UNDO, 0, 0, 1, 1},
};

static void run_session(const uint8_t *image, size_t length)
{
    size_t i;
    answers("start", tillerwrap_start(image, length, zeros, sizeof zeros, machine, MACHINE), 0, 0);
    for (i = 0; i < sizeof session / sizeof session[0]; i++) {
        answers("session", tillerwrap_step(image, length, session[i].process, session[i].direction, machine, MACHINE),
                session[i].code, 0);
        if (word(TILLERWRAP_LIVE_COUNT) != session[i].live || word(TILLERWRAP_HISTORY_COUNT) != session[i].kept) {
            printf("session %u: counts %u %u\n", (unsigned)i, (unsigned)word(TILLERWRAP_LIVE_COUNT),
                   (unsigned)word(TILLERWRAP_HISTORY_COUNT));
            failures++;
        }
    }
}

static void run_refusals(const uint8_t *image, size_t length)
{
    static uint8_t before[TILLERWRAP_MACHINE_BYTES];
    memset(machine, 0xA5, MACHINE);
    memcpy(before, machine, MACHINE);
    keeps("start, cut image", before, tillerwrap_start(image, length - 1, zeros, sizeof zeros, machine, MACHINE), 3, 38);
    keeps("start, short memory", before, tillerwrap_start(image, length, zeros, sizeof zeros - 1, machine, MACHINE), 16, 0);
    keeps("start, short machine", before, tillerwrap_start(image, length, zeros, sizeof zeros, machine, MACHINE - 4), 16, 0);
    keeps("start, nothing lent", before, tillerwrap_start(image, 0, zeros, 0, machine, 0), 1, 0);
    keeps("step, cut image", before, tillerwrap_step(image, length - 1, 0, 0, machine, MACHINE - 4), 3, 38);
    keeps("step, short machine", before, tillerwrap_step(image, length, 0, 0, machine, MACHINE - 4), 16, 0);
    keeps("step, no machine", before, tillerwrap_step(image, length, 0, 0, machine, MACHINE), 17, 0);

    answers("start again", tillerwrap_start(image, length, zeros, sizeof zeros, machine, MACHINE), 0, 0);
    memcpy(before, machine, MACHINE);
    keeps("step, third direction", before, tillerwrap_step(image, length, 1, 2, machine, MACHINE), 19, 0);
    keeps("step, unknown process", before, tillerwrap_step(image, length, 1, TILLERWRAP_FORWARD, machine, MACHINE), 18, 0);
    keeps("step, undo at begin", before, tillerwrap_step(image, length, 0, TILLERWRAP_UNDO, machine, MACHINE), 21, 0);
}

/* The rows lent to a list stand between guard rows; all of them hold the guard's bytes before. */
enum { ROWS = TILLERWRAP_ROW_COUNT };
static struct tillerwrap_row row_room[1 + ROWS + 1];
static struct tillerwrap_row *const rows = row_room + 1;

/* All rows after a list, and the guards filled again. */
static void has_rows(const char *what, const struct tillerwrap_row *expected)
{
    if (memcmp(expected, row_room, sizeof row_room) != 0) {
        printf("%s: other rows\n", what);
        failures++;
    }
    memset(row_room, GUARD_BYTE, sizeof row_room);
}

/* A list that is accepted: the wanted rows and then zeros. */
static void lists(const char *what, struct tillerwrap_answer got, const struct tillerwrap_row *wanted, size_t count)
{
    struct tillerwrap_row expected[1 + ROWS + 1];
    memset(expected, GUARD_BYTE, sizeof expected);
    memset(expected + 1, 0, ROWS * sizeof expected[0]);
    memcpy(expected + 1, wanted, count * sizeof expected[0]);
    answers(what, got, 0, 0);
    has_rows(what, expected);
}

/* A list that is refused: all rows as they were. */
static void refuses(const char *what, struct tillerwrap_answer got, uint32_t code, uint32_t place)
{
    struct tillerwrap_row expected[1 + ROWS + 1];
    memset(expected, GUARD_BYTE, sizeof expected);
    answers(what, got, code, place);
    has_rows(what, expected);
}

/* After the worked session's first four steps: the root can merge, 1 can go back, and 1's step holds that of 2. */
static void run_lists(const uint8_t *image, size_t length)
{
    static const uint32_t processes[] = {0, 0, 2, 1};
    static const struct tillerwrap_row ended[] = {
        {0, TILLERWRAP_ACCEPTED, TILLERWRAP_CHILDREN},
        {1, TILLERWRAP_STAGE, TILLERWRAP_ACCEPTED},
        {2, TILLERWRAP_STAGE, TILLERWRAP_HELD},
    };
    static uint8_t before[TILLERWRAP_MACHINE_BYTES];
    size_t i;
    memset(row_room, GUARD_BYTE, sizeof row_room);
    answers("start to list", tillerwrap_start(image, length, zeros, sizeof zeros, machine, MACHINE), 0, 0);
    for (i = 0; i < sizeof processes / sizeof processes[0]; i++)
        answers("step to list", tillerwrap_step(image, length, processes[i], TILLERWRAP_FORWARD, machine, MACHINE), 0, 0);
    memcpy(before, machine, MACHINE);
    lists("list", tillerwrap_list(image, length, machine, MACHINE, rows, ROWS), ended, 3);
    refuses("list, cut image", tillerwrap_list(image, length - 1, machine, MACHINE, rows, ROWS), 3, 38);
    refuses("list, 63 rows", tillerwrap_list(image, length, machine, MACHINE, rows, ROWS - 1), 16, 0);
    refuses("list, short machine", tillerwrap_list(image, length, machine, MACHINE - 4, rows, ROWS), 16, 0);
    if (memcmp(before, machine, MACHINE) != 0) {
        printf("a list wrote to the machine\n");
        failures++;
    }
    machine[4 * TILLERWRAP_LIVE_COUNT] = 2;
    refuses("list, one row too many", tillerwrap_list(image, length, machine, MACHINE, rows, ROWS), 17, 0);
}

int main(void)
{
    static const uint8_t smallest[] = {0x22, 0x00, 0x47, 0x32, 0x00};
    static const uint8_t other_end[] = {0x22, 0x00, 0x47, 0x32, 0x01};
    static const uint8_t no_main[] = {0x22, 0x01, 0x47, 0x32, 0x01};
    static const uint8_t worked[] = {0x22, 0x00, 0x47, 0x30, 0x01, 0x20, 0x01, 0x52, 0x05, 0x06, 0x30, 0x02, 0x20, 0x02,
                                     0x47, 0x32, 0x00, 0x22, 0x05, 0x40, 0x02, 0x00, 0x10, 0x01, 0x01, 0x00, 0x00, 0x00,
                                     0x32, 0x05, 0x22, 0x06, 0x40, 0x02, 0x01, 0x10, 0x02, 0x00, 0x32, 0x06};
    static const uint8_t too_long[TILLERWRAP_IMAGE_BYTES + 1] = {0x22};
    const struct tillerwrap_judged length = {TILLERWRAP_IMAGE_LENGTH, 0, 0, 0};
    const struct tillerwrap_judged accepted = {TILLERWRAP_ACCEPTED, 0, 1, 1};
    const struct tillerwrap_judged cut = {TILLERWRAP_CUT, 3, 0, 0};
    const struct tillerwrap_judged counted = {TILLERWRAP_LABEL_COUNT, 0, 0, 0};
    const struct tillerwrap_judged mainless = {TILLERWRAP_NO_MAIN, 0, 0, 0};
    const struct tillerwrap_judged three = {TILLERWRAP_ACCEPTED, 0, 5, 3};

    expect("empty", smallest, 0, length);
    expect("smallest", smallest, sizeof smallest, accepted);
    expect("cut", smallest, 4, cut);
    expect("another end", other_end, sizeof other_end, counted);
    expect("no main", no_main, sizeof no_main, mainless);
    expect("worked", worked, sizeof worked, three);
    expect("too long", too_long, sizeof too_long, length);
    set_guards();
    run_session(worked, sizeof worked);
    run_refusals(worked, sizeof worked);
    run_lists(worked, sizeof worked);
    look_at_guards();
    printf("client: %d failed\n", failures);
    return failures != 0;
}
