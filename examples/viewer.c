/*
 * A small terminal viewer over the library.
 *
 *     viewer FOLDER
 *
 * loads prog.cril and first.mem from the folder, shows the program, starts a machine and shows it: variables and cells that are not 0,
 * the kept steps, and each live process with what it could do, or why it could not. Keys on standard input: the key of a process
 * chooses it, > makes a forward step of it, < takes its newest step back, q ends. Other keys do nothing. The viewer never chooses a
 * step itself.
 */
#include <stdio.h>
#include <string.h>

#include "listing.h"
#include "tillerwrap.h"

/* The most kept steps that are shown; the earlier ones are counted. */
#define SHOWN_STEPS 20

/* The keys of the live processes, in the order of their rows; q is left out, since it ends. */
static const char process_keys[] = "0123456789ABCDEFGHIJKLMNOPQRSTUVWXYZabcdefghijklmnoprstuvwxyz+-*";

struct session {
    uint8_t image[TILLERWRAP_IMAGE_BYTES + 1];
    size_t image_length;
    uint8_t machine[TILLERWRAP_MACHINE_BYTES];
    struct listed_block blocks[TILLERWRAP_BLOCKS];
    int block_count;
    uint32_t chosen; /* the identifier of the chosen process, live or not */
};

static const char *words_of(uint32_t code)
{
    switch (code) {
#define TEXT(name, number, text) case number: return text;
        TILLERWRAP_CODES(TEXT)
#undef TEXT
    }
    return "no code of this library";
}

/* ---- The machine's words ---- */

static uint32_t word(const struct session *s, size_t at)
{
    const uint8_t *b = s->machine + 4 * at;
    return (uint32_t)b[0] | (uint32_t)b[1] << 8 | (uint32_t)b[2] << 16 | (uint32_t)b[3] << 24;
}

static long signed_word(const struct session *s, size_t at)
{
    uint32_t value = word(s, at);
    return value > INT32_MAX ? (long)((int64_t)value - 4294967296) : (long)value;
}

static uint32_t live_count(const struct session *s)
{
    return word(s, TILLERWRAP_LIVE_COUNT);
}

static uint32_t row_word(const struct session *s, uint32_t row, enum tillerwrap_row_word which)
{
    return word(s, TILLERWRAP_ROWS + TILLERWRAP_ROW_WORDS * (size_t)row + which);
}

static uint32_t entry_word(const struct session *s, uint32_t entry, enum tillerwrap_entry_word which)
{
    return word(s, TILLERWRAP_HISTORY + TILLERWRAP_ENTRY_WORDS * (size_t)entry + which);
}

/* ---- Which block a step would be of, or -1 ---- */

static int newest_block(const struct session *s, uint32_t identifier)
{
    uint32_t entry = word(s, TILLERWRAP_HISTORY_COUNT);
    while (entry-- > 0)
        if (entry_word(s, entry, TILLERWRAP_ENTRY_IDENTIFIER) == identifier)
            return (int)entry_word(s, entry, TILLERWRAP_ENTRY_BLOCK);
    return -1;
}

static int has_children(const struct session *s, uint32_t identifier)
{
    uint32_t row;
    for (row = 1; row < live_count(s); row++)
        if (row_word(s, row, TILLERWRAP_ROW_IDENTIFIER) / 16 == identifier)
            return 1;
    return 0;
}

static int entry_block(const struct session *s, uint32_t label, int at_begin)
{
    int block;
    for (block = 0; block < s->block_count; block++) {
        const struct listed_block *listed = &s->blocks[block];
        if (listed->begins == at_begin && (listed->entry_labels[0] == label || listed->entry_labels[1] == label))
            return block;
    }
    return -1;
}

static int forward_block(const struct session *s, uint32_t row)
{
    uint32_t identifier = row_word(s, row, TILLERWRAP_ROW_IDENTIFIER);
    uint32_t stage = row_word(s, row, TILLERWRAP_ROW_STAGE);
    if (stage == TILLERWRAP_END)
        return -1;
    if (has_children(s, identifier))
        return newest_block(s, identifier);
    return entry_block(s, row_word(s, row, TILLERWRAP_ROW_LABEL), stage == TILLERWRAP_BEGIN);
}

static int undo_block(const struct session *s, uint32_t row)
{
    if (row_word(s, row, TILLERWRAP_ROW_STAGE) == TILLERWRAP_BEGIN)
        return -1;
    return newest_block(s, row_word(s, row, TILLERWRAP_ROW_IDENTIFIER));
}

/* ---- Showing ---- */

static void show_program(const struct session *s)
{
    int block;
    printf("program:\n");
    for (block = 0; block < s->block_count; block++)
        printf("  block %-3d  %s\n", block, s->blocks[block].text);
    printf("\n");
}

static void show_memory(const struct session *s, const char *what, const char *format, size_t at, int count)
{
    int i, shown = 0;
    printf("%s:", what);
    for (i = 0; i < count; i++)
        if (word(s, at + (size_t)i) != 0) {
            printf(format, i, signed_word(s, at + (size_t)i));
            shown++;
        }
    printf(shown > 0 ? "\n" : "  all 0\n");
}

static void show_history(const struct session *s)
{
    uint32_t count = word(s, TILLERWRAP_HISTORY_COUNT);
    uint32_t entry = count > SHOWN_STEPS ? count - SHOWN_STEPS : 0;
    printf("kept steps: %u%s\n", (unsigned)count, entry > 0 ? ", of which the newest" : "");
    for (; entry < count; entry++) {
        uint32_t block = entry_word(s, entry, TILLERWRAP_ENTRY_BLOCK);
        printf("  %4u  process %-4x block %-3u  %s\n", (unsigned)entry, (unsigned)entry_word(s, entry, TILLERWRAP_ENTRY_IDENTIFIER),
               (unsigned)block, s->blocks[block].text);
    }
}

static void show_could(const struct session *s, const char *direction, uint32_t code, int block)
{
    printf("       %s ", direction);
    if (block >= 0)
        printf("block %-3d  %s\n               ", block, s->blocks[block].text);
    if (code == TILLERWRAP_ACCEPTED)
        printf("can\n");
    else
        printf("cannot (%u): %s\n", (unsigned)code, words_of(code));
}

static void show_process(const struct session *s, uint32_t row, struct tillerwrap_row could)
{
    static const char *const stages[] = {"begin of", "at", "end of"};
    printf("%s %c  process %x, %s l%u\n", could.identifier == s->chosen ? " >" : "  ", process_keys[row], (unsigned)could.identifier,
           stages[row_word(s, row, TILLERWRAP_ROW_STAGE)], (unsigned)row_word(s, row, TILLERWRAP_ROW_LABEL));
    show_could(s, "forward", could.forward, forward_block(s, row));
    show_could(s, "undo   ", could.undo, undo_block(s, row));
}

static void show(const struct session *s)
{
    struct tillerwrap_row rows[TILLERWRAP_ROW_COUNT];
    uint32_t row;
    show_memory(s, "variables", "  v%d = %ld", TILLERWRAP_VARIABLES, TILLERWRAP_VARIABLE_COUNT);
    show_memory(s, "cells", "  M[%d] = %ld", TILLERWRAP_CELLS, TILLERWRAP_CELL_COUNT);
    show_history(s);
    printf("processes:\n");
    tillerwrap_list(s->image, s->image_length, s->machine, sizeof s->machine, rows, TILLERWRAP_ROW_COUNT);
    for (row = 0; row < live_count(s); row++)
        show_process(s, row, rows[row]);
    fflush(stdout);
}

/* ---- Keys ---- */

static void make_step(struct session *s, uint32_t direction)
{
    struct tillerwrap_answer answer = tillerwrap_step(s->image, s->image_length, s->chosen, direction, s->machine, sizeof s->machine);
    printf("\n---- %s of process %x (%u): %s\n", direction == TILLERWRAP_FORWARD ? "forward step" : "undo", (unsigned)s->chosen,
           (unsigned)answer.code, words_of(answer.code));
    show(s);
}

static void choose(struct session *s, uint32_t row)
{
    s->chosen = row_word(s, row, TILLERWRAP_ROW_IDENTIFIER);
    printf("\n---- process %x is chosen\n", (unsigned)s->chosen);
    fflush(stdout);
}

static void take_key(struct session *s, int key)
{
    const char *found = key == '\0' ? NULL : strchr(process_keys, key);
    if (key == '>')
        make_step(s, TILLERWRAP_FORWARD);
    else if (key == '<')
        make_step(s, TILLERWRAP_UNDO);
    else if (found != NULL && (uint32_t)(found - process_keys) < live_count(s))
        choose(s, (uint32_t)(found - process_keys));
}

/* ---- Loading ---- */

/* Reads at most a number of bytes; a file that can't be opened counts as empty. */
static size_t read_file(const char *folder, const char *name, uint8_t *bytes, size_t most)
{
    char path[4096];
    size_t length = 0;
    FILE *file;
    if (snprintf(path, sizeof path, "%s/%s", folder, name) >= (int)sizeof path)
        return 0;
    file = fopen(path, "rb");
    if (file != NULL) {
        length = fread(bytes, 1, most, file);
        fclose(file);
    }
    return length;
}

/* Loads and starts a session. One byte more than a file may have is read, so that a longer one is refused. */
static struct tillerwrap_answer load(struct session *s, const char *folder)
{
    uint8_t first[TILLERWRAP_MEMORY_BYTES + 1];
    size_t first_length = read_file(folder, "first.mem", first, sizeof first);
    struct tillerwrap_answer answer;
    s->image_length = read_file(folder, "prog.cril", s->image, sizeof s->image);
    answer = tillerwrap_start(s->image, s->image_length, first, first_length, s->machine, sizeof s->machine);
    if (answer.code == TILLERWRAP_ACCEPTED)
        s->block_count = list_blocks(s->image, s->image_length, s->blocks);
    return answer;
}

int main(int count, char **arguments)
{
    static struct session session;
    struct tillerwrap_answer answer;
    int key;
    if (count != 2) {
        fprintf(stderr, "viewer FOLDER\n");
        return 2;
    }
    answer = load(&session, arguments[1]);
    if (answer.code != TILLERWRAP_ACCEPTED) {
        printf("refused (%u) at %u: %s\n", (unsigned)answer.code, (unsigned)answer.place, words_of(answer.code));
        return 1;
    }
    printf("keys: a process's key chooses it, > makes a forward step of it, < takes its newest step back, q ends\n\n");
    show_program(&session);
    show(&session);
    while ((key = getchar()) != EOF && key != 'q')
        take_key(&session, key);
    return 0;
}
