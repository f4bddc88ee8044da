/*
 * Tillerwrap: a proved runtime for CRIL, a concurrent language whose steps can be taken back.
 *
 * Link with libtillerwrap.a (`make archive` writes target/staticlib/libtillerwrap.a, for x86-64). Every function
 * answers for every input, always ends, keeps no state, allocates nothing and writes nothing but what its promise says. The
 * promises below are proved; the definitions in crates/rules/specs state them in full.
 *
 * A slice is a pointer and a length in bytes. The pointer is never null; with a length of 0 nothing is read through it. Its
 * bytes must stay as they are during the call, but for those that the call itself writes; a slice that is lent to be written
 * overlaps no other. A word is a number of 32 bits, in a slice four bytes, low byte first. No slice needs an alignment.
 *
 * In short:
 *
 *     uint8_t machine[TILLERWRAP_MACHINE_BYTES];
 *     struct tillerwrap_answer answer = tillerwrap_start(image, image_length, first, TILLERWRAP_MEMORY_BYTES,
 *                                                        machine, sizeof machine);
 *     if (answer.code == TILLERWRAP_ACCEPTED)
 *         answer = tillerwrap_step(image, image_length, 0, TILLERWRAP_FORWARD, machine, sizeof machine);
 *     if (answer.code != TILLERWRAP_ACCEPTED)
 *         printf("refused, code %u at %u\n", (unsigned)answer.code, (unsigned)answer.place);
 *
 * examples/viewer.c is a whole program over this header.
 */
#ifndef TILLERWRAP_H
#define TILLERWRAP_H

#include <stddef.h>
#include <stdint.h>

#ifdef __cplusplus
extern "C" {
#endif

/* ---- Sizes ---- */

/* The largest image, in bytes; the smallest has 1. The blocks that one may have, numbered from 0. */
#define TILLERWRAP_IMAGE_BYTES 4096
#define TILLERWRAP_BLOCKS 128

/* Variables are 0 to 31, heap cells 0 to 255, labels 0 to 255. A value is a word, read as a signed number; + and - wrap. */
#define TILLERWRAP_VARIABLE_COUNT 32
#define TILLERWRAP_CELL_COUNT 256
#define TILLERWRAP_LABEL_NUMBERS 256

/* The most processes that can be live at once, and the most steps that can be kept. */
#define TILLERWRAP_ROW_COUNT 64
#define TILLERWRAP_ENTRY_COUNT 4096

/* A first memory: the variables and then the cells. */
#define TILLERWRAP_MEMORY_WORDS 288
#define TILLERWRAP_MEMORY_BYTES 1152

/* A machine. */
#define TILLERWRAP_MACHINE_WORDS 8674
#define TILLERWRAP_MACHINE_BYTES 34696

/* ---- The machine ----
 *
 * Each field has its fixed word; byte 4 * w is the first of word w. The rows of the live processes ascend by identifier, as
 * numbers without a sign. The history has the kept steps in order of making; an undone one is closed up. Rows and entries that are
 * not used are zero. The root process is 0, and child i of process p, counted from 1, is 16p + i.
 */
enum tillerwrap_word {
    TILLERWRAP_LIVE_COUNT = 0,    /* how many rows are used: the live processes */
    TILLERWRAP_HISTORY_COUNT = 1, /* how many entries are used: the kept steps */
    TILLERWRAP_VARIABLES = 2,     /* 32 variables */
    TILLERWRAP_CELLS = 34,        /* 256 heap cells */
    TILLERWRAP_ROWS = 290,        /* 64 rows of three words: identifier, label, stage */
    TILLERWRAP_HISTORY = 482      /* 4,096 entries of two words: identifier, block */
};

/* The words of a row and of an entry, by name and number. */
#define TILLERWRAP_ROW_WORDS 3
#define TILLERWRAP_ENTRY_WORDS 2
enum tillerwrap_row_word { TILLERWRAP_ROW_IDENTIFIER = 0, TILLERWRAP_ROW_LABEL = 1, TILLERWRAP_ROW_STAGE = 2 };
enum tillerwrap_entry_word { TILLERWRAP_ENTRY_IDENTIFIER = 0, TILLERWRAP_ENTRY_BLOCK = 1 };

/* Where a process stands: before its first block, between two (or at a call), after its last. */
enum tillerwrap_stage { TILLERWRAP_BEGIN = 0, TILLERWRAP_RUN = 1, TILLERWRAP_END = 2 };

enum tillerwrap_direction { TILLERWRAP_FORWARD = 0, TILLERWRAP_UNDO = 1 };

/* ---- The codes ----
 *
 * One line each: name, number, words to show. Codes 1 to 15 come from judging an image, 16 to 28 from the other calls. Place is
 * a byte offset for codes 2 to 8, a block number for 9 to 12 and 14, and 0 for all others. docs/CODES.md has the same lines.
 *
 * To have the words in a program, for example:
 *
 *     static const char *words(uint32_t code)
 *     {
 *     #define TEXT(name, number, text) case number: return text;
 *         switch (code) { TILLERWRAP_CODES(TEXT) }
 *     #undef TEXT
 *         return "no code of this library";
 *     }
 */
#define TILLERWRAP_CODES(X)                                                                                        \
    X(TILLERWRAP_ACCEPTED, 0, "accepted")                                                                          \
    X(TILLERWRAP_IMAGE_LENGTH, 1, "the image is empty or longer than 4,096 bytes")                                 \
    X(TILLERWRAP_KIND, 2, "a record of this kind may not stand here")                                              \
    X(TILLERWRAP_CUT, 3, "the image ends inside a record, or before one that must follow")                         \
    X(TILLERWRAP_VARIABLE, 4, "a variable number is over 31")                                                      \
    X(TILLERWRAP_TOO_MANY_BLOCKS, 5, "bytes follow the 128th block")                                               \
    X(TILLERWRAP_EQUAL_LABELS, 6, "the two labels of a condition are the same")                                    \
    X(TILLERWRAP_OWN_NAME, 7, "an update or exchange names what it changes")                                       \
    X(TILLERWRAP_CALL_POINT, 8, "the entry or exit of a call is not a plain label")                                \
    X(TILLERWRAP_SEMAPHORE_NAMED, 9, "a semaphore's variable is named outside V and P")                            \
    X(TILLERWRAP_LABEL_COUNT, 10, "a label stands not in just one entry and one exit, or one begin and one end")   \
    X(TILLERWRAP_PROCESS_BLOCK, 11, "a process block has not one begin and one end of the same label")             \
    X(TILLERWRAP_UNKNOWN_LABEL, 12, "a call names a label that no begin has")                                      \
    X(TILLERWRAP_NO_MAIN, 13, "there is no begin 0, so no main")                                                   \
    X(TILLERWRAP_CIRCLE, 14, "a call leads back to its own process block")                                         \
    X(TILLERWRAP_TOO_DEEP, 15, "main's calls go deeper than 8, or could have over 64 processes live")              \
    X(TILLERWRAP_SLICE_LENGTH, 16, "a lent slice has the wrong length")                                            \
    X(TILLERWRAP_MACHINE, 17, "the machine does not fit the image")                                                \
    X(TILLERWRAP_NOT_LIVE, 18, "there is no such live process")                                                    \
    X(TILLERWRAP_BAD_DIRECTION, 19, "the direction is neither forward nor undo")                                   \
    X(TILLERWRAP_CHILDREN, 20, "its children are not all at their end (forward) or begin (undo)")                  \
    X(TILLERWRAP_STAGE, 21, "it is at its end (forward) or at its begin (undo)")                                   \
    X(TILLERWRAP_OTHER_LABEL, 22, "a condition leads to another label")                                            \
    X(TILLERWRAP_ASSERTION, 23, "the assertion is false")                                                          \
    X(TILLERWRAP_SEMAPHORE, 24, "the semaphore is not ready")                                                      \
    X(TILLERWRAP_ADDRESS, 25, "a heap address is outside 0 to 255")                                                \
    X(TILLERWRAP_HISTORY_FULL, 26, "4,096 steps are kept, and there is no room for another")                       \
    X(TILLERWRAP_HELD, 27, "a later kept step holds it: one that used what it wrote, or changed what it read")     \
    X(TILLERWRAP_NO_ROOM, 28, "there is no room for the rows of its children")

#define TILLERWRAP_CODE_CONSTANT(name, number, text) name = number,
enum tillerwrap_code { TILLERWRAP_CODES(TILLERWRAP_CODE_CONSTANT) TILLERWRAP_CODE_COUNT };
#undef TILLERWRAP_CODE_CONSTANT

/* ---- Judging ---- */

/* What judging answers. A refused image has 0 for both counts, an accepted one 0 for code and place. */
struct tillerwrap_judged {
    uint32_t code;
    uint32_t place;
    uint32_t blocks; /* how many blocks the image has */
    uint32_t peak;   /* the most processes that can be live at once */
};

/*
 * Judges an image: any bytes, of any length.
 *
 * The answer is exactly that of the scope document: the first fault of codes 1 to 8 in byte order with the offset of its
 * record; else the first of the codes 9 to 15 that some block gives, one code at a time, with the lowest such block; else
 * code 0 with the number of blocks and main's peak. Nothing is written.
 */
struct tillerwrap_judged tillerwrap_judge(const uint8_t *image, size_t length);

/* ---- Starting and stepping ---- */

/* What starting, stepping and listing answer. */
struct tillerwrap_answer {
    uint32_t code;
    uint32_t place;
};

/*
 * Starts a machine for an image: the root process at main's begin, the variables and cells of the first memory, no history.
 *
 * The codes are tried in this order: those of judging the image, with their places; then 16 where first_length is not
 * TILLERWRAP_MEMORY_BYTES or machine_length is not TILLERWRAP_MACHINE_BYTES. On code 0 every byte of the machine is written,
 * whatever it was; on any other none is.
 */
struct tillerwrap_answer tillerwrap_start(const uint8_t *image, size_t image_length, const uint8_t *first, size_t first_length,
                                          uint8_t *machine, size_t machine_length);

/*
 * Makes one forward step, or takes one back, of a process of a machine: any bytes, any process, any direction.
 *
 * The codes are tried in this order: those of judging the image, with their places; 16; 17; 19; 18; 21; 20; then 26 (forward) or
 * 27 (undo); 28; then 25, 22, 23 and 24, the first that is met as the step is made. On code 0 the machine's bytes are those of
 * the machine after the step, with one kept step more (forward) or that step closed up (undo); on any other code every byte is
 * as handed in.
 *
 * A forward step of a process that is not at a call: the entry's condition must give the process's label, the instruction acts,
 * and the exit's condition on the new memory gives the next label. An undo goes the same way back, from the exit, and must be
 * the process's newest step, one that no later kept step depends on and whose reads still come from the last writer. A
 * call forks its children with one step, and with another merges them once all are at end; an undo does the reverse.
 *
 * A machine that was started for this image and changed by tillerwrap_step only never answers 17; its newest kept step can
 * always be undone; and once none is kept its bytes are those that tillerwrap_start wrote. No machine at all answers 28.
 */
struct tillerwrap_answer tillerwrap_step(const uint8_t *image, size_t image_length, uint32_t process, uint32_t direction,
                                         uint8_t *machine, size_t machine_length);

/* ---- Listing ---- */

/* What a live process could do: the codes that a forward step and an undo of it would answer. */
struct tillerwrap_row {
    uint32_t identifier;
    uint32_t forward;
    uint32_t undo;
};

/*
 * Lists what each live process of a machine could do, into 64 lent rows: row_count counts rows, not bytes.
 *
 * The codes are tried in this order: those of judging the image, with their places; 16 where machine_length is not
 * TILLERWRAP_MACHINE_BYTES or row_count is not TILLERWRAP_ROW_COUNT; 17. On code 0 every row is written: one for each live
 * process, in the order of the machine's rows, with the codes that tillerwrap_step would answer, and zeros in the rest. On any
 * other code no row is. The machine is only read.
 */
struct tillerwrap_answer tillerwrap_list(const uint8_t *image, size_t image_length, const uint8_t *machine, size_t machine_length,
                                         struct tillerwrap_row *rows, size_t row_count);

#ifdef __cplusplus
}
#endif

#endif
