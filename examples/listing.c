/* An accepted image as text. A cursor goes over the image's records and puts their text at the end of a line. */
#include "listing.h"

#include <stdarg.h>
#include <stdio.h>

/* The kinds of record, by the scope document's numbers. */
enum kind {
    CONSTANT = 0x01, VARIABLE = 0x02, CELL = 0x03,
    PLAIN = 0x10, NOT = 0x11, FIRST_OPERATOR = 0x12,
    ENTRY = 0x20, CONDITIONAL_ENTRY = 0x21, BEGIN = 0x22,
    EXIT = 0x30, CONDITIONAL_EXIT = 0x31, END = 0x32,
    ADD = 0x40, SUBTRACT = 0x41, EXCLUSIVE_OR = 0x42, EXCHANGE = 0x43, OP_V = 0x44, OP_P = 0x45, ASSERT = 0x46, SKIP = 0x47,
    CALL = 0x50
};

struct cursor {
    const uint8_t *at;
    char *text;
    size_t room;
};

static void put(struct cursor *c, const char *format, ...)
{
    va_list arguments;
    int wrote;
    va_start(arguments, format);
    wrote = vsnprintf(c->text, c->room, format, arguments);
    va_end(arguments);
    if (wrote > 0 && (size_t)wrote < c->room) {
        c->text += wrote;
        c->room -= (size_t)wrote;
    }
}

static uint8_t next(struct cursor *c)
{
    return *c->at++;
}

static void put_constant(struct cursor *c)
{
    uint32_t value = next(c);
    value |= (uint32_t)next(c) << 8;
    value |= (uint32_t)next(c) << 16;
    value |= (uint32_t)next(c) << 24;
    put(c, "%ld", value > INT32_MAX ? (long)((int64_t)value - 4294967296) : (long)value);
}

static void put_operand(struct cursor *c)
{
    switch (next(c)) {
    case CONSTANT: put_constant(c); break;
    case VARIABLE: put(c, "v%d", next(c)); break;
    default: put(c, "M[v%d]", next(c)); break;
    }
}

static void put_expression(struct cursor *c)
{
    static const char *const operators[] = {"+", "-", "^", "==", "!=", "<", "<=", ">", ">=", "&&", "||"};
    uint8_t kind = next(c);
    if (kind == NOT)
        put(c, "!");
    put_operand(c);
    if (kind >= FIRST_OPERATOR) {
        put(c, " %s ", operators[kind - FIRST_OPERATOR]);
        put_operand(c);
    }
}

static void put_entry(struct cursor *c, struct listed_block *block)
{
    uint8_t kind = next(c);
    block->begins = kind == BEGIN;
    block->entry_labels[0] = block->entry_labels[1] = next(c);
    if (kind == BEGIN) {
        put(c, "begin l%d", block->entry_labels[0]);
    } else if (kind == ENTRY) {
        put(c, "l%d <-", block->entry_labels[0]);
    } else {
        block->entry_labels[1] = next(c);
        put(c, "l%d;l%d <- ", block->entry_labels[0], block->entry_labels[1]);
        put_expression(c);
    }
}

static void put_exit(struct cursor *c)
{
    uint8_t kind = next(c), one = next(c), other;
    if (kind == END) {
        put(c, "end l%d", one);
    } else if (kind == EXIT) {
        put(c, "-> l%d", one);
    } else {
        other = next(c);
        put_expression(c);
        put(c, " -> l%d;l%d", one, other);
    }
}

static void put_update(struct cursor *c, const char *operator_text)
{
    put_operand(c);
    put(c, " %s ", operator_text);
    put_expression(c);
}

static void put_exchange(struct cursor *c)
{
    put_operand(c);
    put(c, " <-> ");
    put_operand(c);
}

static void put_call(struct cursor *c, int count)
{
    int i;
    put(c, "call l%d", next(c));
    for (i = 1; i < count; i++)
        put(c, ", l%d", next(c));
}

static void put_instruction(struct cursor *c)
{
    uint8_t kind = next(c);
    switch (kind) {
    case ADD: put_update(c, "+="); break;
    case SUBTRACT: put_update(c, "-="); break;
    case EXCLUSIVE_OR: put_update(c, "^="); break;
    case EXCHANGE: put_exchange(c); break;
    case OP_V: put(c, "V v%d", next(c)); break;
    case OP_P: put(c, "P v%d", next(c)); break;
    case ASSERT: put(c, "assert "); put_expression(c); break;
    case SKIP: put(c, "skip"); break;
    default: put_call(c, kind - CALL); break;
    }
}

int list_blocks(const uint8_t *image, size_t length, struct listed_block blocks[TILLERWRAP_BLOCKS])
{
    struct cursor c;
    int count = 0;
    c.at = image;
    while (c.at < image + length && count < TILLERWRAP_BLOCKS) {
        struct listed_block *block = &blocks[count++];
        c.text = block->text;
        c.room = sizeof block->text;
        put_entry(&c, block);
        put(&c, " | ");
        put_instruction(&c);
        put(&c, " | ");
        put_exit(&c);
    }
    return count;
}
