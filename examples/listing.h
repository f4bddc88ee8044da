/* An accepted image as text, one line a block, in the notation of the CRIL paper. */
#ifndef LISTING_H
#define LISTING_H

#include <stddef.h>
#include <stdint.h>

#include "tillerwrap.h"

/* One block: its text, whether it begins a process block, and the labels of its entry; a single label stands twice. */
struct listed_block {
    char text[192];
    int begins;
    uint8_t entry_labels[2];
};

/* Lists the blocks of an image that judging accepts; answers how many there are. */
int list_blocks(const uint8_t *image, size_t length, struct listed_block blocks[TILLERWRAP_BLOCKS]);

#endif
