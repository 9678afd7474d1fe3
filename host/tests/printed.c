/* The lines that the header prints, on the block at standard input, and on its segments cut out one by one: printed.h
   has them. */
#include "tessarquin.h"

#include <stdio.h>
#include <stdlib.h>

static uint8_t block[TESSARQUIN_BLOCK_MOST], parts[2 * TESSARQUIN_BLOCK_MOST];

/* Each segment as a block, the last one first, one behind the other. Answers how many bytes that are. */
static size_t put_parts(size_t block_len)
{
    uint8_t open[TESSARQUIN_OPEN_BYTES], cut[TESSARQUIN_CUT_BYTES];
    size_t length = 0;
    if (tessarquin_open(block, block_len, open, sizeof open) != TESSARQUIN_OK)
        return 0;
    for (uint32_t n = (uint32_t)tessarquin_number(open, TESSARQUIN_OPEN_SEGMENTS); n > 0; n--)
        if (tessarquin_cut(block, block_len, 1, 0, 0, n, TESSARQUIN_HIFIRST, parts + length, sizeof parts - length, cut, sizeof cut) == TESSARQUIN_OK)
            length += (size_t)tessarquin_number(cut, TESSARQUIN_CUT_LENGTH);
    return length;
}

int main(void)
{
    size_t block_len = fread(block, 1, sizeof block, stdin), parts_len = put_parts(block_len);
#include "printed.h"
    return 0;
}
