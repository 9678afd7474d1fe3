/* Writes a block to standard output: made ORDER TYPE SEGMENTS POINTS TRIGGER, the numbers of struct shape. */
#include "blocks.h"

#include <stdlib.h>

int main(int count, char **words)
{
    if (count != 6)
        return 2;
    struct shape s = {atoi(words[1]), (uint32_t)atoi(words[2]), (uint32_t)atoi(words[3]), (uint32_t)atoi(words[4]), atoi(words[5])};
    uint8_t *block = malloc(block_bytes(s));
    if (!block)
        return 3;
    put_block(block, s);
    return fwrite(block, 1, block_bytes(s), stdout) == block_bytes(s) && fflush(stdout) == 0 ? 0 : 3;
}
