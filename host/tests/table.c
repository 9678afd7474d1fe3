/* Prints the header's list of refusals as the rows of README's table. */
#include "tessarquin.h"

#include <stdio.h>

int main(void)
{
#define AS_ROW(name, number, when, what) puts("| " #number " | " #name " | " when " | " what " |");
    TESSARQUIN_REFUSALS(AS_ROW)
    return 0;
}
