/* Prints numbers of 32 bits that a table of the library puts into one and the same group.

   The hash has a fixed seed: a number stands in both halves of a word that is joined with the seed and multiplied by a constant,
   and the halves of the product are joined twice. A table has a power of two of groups, and the last bits of the hash tell which.

   meeting COUNT GROUPS: so many numbers, a line each, or as many as there are. */
#include <inttypes.h>
#include <stdio.h>
#include <stdlib.h>

static uint32_t hash(uint32_t number)
{
    uint64_t both = number | (uint64_t)number << 32;
    unsigned __int128 product = (unsigned __int128)(0x243f6a8885a308d3u ^ both) * (0x9e3779b97f4a7c15u ^ 8);
    uint64_t joined = (uint64_t)product ^ (uint64_t)(product >> 64);
    return (uint32_t)(joined ^ joined >> 32);
}

int main(int words, char **word)
{
    if (words != 3)
        return 2;
    uint64_t left = strtoull(word[1], NULL, 10), last = strtoull(word[2], NULL, 10) - 1;
    for (uint64_t number = 1; left && number <= UINT32_MAX; number++)
        if ((hash((uint32_t)number) & last) == last) {
            printf("%" PRIu64 "\n", number);
            left--;
        }
    return 0;
}
