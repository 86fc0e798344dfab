/* Names that collide in a map that hashes by the standard hash without a seed: prints so many, a line each. Their table hashes
   agree in the lowest 9 bits, which choose the place, and in the highest 8, which are compared first. */
#include <stdint.h>
#include <stdio.h>
#include <stdlib.h>
#include <string.h>

static const uint64_t MULTIPLIER = 0x9e3779b97f4a7c15, INITIAL = 0x243f6a8885a308d3;

static uint64_t folded_multiply(uint64_t a, uint64_t b)
{
    unsigned __int128 product = (unsigned __int128)a * b;
    return (uint64_t)product ^ (uint64_t)(product >> 64);
}

/* The hash of a text of eight bytes, behind which a string writes 0xFF. */
static uint32_t table_hash(const char *name)
{
    uint64_t word;
    memcpy(&word, name, 8);
    uint64_t state = folded_multiply(INITIAL ^ word, MULTIPLIER ^ 16);
    state = folded_multiply(state ^ (0xFF | 0xFF << 8 | 0xFF << 16), MULTIPLIER ^ 2);
    return (uint32_t)(state ^ state >> 32);
}

int main(int count, char **arguments)
{
    long wanted = count == 2 ? atol(arguments[1]) : 0;
    const uint32_t same = 0xFF0001FF;
    char name[9] = "aaaaaaaa";
    uint32_t first = table_hash(name) & same;
    while (wanted > 0) {
        if ((table_hash(name) & same) == first) {
            puts(name);
            wanted--;
        }
        int i = 7;
        while (i >= 0 && name[i] == 'z')
            name[i--] = 'a';
        if (i < 0)
            return 1;
        name[i]++;
    }
    return 0;
}
