/* Names that collide in a hashed set of the kit's default hasher (its FoldHasher, whose seed is fixed), for bench/attacks:
   names LENGTH COUNT BITS prints COUNT names of LENGTH letters, one a line, of which the first is i (a variable's), and
   whose hashes all end in BITS bits of 0, so that a set with 2^BITS groups of places keeps all of them in one. It looks
   at 2^BITS names for each that it finds. */
#include <stdint.h>
#include <stdio.h>
#include <stdlib.h>

static const uint64_t SPREAD = 0x9e3779b97f4a7c15u, SEED = 0x243f6a8885a308d3u;

static uint64_t folded(uint64_t one, uint64_t other) {
    unsigned __int128 product = (unsigned __int128)one * other;
    return (uint64_t)product ^ (uint64_t)(product >> 64);
}

static uint64_t behind(uint64_t state, char letter) {
    uint64_t byte = (uint64_t)letter;
    return folded(state ^ (byte | byte << 8 | byte << 16), SPREAD ^ 2);
}

/* Names in the order of their letters, with the hasher's state behind those that stand already. */
static void search(char *name, int at, int length, uint64_t state, uint64_t mask, long *left) {
    if (at == length) {
        if (((uint32_t)(state ^ state >> 32) & mask) == 0 && (*left)-- > 0) puts(name);
        return;
    }
    for (char letter = 'a'; letter <= 'z' && *left > 0; letter++) {
        name[at] = letter;
        search(name, at + 1, length, behind(state, letter), mask, left);
    }
}

int main(int count, char **words) {
    char name[32] = "i";
    if (count != 4 || atoi(words[1]) > 31) return 2;
    int length = atoi(words[1]);
    long left = atol(words[2]);
    uint64_t state = behind(folded(SEED ^ (uint64_t)length, SPREAD ^ 16), 'i');
    search(name, 1, length, state, (1u << atoi(words[3])) - 1, &left);
    return left > 0;
}
