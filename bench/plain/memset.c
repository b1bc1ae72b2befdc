/* memset as a small core's C library has it, four words of 32 bits a turn. The library clears its scratch with it:
 * so this counts alike on every machine, while valgrind counts the string instruction that others use once for each byte.
 */
#include <stddef.h>
#include <stdint.h>
#include <string.h>

/* The compiler would see a memset in these loops and have it call itself. */
__attribute__((optimize("no-tree-loop-distribute-patterns", "no-tree-vectorize")))
void *memset(void *to, int byte, size_t length)
{
    unsigned char *next = to;
    uint32_t word = 0x01010101u * (unsigned char)byte;
    for (; length >= 4 * sizeof word; length -= 4 * sizeof word) {
        for (int i = 0; i < 4; i++)
            memcpy(next + i * sizeof word, &word, sizeof word);
        next += 4 * sizeof word;
    }
    for (; length > 0; length--)
        *next++ = (unsigned char)byte;
    return to;
}
