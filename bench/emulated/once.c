/* One work of our side so many times, as `bench once ours` does it: once read|probe|map|walk ARGUMENT FILE COUNT.
   ARGUMENT: map: 1 for ascending offsets; walk: the window; else 0. It writes the sum of the answers as
   8 bytes, so that a longer number takes no more instructions. */

#include <stdint.h>
#include <stdio.h>
#include <stdlib.h>

/* A library from before memory was lent has the first, and one from after it the second. */
__attribute__((weak)) uint64_t ours_read(const uint8_t *descriptor, size_t length);
__attribute__((weak)) uint64_t ours_reads(const uint8_t *descriptor, size_t length, uint64_t count);
uint64_t ours_probe(const uint8_t *descriptor, size_t length);
uint64_t ours_map(const uint8_t *descriptor, size_t length, uint64_t ascending, uint64_t count);
uint64_t ours_walk(const uint8_t *descriptor, size_t length, uint64_t window, uint64_t count);

/* The most bytes that a descriptor has. */
static uint8_t descriptor[2097152];

int main(int words, char **word)
{
    if (words != 5)
        return 2;
    FILE *file = fopen(word[3], "rb");
    if (!file)
        return 2;
    size_t length = fread(descriptor, 1, sizeof descriptor, file);
    uint64_t argument = strtoull(word[2], NULL, 10), count = strtoull(word[4], NULL, 10), sum = 0;
    switch (word[1][0]) {
    case 'r':
        if (ours_reads)
            sum = ours_reads(descriptor, length, count);
        else
            for (uint64_t i = 0; i < count; i++)
                sum = sum * 3 + ours_read(descriptor, length);
        break;
    case 'p':
        for (uint64_t i = 0; i < count; i++)
            sum = sum * 3 + ours_probe(descriptor, length);
        break;
    case 'm':
        sum = ours_map(descriptor, length, argument, count);
        break;
    case 'w':
        sum = ours_walk(descriptor, length, argument, count);
        break;
    default:
        return 2;
    }
    return fwrite(&sum, sizeof sum, 1, stdout) != 1;
}
