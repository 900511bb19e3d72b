/* Packs the input and unpacks it again, round and round, at each level in turn. */
#include <stdio.h>
#include <string.h>
#include <unistd.h>
#include "zlib.h"

static unsigned char text[1 << 20], packed[(1 << 20) + (1 << 16)], unpacked[1 << 20];

int main(void) {
    size_t length = 0;
    ssize_t count;
    while ((count = read(0, text + length, sizeof text - length)) > 0)
        length += (size_t)count;
    for (int round = 0; round < 1000; round++) {
        uLongf small = sizeof packed, whole = sizeof unpacked;
        if (compress2(packed, &small, text, length, 1 + round % 9) != Z_OK)
            return 1;
        if (uncompress(unpacked, &whole, packed, small) != Z_OK || whole != length || memcmp(text, unpacked, length))
            return 2;
        printf("level %d: %lu of %lu\n", 1 + round % 9, small, whole);
    }
    return 0;
}
