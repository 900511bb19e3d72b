/* Packs the input and unpacks it again, round and round, at each level in turn. */
#include <stdio.h>
#include <stdlib.h>
#include <string.h>
#include <unistd.h>
#include "bzlib.h"

static char text[1 << 20], packed[(1 << 20) + (1 << 16)], unpacked[1 << 20];

void bz_internal_error(int number) {
    printf("bzip2: error %d\n", number);
    abort();
}

int main(void) {
    size_t length = 0;
    ssize_t count;
    while ((count = read(0, text + length, sizeof text - length)) > 0)
        length += (size_t)count;
    for (int round = 0; round < 1000; round++) {
        unsigned small = sizeof packed, whole = sizeof unpacked;
        if (BZ2_bzBuffToBuffCompress(packed, &small, text, length, 1 + round % 9, 0, 0) != BZ_OK)
            return 1;
        if (BZ2_bzBuffToBuffDecompress(unpacked, &whole, packed, small, round % 2, 0) != BZ_OK
            || whole != length || memcmp(text, unpacked, length))
            return 2;
        printf("level %d: %u of %u\n", 1 + round % 9, small, whole);
    }
    return 0;
}
