/* Packing and unpacking of 400 windows, to be counted by callgrind: what, how many. The floats are zeros,
 * since the count does not depend on them. A file of its own, since an older library has no such calls. */
#include <stdio.h>
#include <stdlib.h>
#include <string.h>

#include "hornbillrug.h"

int main(int argc, char **argv) {
    if (argc != 3) {
        return 2;
    }
    const int count = atoi(argv[2]);
    const uint32_t header[2] = {OUTAGE_MOST_WINDOWS, OUTAGE_LONGEST_TABLE};
    uint8_t from[OUTAGE_LONGEST_TABLE] = {0};
    uint8_t to[OUTAGE_LONGEST_TABLE];
    memcpy(from, header, 8);
    size_t sum = 0;
    for (int i = 0; i < count; i++) {
        if (strcmp(argv[1], "pack") == 0) {
            sum += outage_pack(from, sizeof from, to, sizeof to).value;
        } else {
            sum += outage_unpack(from, sizeof from, to, sizeof to).value;
        }
    }
    printf("%zu\n", sum);
}
