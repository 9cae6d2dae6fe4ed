/* Reads an image whole and touches each byte of each tuple once: the plain loop beside which images.py times the program. */
#include <stdint.h>
#include <stdio.h>
#include <stdlib.h>

enum { PAGE = 8192, COUNT_AT = 12, ITEMS_AT = 24, ITEM = 4 };

static unsigned two_at(const unsigned char *bytes) { return bytes[0] | bytes[1] << 8; }

int main(int count, char **words) {
    FILE *file = count == 2 ? fopen(words[1], "rb") : NULL;
    if (!file || fseek(file, 0, SEEK_END)) return 1;
    size_t length = (size_t)ftell(file);
    unsigned char *image = malloc(length);
    rewind(file);
    if (!image || fread(image, 1, length, file) != length) return 1;
    uint64_t tuples = 0, sum = 0;
    for (size_t at = PAGE; at < length; at += PAGE) {
        const unsigned char *page = image + at;
        unsigned items = two_at(page + COUNT_AT);
        for (unsigned item = 0; item < items; item++) {
            const unsigned char *pointer = page + ITEMS_AT + ITEM * item;
            const unsigned char *tuple = page + two_at(pointer), *end = tuple + two_at(pointer + 2);
            for (; tuple < end; tuple++) sum += *tuple;
            tuples++;
        }
    }
    printf("%zu pages %llu tuples, sum %llu\n", length / PAGE, (unsigned long long)tuples, (unsigned long long)sum);
    return 0;
}
