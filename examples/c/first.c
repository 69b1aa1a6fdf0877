/* Stores one record and reads it back. */
#include <nolpigat.h>
#include <stdio.h>

static uint8_t image[NOLPIGAT_IMAGE_SIZE];

int main(void) {
    /* Cards 0, 1 and 2 work; transaction 1 with home 0 stores 1234 as record 9. Ok is 0. */
    if (nolpigat_start(image, sizeof image, 0xE0) || nolpigat_begin(image, sizeof image, 1, 0) ||
        nolpigat_store(image, sizeof image, 1, 9, 1234) || nolpigat_commit(image, sizeof image, 1) ||
        nolpigat_begin(image, sizeof image, 2, 0))
        return 1;
    uint32_t answer = nolpigat_get(image, sizeof image, 2, 9);
    if (nolpigat_kind(answer) != NOLPIGAT_KIND_VALUE)
        return 1;
    printf("record 9: %u\n", (unsigned)nolpigat_number(answer));
    return 0;
}
