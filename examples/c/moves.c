/* Lists the moves that let settle succeed, makes them and settles. */
#include <nolpigat.h>
#include <stdio.h>

static uint8_t image[NOLPIGAT_IMAGE_SIZE];
static uint8_t list[NOLPIGAT_MOST_MOVES * NOLPIGAT_MOVE_SIZE];

int main(void) {
    /* Of cards 0 to 3, block 1 with record 9 lies on 1 and 2; then 0 and 3 are its sites. Ok is 0. */
    if (nolpigat_start(image, sizeof image, 0xF0) || nolpigat_begin(image, sizeof image, 1, 0) ||
        nolpigat_store(image, sizeof image, 1, 9, 1234) || nolpigat_commit(image, sizeof image, 1) ||
        nolpigat_place(image, sizeof image, 0x90))
        return 1;
    uint32_t answer = nolpigat_move_list(image, sizeof image, list, sizeof list);
    if (nolpigat_kind(answer) != NOLPIGAT_KIND_LISTED)
        return 1;
    for (uint32_t i = 0; i < nolpigat_number(answer); i++) {
        const uint8_t card = list[2 * i], block = list[2 * i + 1];
        printf("card %u, block %u\n", (unsigned)card, (unsigned)block);
        if (nolpigat_kind(nolpigat_move(image, sizeof image, card, block)) != NOLPIGAT_KIND_COPIES)
            return 1;
    }
    return nolpigat_kind(nolpigat_settle(image, sizeof image)) != NOLPIGAT_KIND_RETIRED;
}
