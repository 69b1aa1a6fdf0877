/* Lists the moves of a store with eight cards and all blocks, to which a placement of four is added,
 * makes exactly these and settles. Also lists that are too short, none and refusals, which leave the
 * list as lent. Exit 1 with the first check that fails. */
#include <nolpigat.h>
#include <stdio.h>
#include <string.h>

#define SIZE NOLPIGAT_IMAGE_SIZE
#define BLOCKS 64
#define LENT 0xEE
#define CHECK(condition)                                                       \
    do {                                                                       \
        if (!(condition)) {                                                    \
            fprintf(stderr, "line %d: %s\n", __LINE__, #condition);            \
            return 1;                                                          \
        }                                                                      \
    } while (0)

static uint8_t image[SIZE], before[SIZE];
static uint8_t list[NOLPIGAT_MOST_MOVES * NOLPIGAT_MOVE_SIZE];

static uint32_t coded(uint32_t kind, uint32_t number) {
    return kind << 16 | number;
}

/* The answer to a list of this length, with other bytes than a move's in all of it. */
static uint32_t listed(size_t image_length, size_t length) {
    uint32_t answer;
    memset(list, LENT, sizeof list);
    memcpy(before, image, SIZE);
    answer = nolpigat_move_list(image, image_length, list, length);
    return memcmp(before, image, SIZE) == 0 ? answer : UINT32_MAX;
}

/* The bytes from this one on are as lent. */
static int lent_from(size_t first) {
    while (first < sizeof list && list[first] == LENT)
        first++;
    return first == sizeof list;
}

/* Every block on two of eight cards; then cards 2 to 5 are the newest placement. */
static int fill(void) {
    uint16_t block;
    CHECK(nolpigat_start(image, SIZE, 0xFF) == 0 && nolpigat_begin(image, SIZE, 1, 2) == 0);
    for (block = 0; block < BLOCKS; block++)
        CHECK(nolpigat_store(image, SIZE, 1, (uint16_t)(8 * block), block) == 0);
    CHECK(nolpigat_commit(image, SIZE, 1) == 0);
    CHECK(listed(SIZE, 0) == coded(NOLPIGAT_KIND_LISTED, 0) && lent_from(0));
    return nolpigat_place(image, SIZE, 0x3C) != 0;
}

/* The moves rise by block and then by card, and after the last of them, not before, settle succeeds. */
static int moves(uint32_t number) {
    uint32_t i;
    CHECK(number > 0 && lent_from(2 * number));
    for (i = 0; i < number; i++) {
        const uint8_t card = list[2 * i], block = list[2 * i + 1];
        CHECK(i == 0 || list[2 * i - 1] < block || (list[2 * i - 1] == block && list[2 * i - 2] < card));
        CHECK(nolpigat_settle(image, SIZE) == coded(NOLPIGAT_KIND_REFUSED, NOLPIGAT_REFUSAL_UNSETTLED));
        CHECK(nolpigat_kind(nolpigat_move(image, SIZE, card, block)) == NOLPIGAT_KIND_COPIES);
    }
    CHECK(nolpigat_settle(image, SIZE) == coded(NOLPIGAT_KIND_RETIRED, 1));
    return 0;
}

/* Lists that stay as lent. */
static int untouched(size_t exact) {
    const uint32_t refused = coded(NOLPIGAT_KIND_REFUSED, 0);
    CHECK(listed(SIZE, 0) == refused + NOLPIGAT_REFUSAL_LIST && lent_from(0));
    CHECK(listed(SIZE, exact - 1) == refused + NOLPIGAT_REFUSAL_LIST && lent_from(0));
    CHECK(listed(SIZE - 1, exact) == refused + NOLPIGAT_REFUSAL_LENGTH && lent_from(0));
    /* Record 0 is in block 0, which lies on cards 0 and 4 and must leave card 0. */
    CHECK(nolpigat_begin(image, SIZE, 2, 2) == 0 && nolpigat_store(image, SIZE, 2, 0, 7) == 0);
    CHECK(listed(SIZE, 0) == coded(NOLPIGAT_KIND_NONE, 0) && lent_from(0));
    CHECK(listed(SIZE, sizeof list) == coded(NOLPIGAT_KIND_NONE, 0) && lent_from(0));
    CHECK(nolpigat_rollback(image, SIZE, 2) == 0);
    return 0;
}

int main(void) {
    uint32_t answer, number;
    CHECK(listed(SIZE, sizeof list) == coded(NOLPIGAT_KIND_REFUSED, NOLPIGAT_REFUSAL_CONTROL_FORM));
    CHECK(fill() == 0);
    answer = listed(SIZE, sizeof list);
    number = nolpigat_number(answer);
    CHECK(nolpigat_kind(answer) == NOLPIGAT_KIND_LISTED && number > 0);
    CHECK(untouched(2 * number) == 0);
    /* The last byte of an odd length stays as lent. */
    CHECK(listed(SIZE, 2 * number + 1) == answer && lent_from(2 * number));
    CHECK(listed(SIZE, 2 * number) == answer);
    return moves(number);
}
