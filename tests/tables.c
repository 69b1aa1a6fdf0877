/* Places a store with eight cards and all blocks by a table, moves its blocks there and settles, and goes
 * back to rails; a failure after a table; then each refusal of a table, which leaves the image as found.
 * Exit 1 with the first check that fails. */
#include <nolpigat.h>
#include <stdio.h>
#include <string.h>

#define SIZE NOLPIGAT_IMAGE_SIZE
#define KEPT (NOLPIGAT_IMAGE_SIZE - 192)
#define BLOCKS 64
#define CHECK(condition)                                                       \
    do {                                                                       \
        if (!(condition)) {                                                    \
            fprintf(stderr, "line %d: %s\n", __LINE__, #condition);            \
            return 1;                                                          \
        }                                                                      \
    } while (0)

static uint8_t image[SIZE], before[SIZE];
static uint8_t list[NOLPIGAT_MOST_MOVES * NOLPIGAT_MOVE_SIZE];

/* Blocks 0 to 9 on cards 6 and 1, the others on 0 and 5. */
static const uint8_t table[] = {10, 63, 0, 5, 0, 9, 6, 1};

static uint32_t refused(uint32_t number) {
    return (uint32_t)NOLPIGAT_KIND_REFUSED << 16 | number;
}

/* The answer; UINT32_MAX if a refusal changed the image. */
static uint32_t place(const uint8_t *lines, size_t length) {
    uint32_t answer;
    memcpy(before, image, SIZE);
    answer = nolpigat_place_by_table(image, SIZE, lines, length);
    return answer == 0 || memcmp(before, image, SIZE) == 0 ? answer : UINT32_MAX;
}

/* Makes the moves of the list and settles; the answer to the settle. */
static uint32_t settled(void) {
    const uint32_t answer = nolpigat_move_list(image, SIZE, list, sizeof list);
    uint32_t i;
    if (nolpigat_kind(answer) != NOLPIGAT_KIND_LISTED)
        return answer;
    for (i = 0; i < nolpigat_number(answer); i++)
        if (nolpigat_is_refused(nolpigat_move(image, SIZE, list[2 * i], list[2 * i + 1])))
            return UINT32_MAX;
    return nolpigat_settle(image, SIZE);
}

static int fill(void) {
    uint16_t block;
    CHECK(nolpigat_start(image, SIZE, 0xFF) == 0 && nolpigat_begin(image, SIZE, 1, 2) == 0);
    for (block = 0; block < BLOCKS; block++)
        CHECK(nolpigat_store(image, SIZE, 1, (uint16_t)(8 * block), block) == 0);
    CHECK(nolpigat_commit(image, SIZE, 1) == 0);
    return 0;
}

/* Every block's record is read from this card of its pair. */
static int all_read(uint8_t of_low, uint8_t of_high, uint8_t home) {
    uint16_t block;
    CHECK(nolpigat_begin(image, SIZE, 1, home) == 0);
    for (block = 0; block < BLOCKS; block++) {
        const uint32_t source = nolpigat_source(image, SIZE, 1, (uint16_t)(8 * block));
        CHECK(nolpigat_get(image, SIZE, 1, (uint16_t)(8 * block)) == ((uint32_t)NOLPIGAT_KIND_VALUE << 16 | block));
        CHECK(source == ((uint32_t)NOLPIGAT_KIND_NUMBER << 16 | (block < 10 ? of_low : of_high)));
    }
    CHECK(nolpigat_commit(image, SIZE, 1) == 0);
    return 0;
}

/* The bytes behind the tables from this one on are zero. */
static int zero_from(size_t first) {
    for (; first < SIZE - KEPT; first++)
        if (image[KEPT + first] != 0)
            return 0;
    return 1;
}

static int there_and_back(void) {
    CHECK(place(table, sizeof table) == 0);
    CHECK(image[1] == 0xFF && image[2] == 0xC6 && image[7] == 0x84);
    /* Nothing for the oldest; of the second, blocks 0 to 3 have 6 and 1: 110 001. */
    CHECK(image[KEPT] == 0 && image[KEPT + 47] == 0 && zero_from(96));
    CHECK(image[KEPT + 48] == 0xC7 && image[KEPT + 49] == 0x1C && image[KEPT + 50] == 0x71);
    CHECK(nolpigat_settle(image, SIZE) == refused(NOLPIGAT_REFUSAL_UNSETTLED));
    CHECK(settled() == ((uint32_t)NOLPIGAT_KIND_RETIRED << 16 | 1));
    CHECK(image[1] == 0xC6 && image[7] == 0x08 && image[KEPT] == 0xC7 && zero_from(48));
    CHECK(all_read(6, 0, 5) == 0);
    /* The same cards on two rails. */
    CHECK(nolpigat_place(image, SIZE, 0xC6) == 0 && image[7] == 0x48);
    CHECK(nolpigat_place(image, SIZE, 0xC6) == refused(NOLPIGAT_REFUSAL_PLACEMENT));
    CHECK(settled() == ((uint32_t)NOLPIGAT_KIND_RETIRED << 16 | 1));
    CHECK(image[7] == 0x80 && zero_from(0));
    return 0;
}

/* A failure after a table places by rails, and what is kept for the table stays with it. */
static int failure(void) {
    CHECK(nolpigat_start(image, SIZE, 0xFF) == 0 && zero_from(0));
    CHECK(place(table, sizeof table) == 0);
    CHECK(nolpigat_fail(image, SIZE, 6) == ((uint32_t)NOLPIGAT_KIND_PLACED << 16 | 0xC4));
    CHECK(image[7] == 0xA4 && image[KEPT + 48] == 0xC7 && zero_from(96));
    return 0;
}

/* One line a block, this many, on cards 0 and 1. */
static const uint8_t *one_by_one(size_t number) {
    static uint8_t lines[(NOLPIGAT_MOST_LINES + 1) * NOLPIGAT_LINE_SIZE];
    size_t i;
    for (i = 0; i < number; i++) {
        uint8_t *line = lines + i * NOLPIGAT_LINE_SIZE;
        line[0] = line[1] = (uint8_t)i;
        line[2] = 0;
        line[3] = 1;
    }
    return lines;
}

/* Cards 0 to 6 work. */
static int refusals(void) {
    static const uint8_t block[] = {0, 64, 0, 1}, card[] = {0, 63, 8, 1}, order[] = {1, 0, 0, 1};
    static const uint8_t equal[] = {0, 63, 1, 1}, idle[] = {0, 63, 0, 7}, gap[] = {1, 63, 0, 1, 5, 9, 0, 1};
    static const uint8_t overlap[] = {0, 63, 0, 1, 63, 63, 1, 0};
    CHECK(nolpigat_start(image, SIZE, 0xFE) == 0);
    CHECK(nolpigat_place_by_table(image, SIZE - 1, table, sizeof table) == refused(NOLPIGAT_REFUSAL_LENGTH));
    CHECK(place(table, 7) == refused(NOLPIGAT_REFUSAL_RANGE));
    CHECK(place(one_by_one(65), 65 * 4) == refused(NOLPIGAT_REFUSAL_RANGE));
    CHECK(place(block, 4) == refused(NOLPIGAT_REFUSAL_RANGE) && place(card, 4) == refused(NOLPIGAT_REFUSAL_RANGE));
    CHECK(place(order, 4) == refused(NOLPIGAT_REFUSAL_RANGE));
    CHECK(place(equal, 4) == refused(NOLPIGAT_REFUSAL_PLACEMENT));
    CHECK(place(idle, 4) == refused(NOLPIGAT_REFUSAL_PLACEMENT));
    CHECK(place(table, 0) == refused(NOLPIGAT_REFUSAL_GAP) && place(gap, 8) == refused(NOLPIGAT_REFUSAL_GAP));
    CHECK(place(overlap, 8) == refused(NOLPIGAT_REFUSAL_OVERLAP));
    CHECK(place(one_by_one(64), 64 * 4) == 0 && place(table, sizeof table) == 0);
    CHECK(place(table, 0) == refused(NOLPIGAT_REFUSAL_GAP));
    CHECK(place(overlap, 8) == refused(NOLPIGAT_REFUSAL_OVERLAP));
    CHECK(place(table, sizeof table) == refused(NOLPIGAT_REFUSAL_ACTIVE));
    CHECK(nolpigat_kind(nolpigat_fail(image, SIZE, 0)) == NOLPIGAT_KIND_STOPPED);
    CHECK(place(table, 0) == refused(NOLPIGAT_REFUSAL_STOPPED) && place(order, 4) == refused(NOLPIGAT_REFUSAL_RANGE));
    return 0;
}

int main(void) {
    CHECK(place(table, sizeof table) == refused(NOLPIGAT_REFUSAL_CONTROL_FORM));
    CHECK(fill() == 0 && there_and_back() == 0);
    CHECK(failure() == 0);
    return refusals();
}
