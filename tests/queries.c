/* Performs the commands on standard input and compares every query with the bytes of the image after
 * each command. Exit 1 with the first check that fails. */
#include <nolpigat.h>
#include <stdio.h>
#include <string.h>

#define SIZE NOLPIGAT_IMAGE_SIZE
#define CONTROL 32
#define TABLE 2628
#define BLOCK 41
#define TRANSACTIONS 15
#define CHECK(condition)                                                       \
    do {                                                                       \
        if (!(condition)) {                                                    \
            fprintf(stderr, "line %d: %s\n", __LINE__, #condition);            \
            return 1;                                                          \
        }                                                                      \
    } while (0)

static uint8_t image[SIZE];

static uint32_t number(uint32_t number) {
    return (uint32_t)NOLPIGAT_KIND_NUMBER << 16 | number;
}

static uint32_t refused(uint32_t number) {
    return (uint32_t)NOLPIGAT_KIND_REFUSED << 16 | number;
}

static const uint32_t none = (uint32_t)NOLPIGAT_KIND_NONE << 16;

/* All queries of the control part give this refusal. */
static int all_refused(size_t length, uint32_t answer) {
    CHECK(nolpigat_stopped(image, length) == answer && nolpigat_placement_count(image, length) == answer);
    CHECK(nolpigat_placement(image, length, 0) == answer && nolpigat_placement(image, length, 4) == answer);
    CHECK(nolpigat_working(image, length) == answer && nolpigat_failed(image, length) == answer);
    CHECK(nolpigat_home(image, length, 1) == answer && nolpigat_home(image, length, 0) == answer);
    CHECK(nolpigat_free_transaction(image, length) == answer);
    CHECK(nolpigat_source(image, length, 1, 0) == answer && nolpigat_holders(image, length, 0, 512) == answer);
    return 0;
}

static int placements(void) {
    const uint32_t count = image[0] >> 4 & 7;
    uint8_t index;
    CHECK(nolpigat_stopped(image, SIZE) == number(image[0] >> 7));
    CHECK(nolpigat_placement_count(image, SIZE) == number(count));
    for (index = 0; index < 4; index++)
        CHECK(nolpigat_placement(image, SIZE, index) == (index < count ? number(image[1 + index]) : none));
    CHECK(nolpigat_placement(image, SIZE, 4) == refused(3) && nolpigat_placement(image, SIZE, 255) == refused(3));
    CHECK(nolpigat_working(image, SIZE) == number(image[5]) && nolpigat_failed(image, SIZE) == number(image[6]));
    return 0;
}

static int transactions(void) {
    uint8_t transaction, lowest = 0;
    for (transaction = TRANSACTIONS; transaction > 0; transaction--) {
        const uint8_t byte = image[7 + transaction];
        CHECK(nolpigat_home(image, SIZE, transaction) == (byte & 0x80 ? number(byte >> 4 & 7) : none));
        if (!(byte & 0x80))
            lowest = transaction;
    }
    CHECK(nolpigat_free_transaction(image, SIZE) == number(lowest));
    CHECK(nolpigat_home(image, SIZE, 0) == refused(3) && nolpigat_home(image, SIZE, 16) == refused(3));
    return 0;
}

/* The working cards that hold the record's block; after a start they are its holders. */
static uint8_t holding(uint16_t record) {
    uint8_t card, cards = 0;
    for (card = 0; card < 8; card++)
        if (image[5] & 0x80 >> card && image[CONTROL + card * TABLE + record / 8 * BLOCK] & 0x80)
            cards = (uint8_t)(cards | 0x80 >> card);
    return cards;
}

static uint32_t size_of(uint8_t cards) {
    uint32_t size = 0;
    for (; cards != 0; cards = (uint8_t)(cards & (cards - 1)))
        size++;
    return size;
}

static int record(uint8_t transaction, uint16_t record) {
    const uint32_t get = nolpigat_get(image, SIZE, transaction, record);
    const uint32_t source = nolpigat_source(image, SIZE, transaction, record);
    const uint32_t holders = nolpigat_holders(image, SIZE, transaction, record);
    uint8_t cards;
    if (nolpigat_is_refused(get)) {
        CHECK(source == get && holders == get);
        return 0;
    }
    cards = holding(record);
    CHECK(holders == number(size_of(cards)));
    CHECK(cards ? nolpigat_kind(source) == NOLPIGAT_KIND_NUMBER : source == none);
    CHECK(!cards || (nolpigat_number(source) < 8 && cards & 0x80 >> nolpigat_number(source)));
    return 0;
}

int main(void) {
    uint8_t command[NOLPIGAT_COMMAND_SIZE];
    uint16_t next = 0;
    CHECK(all_refused(SIZE, refused(2)) == 0);
    while (fread(command, sizeof command, 1, stdin) == 1) {
        const uint32_t answer = nolpigat_command(image, SIZE, command, sizeof command);
        const uint32_t state = nolpigat_state(image, SIZE);
        CHECK(nolpigat_kind(answer) <= NOLPIGAT_KIND_LOAD || nolpigat_is_refused(answer));
        CHECK(all_refused(SIZE - 1, refused(1)) == 0);
        if (state == refused(2)) {
            CHECK(all_refused(SIZE, refused(2)) == 0);
            continue;
        }
        CHECK(placements() == 0 && transactions() == 0);
        /* Another record and another transaction each time, also ones out of range. */
        next = (uint16_t)((next + 37) % 520);
        CHECK(record(next % 17, next) == 0);
        CHECK(record(command[0] & 15, (uint16_t)((command[1] & 15) << 8 | command[2])) == 0);
    }
    return next == 0;
}
