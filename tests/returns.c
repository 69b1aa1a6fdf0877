/* Returns of cards: a stop, fails while stopped, returns in any order, each refusal, and the bytes. Exit 1
 * with the first check that fails. */
#include <nolpigat.h>
#include <stdio.h>
#include <string.h>

#define SIZE NOLPIGAT_IMAGE_SIZE
#define STAMP(card) (32 + (card) * 2628 + 2624)
#define CHECK(condition)                                                       \
    do {                                                                       \
        if (!(condition)) {                                                    \
            fprintf(stderr, "line %d: %s\n", __LINE__, #condition);            \
            return 1;                                                          \
        }                                                                      \
    } while (0)

static uint8_t image[SIZE], before[SIZE];

static uint32_t answer(uint32_t kind, uint32_t number) {
    return kind << 16 | number;
}

/* A return of the card is refused with this number, and no byte changes. */
static int is_refused(uint8_t card, uint32_t number) {
    memcpy(before, image, SIZE);
    return nolpigat_return_card(image, SIZE, card) == answer(NOLPIGAT_KIND_REFUSED, number) &&
           memcmp(before, image, SIZE) == 0;
}

static int is_stopped(void) {
    return nolpigat_stopped(image, SIZE) == answer(NOLPIGAT_KIND_NUMBER, 1);
}

static int fails(uint8_t card, uint32_t kind, uint32_t number) {
    return nolpigat_fail(image, SIZE, card) == answer(kind, number);
}

/* Cards 0 to 2. Record 9 is committed, and changed by transaction 2, which is open. */
static int fill(void) {
    CHECK(nolpigat_start(image, SIZE, 0xE0) == 0);
    CHECK(nolpigat_begin(image, SIZE, 1, 0) == 0 && nolpigat_store(image, SIZE, 1, 9, 4660) == 0);
    CHECK(nolpigat_commit(image, SIZE, 1) == 0 && nolpigat_begin(image, SIZE, 2, 0) == 0);
    CHECK(nolpigat_store(image, SIZE, 2, 9, 5) == 0);
    return 0;
}

/* Card 1 fails, then 2 and 0 do: the first stops the store, the other is only marked. */
static int stop(void) {
    CHECK(fill() == 0);
    CHECK(fails(1, NOLPIGAT_KIND_PLACED, 0xA0));
    CHECK(fails(2, NOLPIGAT_KIND_STOPPED, 0));
    memcpy(before, image, SIZE);
    before[5] = 0;
    before[6] = 0xE0;
    CHECK(fails(0, NOLPIGAT_KIND_STOPPED, 0) && memcmp(before, image, SIZE) == 0);
    CHECK(fails(0, NOLPIGAT_KIND_REFUSED, NOLPIGAT_REFUSAL_CARD));
    CHECK(fails(8, NOLPIGAT_KIND_REFUSED, NOLPIGAT_REFUSAL_RANGE));
    return 0;
}

static int resumed(uint8_t first, uint8_t second) {
    CHECK(stop() == 0);
    CHECK(nolpigat_return_card(image, SIZE, first) == 0 && is_stopped());
    CHECK(is_refused(first, NOLPIGAT_REFUSAL_CARD));
    CHECK(nolpigat_return_card(image, SIZE, second) == 0 && !is_stopped());
    CHECK(is_refused(second, NOLPIGAT_REFUSAL_CARD) && is_refused(1, NOLPIGAT_REFUSAL_CARD));
    CHECK(nolpigat_begin(image, SIZE, 3, 0) == 0);
    CHECK(nolpigat_get(image, SIZE, 3, 9) == answer(NOLPIGAT_KIND_VALUE, 4660));
    CHECK(nolpigat_get(image, SIZE, 2, 9) == answer(NOLPIGAT_KIND_REFUSED, NOLPIGAT_REFUSAL_NOT_OPEN));
    return 0;
}

static int refusals(void) {
    const uint8_t current[4] = {0, 0, 2, 0xA0};
    unsigned i;
    CHECK(stop() == 0);
    CHECK(nolpigat_return_card(image, SIZE - 1, 0) == answer(NOLPIGAT_KIND_REFUSED, NOLPIGAT_REFUSAL_LENGTH));
    CHECK(is_refused(8, NOLPIGAT_REFUSAL_RANGE) && is_refused(255, NOLPIGAT_REFUSAL_RANGE));
    CHECK(is_refused(7, NOLPIGAT_REFUSAL_CARD));
    /* Card 1 failed before the newest placement, which does not name it. */
    CHECK(is_refused(1, NOLPIGAT_REFUSAL_STALE));
    memcpy(image + STAMP(1), current, sizeof current);
    CHECK(is_refused(1, NOLPIGAT_REFUSAL_STALE));
    CHECK(memcmp(image + STAMP(2), current, sizeof current) == 0);
    for (i = 0; i < 32; i++) {
        image[STAMP(2) + i / 8] ^= (uint8_t)(1u << i % 8);
        CHECK(is_refused(2, NOLPIGAT_REFUSAL_STALE));
        image[STAMP(2) + i / 8] ^= (uint8_t)(1u << i % 8);
    }
    CHECK(nolpigat_return_card(image, SIZE, 2) == 0);
    memset(image, 0, SIZE);
    CHECK(is_refused(0, NOLPIGAT_REFUSAL_CONTROL_FORM));
    return 0;
}

/* A stop that stays final, with every byte intact: F0 keeps two failed cards. */
static int stays_final(void) {
    CHECK(nolpigat_start(image, SIZE, 0xF0) == 0 && nolpigat_place(image, SIZE, 0xE0) == 0);
    CHECK(fails(0, NOLPIGAT_KIND_PLACED, 0x60));
    CHECK(fails(1, NOLPIGAT_KIND_STOPPED, 0) && fails(2, NOLPIGAT_KIND_STOPPED, 0));
    CHECK(fails(3, NOLPIGAT_KIND_STOPPED, 0));
    CHECK(nolpigat_return_card(image, SIZE, 1) == 0 && nolpigat_return_card(image, SIZE, 2) == 0);
    CHECK(is_refused(0, NOLPIGAT_REFUSAL_STALE) && is_refused(3, NOLPIGAT_REFUSAL_STALE) && is_stopped());
    CHECK(nolpigat_start(image, SIZE, 0xF0) == 0 && !is_stopped());
    return 0;
}

/* No place from serial 16,777,000 on, and a serial below the count or too high breaks the form. */
static int serials(void) {
    CHECK(nolpigat_start(image, SIZE, 0xE0) == 0);
    CHECK(image[23] == 0 && image[24] == 0 && image[25] == 1);
    image[25] = 0;
    CHECK(nolpigat_state(image, SIZE) == answer(NOLPIGAT_KIND_REFUSED, NOLPIGAT_REFUSAL_CONTROL_FORM));
    image[23] = 0xFF;
    image[24] = 0xFF;
    image[25] = 0x27; /* 16,776,999 */
    memcpy(before, image, SIZE);
    CHECK(nolpigat_place(image, SIZE, 0xC0) == 0 && image[25] == 0x28);
    memcpy(image, before, SIZE);
    image[25] = 0x28;
    CHECK(nolpigat_place(image, SIZE, 0xC0) == answer(NOLPIGAT_KIND_REFUSED, NOLPIGAT_REFUSAL_SERIALS));
    image[25] = 0x2D; /* with three members 16,777,008 */
    CHECK(nolpigat_kind(nolpigat_state(image, SIZE)) == NOLPIGAT_KIND_PROTECTED);
    image[25] = 0x2E;
    CHECK(nolpigat_state(image, SIZE) == answer(NOLPIGAT_KIND_REFUSED, NOLPIGAT_REFUSAL_CONTROL_FORM));
    return 0;
}

int main(void) {
    return resumed(0, 2) || resumed(2, 0) || refusals() || stays_final() || serials();
}
