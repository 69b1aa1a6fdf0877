/* convert IMAGE: converts the image in the file, which an earlier version left, by each converter that
 * takes it, and looks at every byte. A refusal leaves the lent image as it was. Exit 1 with the first
 * check that fails. */
#include <nolpigat.h>
#include <stdio.h>
#include <string.h>

#define SIZE NOLPIGAT_IMAGE_SIZE
#define SIZE_2 NOLPIGAT_VERSION_2_IMAGE_SIZE
#define SIZE_1 NOLPIGAT_VERSION_1_IMAGE_SIZE
#define TABLE 2624
#define STAMP 4
#define LENT 0xEE
#define CHECK(condition)                                                       \
    do {                                                                       \
        if (!(condition)) {                                                    \
            fprintf(stderr, "line %d: %s\n", __LINE__, #condition);            \
            return 1;                                                          \
        }                                                                      \
    } while (0)

typedef uint32_t converter(const uint8_t *, size_t, uint8_t *, size_t);

static uint8_t found[SIZE], older[SIZE], image[SIZE], lent[SIZE];

/* The converter that is looked at, and its two lengths. */
static converter *convert_it;
static size_t from, to;

static uint32_t refused(uint32_t number) {
    return (uint32_t)NOLPIGAT_KIND_REFUSED << 16 | number;
}

static uint32_t convert(size_t older_length, size_t length) {
    memcpy(image, lent, SIZE);
    return convert_it(older, older_length, image, length);
}

static int is_written(void) {
    return convert(from, to) == ((uint32_t)NOLPIGAT_KIND_WRITTEN << 16 | (uint32_t)to) &&
           memcmp(image + to, lent, SIZE - to) == 0;
}

/* It is refused with this number, and the lent image stays. */
static int is_refused(size_t older_length, size_t length, uint32_t number) {
    return convert(older_length, length) == refused(number) && memcmp(image, lent, SIZE) == 0;
}

static int lengths(void) {
    CHECK(is_refused(from - 1, to, NOLPIGAT_REFUSAL_LENGTH));
    CHECK(is_refused(from + 1, to, NOLPIGAT_REFUSAL_LENGTH));
    CHECK(is_refused(to, to, NOLPIGAT_REFUSAL_LENGTH));
    CHECK(is_refused(from, to - 1, NOLPIGAT_REFUSAL_LENGTH));
    CHECK(is_refused(from, from, NOLPIGAT_REFUSAL_LENGTH));
    CHECK(is_refused(0, 0, NOLPIGAT_REFUSAL_LENGTH));
    return 0;
}

/* Bit 7 of byte 5 is card 0 working. The newest mask is the last of the active ones. */
static int is_stamped(unsigned card) {
    const uint8_t *stamp = image + 32 + card * (TABLE + STAMP) + TABLE;
    const unsigned count = (unsigned)older[0] >> 4 & 7;
    const uint8_t none[STAMP] = {0, 0, 0, 0};
    uint8_t newest[STAMP] = {0, 0, 4, 0};
    newest[3] = older[count];
    return memcmp(stamp, older[5] & 0x80 >> card ? newest : none, STAMP) == 0;
}

/* An image of version 1: its bytes, and zeros behind them. */
static int bytes_of_version_2(void) {
    size_t i;
    CHECK(memcmp(image, older, SIZE_1) == 0);
    for (i = SIZE_1; i < SIZE_2; i++)
        CHECK(image[i] == 0);
    CHECK(nolpigat_state(image, SIZE_2) == refused(NOLPIGAT_REFUSAL_LENGTH));
    return 0;
}

/* An image of version 2: serial 4, and a stamp behind each table. */
static int bytes_of_this_version(void) {
    unsigned card;
    CHECK(memcmp(image, older, 23) == 0 && image[23] == 0 && image[24] == 0 && image[25] == 4);
    CHECK(memcmp(image + 26, older + 26, 6) == 0);
    for (card = 0; card < 8; card++) {
        CHECK(memcmp(image + 32 + card * (TABLE + STAMP), older + 32 + card * TABLE, TABLE) == 0);
        CHECK(is_stamped(card));
    }
    CHECK(memcmp(image + SIZE - 192, older + SIZE_2 - 192, 192) == 0);
    CHECK(nolpigat_number(nolpigat_working(image, SIZE)) == older[5]);
    CHECK(!nolpigat_is_refused(nolpigat_state(image, SIZE)));
    return 0;
}

/* Byte 23 is zero in every older form, and byte 7 has no table's mark in the oldest. A stopped store, with no
 * transaction open, is converted. */
static int forms(void) {
    older[23] = 1;
    CHECK(is_refused(from, to, NOLPIGAT_REFUSAL_CONTROL_FORM));
    older[23] = 0;
    older[7] = (uint8_t)(older[7] | 0x01);
    CHECK(is_refused(from, to, NOLPIGAT_REFUSAL_CONTROL_FORM));
    older[7] = (uint8_t)(older[7] & 0xFE);
    older[0] = (uint8_t)(older[0] | 0x80);
    memset(older + 8, 0, 15);
    CHECK(is_written());
    CHECK(to != SIZE || nolpigat_state(image, SIZE) == refused(NOLPIGAT_REFUSAL_STOPPED));
    memset(older, 0, SIZE);
    CHECK(is_refused(from, to, NOLPIGAT_REFUSAL_CONTROL_FORM));
    CHECK(is_refused(from - 1, to, NOLPIGAT_REFUSAL_LENGTH));
    return 0;
}

/* From the found bytes; they then are those of the next version. */
static int look_at(converter *tried, size_t from_length, size_t to_length, int (*bytes)(void)) {
    convert_it = tried;
    from = from_length;
    to = to_length;
    memcpy(older, found, SIZE);
    CHECK(lengths() == 0 && is_written() && bytes() == 0);
    memset(found, 0, SIZE);
    memcpy(found, image, to);
    return forms();
}

int main(int argc, char **argv) {
    FILE *file = argc == 2 ? fopen(argv[1], "rb") : NULL;
    size_t length;
    CHECK(file != NULL);
    length = fread(found, 1, SIZE, file);
    fclose(file);
    CHECK(length == SIZE_1 || length == SIZE_2);
    memset(lent, LENT, SIZE);
    if (length == SIZE_1 && look_at(nolpigat_convert_21024, SIZE_1, SIZE_2, bytes_of_version_2) != 0)
        return 1;
    return look_at(nolpigat_convert_21216, SIZE_2, SIZE, bytes_of_this_version);
}
