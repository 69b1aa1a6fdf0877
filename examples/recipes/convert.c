/* Convert: at boot a panel of version 3 finds an image that an earlier version left. docs/RECIPES.md says
 * why in this order. */
#include <nolpigat.h>
#include <stdio.h>
#include <string.h>

/* What the panel does next. */
enum found {
    READY,   /* the image of this version is there: save it, then go on with boot */
    NEW,     /* the bytes were never written: go on with boot on an image of zeros */
    UNUSABLE /* keep the bytes as they are and call people */
};

static uint8_t image[NOLPIGAT_IMAGE_SIZE];

/* An answer that cannot come at this place, or one that this program does not know. */
static enum found fault(const char *call, uint32_t answer) {
    char text[NOLPIGAT_ANSWER_TEXT_SIZE];
    nolpigat_answer_text(answer, text, sizeof text);
    printf("%s: %s: %s\n", call, text,
           nolpigat_is_refused(answer) ? nolpigat_refusal_text(nolpigat_number(answer)) : "not expected here");
    return UNUSABLE;
}

/* 1 if no byte is set. */
static int is_new(const uint8_t *bytes, size_t length) {
    while (length > 0 && bytes[length - 1] == 0)
        length--;
    return length == 0;
}

/* The bytes have the length of this version: they are the image as they are. */
static enum found of_this_version(const uint8_t *bytes) {
    printf("of this version\n");
    memcpy(image, bytes, sizeof image);
    return READY;
}

/* A converter did not write. */
static enum found not_converted(const uint8_t *bytes, size_t length, uint32_t answer) {
    if (!nolpigat_is_refused(answer))
        return fault("convert", answer);
    switch (nolpigat_number(answer)) {
    case NOLPIGAT_REFUSAL_LENGTH:
        printf("%lu bytes are no image of this or an earlier version\n", (unsigned long)length);
        return UNUSABLE;
    case NOLPIGAT_REFUSAL_CONTROL_FORM:
        if (is_new(bytes, length)) {
            printf("never started: nothing to convert\n");
            return NEW;
        }
        printf("the control part is broken: keep the bytes, restore the last good copy\n");
        return UNUSABLE;
    default:
        return fault("convert", answer);
    }
}

/* The found bytes, which stay as they are, become an image of this version: those of version 1 in two
 * steps, those of version 2 in one. */
static enum found take_over(const uint8_t *bytes, size_t length) {
    static uint8_t between[NOLPIGAT_VERSION_2_IMAGE_SIZE];
    uint32_t answer;
    if (length == NOLPIGAT_IMAGE_SIZE)
        return of_this_version(bytes);
    if (length == NOLPIGAT_VERSION_1_IMAGE_SIZE) {
        answer = nolpigat_convert_21024(bytes, length, between, sizeof between);
        if (nolpigat_kind(answer) != NOLPIGAT_KIND_WRITTEN)
            return not_converted(bytes, length, answer);
        bytes = between;
        length = sizeof between;
    }
    answer = nolpigat_convert_21216(bytes, length, image, sizeof image);
    if (nolpigat_kind(answer) != NOLPIGAT_KIND_WRITTEN)
        return not_converted(bytes, length, answer);
    printf("converted, %u bytes written\n", (unsigned)nolpigat_number(answer));
    return READY;
}

/* ---- the cases, one after the other ---- */

#define VERSION_1 NOLPIGAT_VERSION_1_IMAGE_SIZE
#define VERSION_2 NOLPIGAT_VERSION_2_IMAGE_SIZE

static uint8_t store[NOLPIGAT_IMAGE_SIZE];
static uint8_t found[NOLPIGAT_IMAGE_SIZE + 1]; /* the byte behind an image stays zero */

/* The store as version 2 had it: no serial, and no stamps of four bytes behind the cards' tables. Its
 * first bytes are those of version 1, as long as no table of a plant is placed. */
static void as_earlier(void) {
    const size_t table = 2624, control = 32;
    size_t card;
    memcpy(found, store, control);
    memset(found + 23, 0, 3);
    for (card = 0; card < 8; card++)
        memcpy(found + control + card * table, store + control + card * (table + 4), table);
    memcpy(found + control + 8 * table, store + control + 8 * (table + 4), VERSION_2 - control - 8 * table);
}

static int ends(const char *name, size_t length, enum found expected) {
    printf("%s: ", name);
    return take_over(found, length) == expected;
}

/* What boot asks first. */
static int is_state(uint32_t kind) {
    const uint32_t answer = nolpigat_state(image, sizeof image);
    char text[NOLPIGAT_ANSWER_TEXT_SIZE];
    nolpigat_answer_text(answer, text, sizeof text);
    printf("  state: %s\n", text);
    return nolpigat_kind(answer) == kind;
}

/* Cards 0, 1 and 2, and transaction 1 with a record. */
static int filled(void) {
    return nolpigat_start(store, sizeof store, 0xE0) == 0 && nolpigat_begin(store, sizeof store, 1, 0) == 0 &&
           nolpigat_store(store, sizeof store, 1, 9, 1234) == 0;
}

/* The transaction is still open, and goes on. */
static int goes_on(void) {
    const uint32_t answer = nolpigat_get(image, sizeof image, 1, 9);
    char text[NOLPIGAT_ANSWER_TEXT_SIZE];
    nolpigat_answer_text(answer, text, sizeof text);
    printf("  get: %s\n", text);
    return nolpigat_kind(answer) == NOLPIGAT_KIND_VALUE && nolpigat_commit(image, sizeof image, 1) == 0;
}

/* Of three cards two fail. */
static int stopped(void) {
    return nolpigat_kind(nolpigat_fail(store, sizeof store, 1)) == NOLPIGAT_KIND_PLACED &&
           nolpigat_kind(nolpigat_fail(store, sizeof store, 2)) == NOLPIGAT_KIND_STOPPED;
}

/* A card that failed before the conversion is stale, so that only a start helps. */
static int stays_stopped(void) {
    const uint32_t answer = nolpigat_return_card(image, sizeof image, 2);
    printf("  return of card 2: %s\n", nolpigat_refusal_text(nolpigat_number(answer)));
    return nolpigat_is_refused(answer) && nolpigat_number(answer) == NOLPIGAT_REFUSAL_STALE;
}

static int runs(void) {
    if (!ends("never written", VERSION_1, NEW) || !filled())
        return 0;
    as_earlier();
    return ends("running, of version 1", VERSION_1, READY) && is_state(NOLPIGAT_KIND_PROTECTED) && goes_on() &&
           ends("running, of version 2", VERSION_2, READY) && is_state(NOLPIGAT_KIND_PROTECTED) && goes_on();
}

static int other_lengths(void) {
    memcpy(found, image, sizeof image);
    if (!ends("again, of this version", sizeof image, READY) || !is_state(NOLPIGAT_KIND_PROTECTED))
        return 0;
    memset(found, 0, sizeof found);
    as_earlier();
    return ends("a byte too few", VERSION_2 - 1, UNUSABLE) && ends("a byte too many", VERSION_2 + 1, UNUSABLE);
}

/* A cut image of version 2 is none of version 1 if it has a table. */
static int cut_short(void) {
    static const uint8_t line[NOLPIGAT_LINE_SIZE] = {0, 63, 1, 2};
    if (nolpigat_place_by_table(store, sizeof store, line, sizeof line) != 0)
        return 0;
    as_earlier();
    return ends("with a table", VERSION_2, READY) && is_state(NOLPIGAT_KIND_UNPROTECTED) &&
           ends("cut short", VERSION_1, UNUSABLE);
}

int main(void) {
    if (!runs() || !other_lengths() || !cut_short() || !filled() || !stopped())
        return 1;
    as_earlier();
    if (!ends("stopped", VERSION_1, READY) || !is_state(NOLPIGAT_KIND_REFUSED) || !stays_stopped())
        return 1;
    found[0] = 0;
    return !ends("broken", VERSION_1, UNUSABLE);
}
