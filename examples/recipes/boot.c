/* Boot: what a panel does with the image that it finds after power on. docs/RECIPES.md says why. */
#include <nolpigat.h>
#include <stdio.h>
#include <string.h>

#define TRANSACTIONS 15

/* What the panel does next. */
enum boot {
    RUNS,    /* go on */
    STOPPED, /* keep the image and return the cards (supply); only people may start it anew */
    UNUSABLE /* the same: this is no image of a running or stopped store */
};

/* An answer that cannot come at this place, or one that this program does not know. */
static enum boot fault(const char *call, uint32_t answer) {
    char text[NOLPIGAT_ANSWER_TEXT_SIZE];
    nolpigat_answer_text(answer, text, sizeof text);
    printf("%s: %s: %s\n", call, text,
           nolpigat_is_refused(answer) ? nolpigat_refusal_text(nolpigat_number(answer)) : "not expected here");
    return UNUSABLE;
}

/* 1 if no byte is set: an image that was never written. */
static int is_new(const uint8_t *image, size_t length) {
    while (length > 0 && image[length - 1] == 0)
        length--;
    return length == 0;
}

/* Start erases the image, so it is called for one that was never written, and for no other. */
static enum boot first_start(uint8_t *image, size_t length, uint8_t cards) {
    const uint32_t answer = nolpigat_start(image, length, cards);
    if (answer == NOLPIGAT_KIND_OK) {
        printf("first start, cards %02X\n", (unsigned)cards);
        return RUNS;
    }
    if (nolpigat_is_refused(answer) && nolpigat_number(answer) == NOLPIGAT_REFUSAL_PLACEMENT) {
        printf("cards %02X are fewer than two: set up the cabinet\n", (unsigned)cards);
        return UNUSABLE;
    }
    return fault("start", answer);
}

/* The answer of a query goes to the number. 0 if it is refused or unknown, which is then printed. */
static int asked(const char *query, uint32_t answer, uint32_t *number) {
    *number = nolpigat_number(answer);
    if (nolpigat_kind(answer) != NOLPIGAT_KIND_NUMBER)
        fault(query, answer);
    return nolpigat_kind(answer) == NOLPIGAT_KIND_NUMBER;
}

/* These queries are not refused after a stop. */
static enum boot tell_stop(const uint8_t *image, size_t length) {
    uint32_t working, failed, count, mask;
    uint8_t index;
    if (!asked("working", nolpigat_working(image, length), &working) ||
        !asked("failed", nolpigat_failed(image, length), &failed) ||
        !asked("placement_count", nolpigat_placement_count(image, length), &count))
        return UNUSABLE;
    printf("stopped: working cards %02X, failed cards %02X, placements", (unsigned)working, (unsigned)failed);
    for (index = 0; index < count; index++) {
        if (!asked("placement", nolpigat_placement(image, length, index), &mask))
            return UNUSABLE;
        printf(" %02X", (unsigned)mask);
    }
    printf("\n");
    return STOPPED;
}

/* Nobody goes on with what was open before the power went: it is rolled back. */
static enum boot end_what_is_open(uint8_t *image, size_t length) {
    uint8_t transaction;
    for (transaction = 1; transaction <= TRANSACTIONS; transaction++) {
        const uint32_t home = nolpigat_home(image, length, transaction);
        uint32_t answer;
        if (nolpigat_kind(home) == NOLPIGAT_KIND_NONE)
            continue;
        if (nolpigat_kind(home) != NOLPIGAT_KIND_NUMBER)
            return fault("home", home);
        answer = nolpigat_rollback(image, length, transaction);
        if (answer != NOLPIGAT_KIND_OK)
            return fault("rollback", answer);
        printf("transaction %u, begun at card %u: rolled back\n", (unsigned)transaction,
               (unsigned)nolpigat_number(home));
    }
    return RUNS;
}

/* State is asked first: it changes nothing and tells all cases apart. */
static enum boot boot(uint8_t *image, size_t length, uint8_t cards) {
    const uint32_t answer = nolpigat_state(image, length);
    switch (nolpigat_kind(answer)) {
    case NOLPIGAT_KIND_PROTECTED:
        printf("runs, protected\n");
        return end_what_is_open(image, length);
    case NOLPIGAT_KIND_UNPROTECTED:
        printf("runs, unprotected: a failure may stop it\n");
        return end_what_is_open(image, length);
    case NOLPIGAT_KIND_REFUSED:
        break;
    default:
        return fault("state", answer);
    }
    switch (nolpigat_number(answer)) {
    case NOLPIGAT_REFUSAL_LENGTH:
        printf("%lu bytes are no image of this version\n", (unsigned long)length);
        return UNUSABLE;
    case NOLPIGAT_REFUSAL_CONTROL_FORM:
        if (is_new(image, length))
            return first_start(image, length, cards);
        printf("the control part is broken: keep the image, restore the last good copy\n");
        return UNUSABLE;
    case NOLPIGAT_REFUSAL_STOPPED:
        return tell_stop(image, length);
    default:
        return fault("state", answer);
    }
}

/* ---- the cases, one after the other ---- */

static uint8_t image[NOLPIGAT_IMAGE_SIZE];

/* Exit 1 if the case does not end as it should. */
static int ends(const char *name, size_t length, uint8_t cards, enum boot expected) {
    printf("%s: ", name);
    return boot(image, length, cards) == expected;
}

int main(void) {
    const size_t size = sizeof image;
    if (!ends("new, one card", size, 0x80, UNUSABLE) || !ends("new", size, 0xE0, RUNS))
        return 1;
    if (nolpigat_begin(image, size, 2, 1) || nolpigat_store(image, size, 2, 9, 1234))
        return 1;
    if (!ends("power lost in a transaction", size, 0xE0, RUNS) || !ends("again", size, 0xE0, RUNS))
        return 1;
    if (nolpigat_kind(nolpigat_fail(image, size, 1)) != NOLPIGAT_KIND_PLACED ||
        !ends("card 1 failed", size, 0xE0, RUNS))
        return 1;
    if (nolpigat_kind(nolpigat_fail(image, size, 2)) != NOLPIGAT_KIND_STOPPED ||
        !ends("card 2 failed", size, 0xE0, STOPPED))
        return 1;
    if (!ends("another length", size - 1, 0xE0, UNUSABLE))
        return 1;
    memset(image, 0, size);
    image[100] = 1;
    return !ends("broken", size, 0xE0, UNUSABLE);
}
