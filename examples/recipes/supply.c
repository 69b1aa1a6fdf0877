/* Supply: the supply of several cards fails, the store stops, and the cards come back. docs/RECIPES.md says
 * why in this order, and which stops stay final. */
#include <nolpigat.h>
#include <stdio.h>
#include <string.h>

#define SIZE NOLPIGAT_IMAGE_SIZE

/* What the panel does next. */
enum outcome {
    RUNS,  /* the store runs: go on with work; what was open is rolled back */
    WAITS, /* cards of the newest placement are still missing */
    FINAL, /* no return helps: people decide to start anew, which erases */
    FAULT  /* tell people */
};

static uint8_t image[SIZE];

/* An answer that cannot come at this place, or one that this program does not know. */
static int fault(const char *call, uint32_t answer) {
    char text[NOLPIGAT_ANSWER_TEXT_SIZE];
    nolpigat_answer_text(answer, text, sizeof text);
    printf("%s: %s: %s\n", call, text,
           nolpigat_is_refused(answer) ? nolpigat_refusal_text(nolpigat_number(answer)) : "not expected here");
    return 0;
}

/* The driver finds a card without supply: it is marked failed, also after the stop. */
static int card_gone(uint8_t card) {
    const uint32_t answer = nolpigat_fail(image, SIZE, card);
    switch (nolpigat_kind(answer)) {
    case NOLPIGAT_KIND_PLACED:
        printf("  card %u is gone: the store goes on with %02X\n", (unsigned)card, (unsigned)nolpigat_number(answer));
        return 1;
    case NOLPIGAT_KIND_UNPLACED:
        printf("  card %u is gone: the store goes on\n", (unsigned)card);
        return 1;
    case NOLPIGAT_KIND_STOPPED:
        printf("  card %u is gone: stopped\n", (unsigned)card);
        return 1;
    default:
        if (answer == ((uint32_t)NOLPIGAT_KIND_REFUSED << 16 | NOLPIGAT_REFUSAL_CARD)) {
            printf("  card %u is gone: it did not work before\n", (unsigned)card);
            return 1;
        }
        return fault("fail", answer);
    }
}

/* A card has supply again, and its table is in the image. A refusal changes nothing: a stale card is left
 * out, and the right one may still come. */
static int card_back(uint8_t card) {
    const uint32_t answer = nolpigat_return_card(image, SIZE, card);
    if (nolpigat_kind(answer) == NOLPIGAT_KIND_OK) {
        printf("  card %u is back: taken\n", (unsigned)card);
        return 1;
    }
    if (!nolpigat_is_refused(answer))
        return fault("return_card", answer);
    switch (nolpigat_number(answer)) {
    case NOLPIGAT_REFUSAL_STALE:
        printf("  card %u is back: stale\n", (unsigned)card);
        return 1;
    case NOLPIGAT_REFUSAL_CARD:
        printf("  card %u is back: the store runs, or did not miss it\n", (unsigned)card);
        return 1;
    default:
        return fault("return_card", answer);
    }
}

/* The failed cards of the newest placement: those that have to come back. */
static int missing(uint32_t *mask) {
    const uint32_t count = nolpigat_placement_count(image, SIZE), failed = nolpigat_failed(image, SIZE);
    uint32_t newest;
    if (nolpigat_kind(count) != NOLPIGAT_KIND_NUMBER || nolpigat_kind(failed) != NOLPIGAT_KIND_NUMBER)
        return fault("placement_count or failed", nolpigat_is_refused(count) ? count : failed);
    newest = nolpigat_placement(image, SIZE, (uint8_t)(nolpigat_number(count) - 1));
    if (nolpigat_kind(newest) != NOLPIGAT_KIND_NUMBER)
        return fault("placement", newest);
    *mask = nolpigat_number(newest) & nolpigat_number(failed);
    return 1;
}

/* After each return: does the store run, and if not, what is it waiting for? */
static enum outcome look(void) {
    const uint32_t stopped = nolpigat_stopped(image, SIZE);
    uint32_t mask;
    if (nolpigat_kind(stopped) != NOLPIGAT_KIND_NUMBER) {
        fault("stopped", stopped);
        return FAULT;
    }
    if (nolpigat_number(stopped) == 0) {
        printf("  the store runs\n");
        return RUNS;
    }
    if (!missing(&mask))
        return FAULT;
    if (mask != 0) {
        printf("  the store waits for cards %02X\n", (unsigned)mask);
        return WAITS;
    }
    printf("  the store stays stopped: an older placement has lost two cards that no return takes\n");
    return FINAL;
}

/* The cards that the driver finds with supply again, in the order in which they come. */
static enum outcome cards_back(const uint8_t *cards, size_t number) {
    enum outcome outcome = look();
    for (; number > 0 && outcome == WAITS; cards++, number--)
        outcome = card_back(*cards) ? look() : FAULT;
    return outcome;
}

/* ---- the cases, one after the other ---- */

static int gone(const uint8_t *cards, size_t number) {
    for (; number > 0; cards++, number--)
        if (!card_gone(*cards))
            return 0;
    return 1;
}

/* Record 9 is committed. Transaction 2 has changed it and is open. */
static int filled(uint8_t mask) {
    return nolpigat_start(image, SIZE, mask) == 0 && nolpigat_begin(image, SIZE, 1, 2) == 0 &&
           nolpigat_store(image, SIZE, 1, 9, 1234) == 0 && nolpigat_commit(image, SIZE, 1) == 0 &&
           nolpigat_begin(image, SIZE, 2, 2) == 0 && nolpigat_store(image, SIZE, 2, 9, 5678) == 0;
}

/* What was committed is found, and what was open is rolled back. */
static int found(void) {
    char text[NOLPIGAT_ANSWER_TEXT_SIZE];
    uint32_t answer = nolpigat_get(image, SIZE, 2, 9);
    nolpigat_answer_text(answer, text, sizeof text);
    printf("  get by the transaction that was open: %s\n", text);
    if (nolpigat_begin(image, SIZE, 1, 2) != 0)
        return 0;
    answer = nolpigat_get(image, SIZE, 1, 9);
    nolpigat_answer_text(answer, text, sizeof text);
    printf("  get by a new one: %s\n", text);
    return nolpigat_kind(answer) == NOLPIGAT_KIND_VALUE && nolpigat_number(answer) == 1234;
}

/* All four cards lose their supply. Card 0 was the first: the store went on without it. */
static int all_gone(void) {
    static const uint8_t lost[] = {0, 1, 2, 3}, back[] = {0, 3, 1, 2, 0};
    printf("all cards\n");
    return filled(0xF0) && gone(lost, 4) && cards_back(back, 5) == RUNS && found();
}

/* Another card is put in for card 2; its table has other bytes. Then the right one comes. */
static int wrong_card(void) {
    static const uint8_t lost[] = {1, 2}, other[] = {2}, right[] = {2, 1};
    uint8_t kept[2628], *table = image + 32 + 2 * sizeof kept;
    printf("another card in its place\n");
    if (!filled(0xE0) || !gone(lost, 2))
        return 0;
    memcpy(kept, table, sizeof kept);
    memset(table, 0xFF, sizeof kept);
    if (cards_back(other, 1) != WAITS)
        return 0;
    memcpy(table, kept, sizeof kept);
    return cards_back(right, 2) == RUNS && found();
}

/* Cards 0 and 3 fail in the middle of a reorganisation, and the newest placement has neither. */
static int stays_final(void) {
    static const uint8_t lost[] = {0, 1, 2, 3}, back[] = {1, 2};
    printf("a stop that stays final\n");
    if (!filled(0xF0) || nolpigat_place(image, SIZE, 0xE0) != 0 || !gone(lost, 4))
        return 0;
    return cards_back(back, 2) == FINAL && card_back(0) && card_back(3);
}

int main(void) {
    return !all_gone() || !wrong_card() || !stays_final();
}
