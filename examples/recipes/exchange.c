/* Exchange: a card that failed, or one that still works, is replaced while the store goes on.
 * docs/RECIPES.md says why in this order. */
#include <nolpigat.h>
#include <stdio.h>

static uint8_t image[NOLPIGAT_IMAGE_SIZE];
static uint8_t list[NOLPIGAT_MOST_MOVES * NOLPIGAT_MOVE_SIZE];

/* How a step or a whole part ended. */
enum step {
    DONE,
    LATER,   /* others are in the way (see in_the_way.c): do this part again after a while */
    STOPPED, /* the store has stopped */
    FAULT    /* not in this state of the cabinet, a fault of this program, or an unknown answer */
};

/* Prints an answer. */
static void print(const char *call, uint32_t answer) {
    char text[NOLPIGAT_ANSWER_TEXT_SIZE];
    nolpigat_answer_text(answer, text, sizeof text);
    printf("  %s: %s\n", call, text);
}

/* What an answer that is not the wanted one means. The work of others is the reason of none and of
 * refusals 11 to 14: a record is locked, a block was moved or a placement added since the list was
 * made, or the card is a home. */
static enum step ended(uint32_t answer) {
    if (nolpigat_kind(answer) == NOLPIGAT_KIND_NONE)
        return LATER;
    if (!nolpigat_is_refused(answer))
        return FAULT;
    switch (nolpigat_number(answer)) {
    case NOLPIGAT_REFUSAL_STOPPED: return STOPPED;
    case NOLPIGAT_REFUSAL_NOT_HELD:
    case NOLPIGAT_REFUSAL_COPY_LOCKED:
    case NOLPIGAT_REFUSAL_UNSETTLED:
    case NOLPIGAT_REFUSAL_HOME: return LATER;
    default: printf("  %s\n", nolpigat_refusal_text(nolpigat_number(answer))); return FAULT;
    }
}

/* A call whose one good answer has this kind. */
static enum step step(const char *call, uint32_t answer, uint32_t kind) {
    print(call, answer);
    return nolpigat_kind(answer) == kind ? DONE : ended(answer);
}

/* List, moves, settle: afterwards every block lies where the newest placement has it, and only that
 * one is active. */
static enum step reorganise(void) {
    const uint32_t answer = nolpigat_move_list(image, sizeof image, list, sizeof list);
    enum step result = step("move_list", answer, NOLPIGAT_KIND_LISTED);
    uint32_t i;
    for (i = 0; result == DONE && i < nolpigat_number(answer); i++)
        result = step("move", nolpigat_move(image, sizeof image, list[2 * i], list[2 * i + 1]), NOLPIGAT_KIND_COPIES);
    return result == DONE ? step("settle", nolpigat_settle(image, sizeof image), NOLPIGAT_KIND_RETIRED) : result;
}

/* The number of a query. */
static enum step ask(uint32_t answer, uint8_t *number) {
    *number = (uint8_t)nolpigat_number(answer);
    return nolpigat_kind(answer) == NOLPIGAT_KIND_NUMBER ? DONE : ended(answer);
}

/* The newest placement's mask. */
static enum step ask_newest(uint8_t *mask) {
    uint8_t count;
    const enum step result = ask(nolpigat_placement_count(image, sizeof image), &count);
    return result == DONE ? ask(nolpigat_placement(image, sizeof image, (uint8_t)(count - 1)), mask) : result;
}

/* Places the mask. Where three placements are active (10), the older ones are retired before. */
static enum step place(uint8_t mask) {
    const uint32_t answer = nolpigat_place(image, sizeof image, mask);
    enum step result;
    if (!nolpigat_is_refused(answer) || nolpigat_number(answer) != NOLPIGAT_REFUSAL_ACTIVE)
        return step("place", answer, NOLPIGAT_KIND_OK);
    print("place", answer);
    result = reorganise();
    return result == DONE ? step("place", nolpigat_place(image, sizeof image, mask), NOLPIGAT_KIND_OK) : result;
}

/* The part of one card in a mask. */
static uint8_t bit(uint8_t card) {
    return (uint8_t)(0x80 >> card);
}

/* Part 1 for a card that failed. After it the card may be pulled and the new one put in. As the other
 * parts, it passes over what is done already, and so may be called again after LATER. */
static enum step take_out_failed(uint8_t card) {
    uint8_t failed;
    const enum step result = ask(nolpigat_failed(image, sizeof image), &failed);
    if (result == DONE && !(failed & bit(card))) {
        const uint32_t answer = nolpigat_fail(image, sizeof image, card);
        print("fail", answer);
        switch (nolpigat_kind(answer)) {
        case NOLPIGAT_KIND_PLACED: break;
        case NOLPIGAT_KIND_UNPLACED: break; /* the newest placement had it not */
        case NOLPIGAT_KIND_STOPPED: return STOPPED;
        default: return ended(answer);
        }
    }
    return result == DONE ? reorganise() : result;
}

/* Part 1 for a card that still works: its blocks have two copies all the time. */
static enum step take_out_working(uint8_t card) {
    uint8_t mask;
    enum step result = ask_newest(&mask);
    if (result == DONE && mask & bit(card))
        result = place((uint8_t)(mask & ~bit(card)));
    if (result == DONE)
        result = reorganise();
    return result == DONE ? step("withdraw", nolpigat_withdraw(image, sizeof image, card), NOLPIGAT_KIND_OK) : result;
}

/* Part 2: the new card begins empty, and its share of the blocks is brought to it. */
static enum step put_in(uint8_t card) {
    uint8_t working, mask;
    enum step result = ask(nolpigat_working(image, sizeof image), &working);
    if (result == DONE && !(working & bit(card)))
        result = step("fit", nolpigat_fit(image, sizeof image, card), NOLPIGAT_KIND_OK);
    if (result == DONE)
        result = ask_newest(&mask);
    if (result == DONE && !(mask & bit(card)))
        result = place(mask | bit(card));
    return result == DONE ? reorganise() : result;
}

/* ---- the cases, one after the other ---- */

static int ends(const char *name, enum step result, enum step expected) {
    static const char *const words[] = {"done", "later", "stopped", "fault"};
    printf("%s: %s\n", name, words[result]);
    return result == expected;
}

static int is_state(uint32_t kind) {
    const uint32_t answer = nolpigat_state(image, sizeof image);
    print("state", answer);
    return nolpigat_kind(answer) == kind;
}

/* Cards 0, 1 and 2, and records in blocks 0 and 1. */
static int filled(void) {
    return nolpigat_start(image, sizeof image, 0xE0) == 0 && nolpigat_begin(image, sizeof image, 1, 0) == 0 &&
           nolpigat_store(image, sizeof image, 1, 0, 100) == 0 && nolpigat_store(image, sizeof image, 1, 9, 109) == 0 &&
           nolpigat_commit(image, sizeof image, 1) == 0;
}

/* Transaction 3 locks a record that has to move. Until it ends, part 1 is not done and part 2 is
 * refused: the card is still in an active placement. */
static int failed_card(void) {
    if (nolpigat_begin(image, sizeof image, 3, 2) || nolpigat_store(image, sizeof image, 3, 9, 110))
        return 0;
    if (!ends("take out failed card 1", take_out_failed(1), LATER) || !ends("put in too early", put_in(1), FAULT))
        return 0;
    if (nolpigat_commit(image, sizeof image, 3) || !ends("take it out again", take_out_failed(1), DONE))
        return 0;
    return is_state(NOLPIGAT_KIND_UNPROTECTED) && ends("put in card 1", put_in(1), DONE) &&
           is_state(NOLPIGAT_KIND_PROTECTED);
}

/* Transaction 3 was begun at the card: it can be withdrawn when that has ended. */
static int working_card(void) {
    if (nolpigat_begin(image, sizeof image, 3, 2) || !ends("take out working card 2", take_out_working(2), LATER))
        return 0;
    if (nolpigat_commit(image, sizeof image, 3) || !ends("take it out again", take_out_working(2), DONE))
        return 0;
    return ends("put in card 2", put_in(2), DONE);
}

/* Two placements were added and not settled, so that three are active. */
static int three_active(void) {
    return nolpigat_place(image, sizeof image, 0xA0) == 0 && nolpigat_place(image, sizeof image, 0xE0) == 0 &&
           ends("take out working card 1 of three placements", take_out_working(1), DONE) &&
           ends("put in card 1", put_in(1), DONE);
}

int main(void) {
    if (!ends("before the first start", put_in(1), FAULT) || !filled() || !failed_card() || !working_card() ||
        !three_active())
        return 1;
    return !ends("take out failed card 0 of three", take_out_failed(0), DONE) ||
           !ends("take out failed card 1 of two", take_out_failed(1), STOPPED) ||
           !ends("put in after the stop", put_in(0), STOPPED);
}
