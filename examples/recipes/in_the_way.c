/* In the way: the move list answers none; which transactions are the reason, and what do they lock?
 * docs/RECIPES.md says how this is found. */
#include <nolpigat.h>
#include <stdio.h>
#include <string.h>

#define SIZE NOLPIGAT_IMAGE_SIZE
#define RECORDS 512
#define TRANSACTIONS 15

static uint8_t image[SIZE];
static uint8_t copy[SIZE]; /* what is tried out is done here: the image stays as it is */
static uint8_t list[NOLPIGAT_MOST_MOVES * NOLPIGAT_MOVE_SIZE];

/* An answer that cannot come at this place, or one that this program does not know. */
static int fault(const char *call, uint32_t answer) {
    char text[NOLPIGAT_ANSWER_TEXT_SIZE];
    nolpigat_answer_text(answer, text, sizeof text);
    printf("%s: %s: %s\n", call, text,
           nolpigat_is_refused(answer) ? nolpigat_refusal_text(nolpigat_number(answer)) : "not expected here");
    return 0;
}

/* The copy is the image with no other transaction open than this one, which it gives the home of. 0 if
 * it is not open, or after a fault. */
static int make_copy(uint8_t transaction, uint8_t *home) {
    uint8_t other;
    memcpy(copy, image, SIZE);
    for (other = 1; other <= TRANSACTIONS; other++) {
        const uint32_t answer = nolpigat_home(copy, SIZE, other);
        if (nolpigat_kind(answer) == NOLPIGAT_KIND_NONE) {
            if (other == transaction)
                return 0;
        } else if (nolpigat_kind(answer) != NOLPIGAT_KIND_NUMBER) {
            return fault("home", answer);
        } else if (other == transaction) {
            *home = (uint8_t)nolpigat_number(answer);
        } else {
            const uint32_t ended = nolpigat_rollback(copy, SIZE, other);
            if (ended != NOLPIGAT_KIND_OK)
                return fault("rollback", ended);
        }
    }
    return 1;
}

/* Another transaction on the copy is refused with 7 where a record is locked. */
static int print_locked(uint8_t transaction) {
    const uint8_t probe = transaction == 1 ? 2 : 1;
    const uint32_t count = nolpigat_placement_count(copy, SIZE);
    uint32_t newest, answer;
    uint8_t home = 0;
    uint16_t record;
    if (nolpigat_kind(count) != NOLPIGAT_KIND_NUMBER)
        return fault("placement_count", count);
    newest = nolpigat_placement(copy, SIZE, (uint8_t)(nolpigat_number(count) - 1));
    if (nolpigat_kind(newest) != NOLPIGAT_KIND_NUMBER)
        return fault("placement", newest);
    while (!(nolpigat_number(newest) & 0x80u >> home))
        home++;
    answer = nolpigat_begin(copy, SIZE, probe, home);
    if (answer != NOLPIGAT_KIND_OK)
        return fault("begin", answer);
    for (record = 0; record < RECORDS; record++) {
        answer = nolpigat_get(copy, SIZE, probe, record);
        if (nolpigat_is_refused(answer) && nolpigat_number(answer) == NOLPIGAT_REFUSAL_LOCKED)
            printf("  it locks record %u of block %u\n", (unsigned)record, (unsigned)record / 8);
        else if (nolpigat_kind(answer) != NOLPIGAT_KIND_VALUE && nolpigat_kind(answer) != NOLPIGAT_KIND_ABSENT)
            return fault("get", answer);
    }
    return 1;
}

/* A transaction is in the way exactly if the list is none where only this one is open. */
static int print_those_in_the_way(void) {
    uint8_t transaction, home;
    for (transaction = 1; transaction <= TRANSACTIONS; transaction++) {
        uint32_t answer;
        if (!make_copy(transaction, &home))
            continue;
        answer = nolpigat_move_list(copy, SIZE, list, sizeof list);
        switch (nolpigat_kind(answer)) {
        case NOLPIGAT_KIND_NONE:
            printf("  transaction %u, home card %u: in the way\n", (unsigned)transaction, (unsigned)home);
            if (!print_locked(transaction))
                return 0;
            break;
        case NOLPIGAT_KIND_LISTED:
            printf("  transaction %u, home card %u: not in the way\n", (unsigned)transaction, (unsigned)home);
            break;
        default: return fault("move_list", answer);
        }
    }
    return 1;
}

/* 1 if there are moves to make, 0 if not yet. */
static int ask(void) {
    const uint32_t answer = nolpigat_move_list(image, SIZE, list, sizeof list);
    switch (nolpigat_kind(answer)) {
    case NOLPIGAT_KIND_LISTED:
        printf("%u moves\n", (unsigned)nolpigat_number(answer));
        return 1;
    case NOLPIGAT_KIND_NONE:
        printf("no list of moves yet\n");
        print_those_in_the_way();
        return 0;
    default: return fault("move_list", answer);
    }
}

/* ---- the cases, one after the other ---- */

/* Of cards 0 to 3, block 1 lies on 1 and 2, block 2 on 2 and 3; then cards 2 and 3 are the newest
 * placement. Transactions 2 and 3 lock records of block 1, transaction 4 one of block 2. */
static int locked(void) {
    return nolpigat_start(image, SIZE, 0xF0) == 0 && nolpigat_begin(image, SIZE, 1, 0) == 0 &&
           nolpigat_store(image, SIZE, 1, 8, 100) == 0 && nolpigat_store(image, SIZE, 1, 16, 200) == 0 &&
           nolpigat_commit(image, SIZE, 1) == 0 && nolpigat_place(image, SIZE, 0x30) == 0 &&
           nolpigat_begin(image, SIZE, 2, 2) == 0 && nolpigat_store(image, SIZE, 2, 8, 101) == 0 &&
           nolpigat_begin(image, SIZE, 3, 3) == 0 && nolpigat_store(image, SIZE, 3, 9, 102) == 0 &&
           nolpigat_begin(image, SIZE, 4, 3) == 0 && nolpigat_store(image, SIZE, 4, 16, 201) == 0;
}

int main(void) {
    if (ask() || !locked() || ask())
        return 1;
    /* The owner of 2 is asked to end it, and commits. */
    if (nolpigat_commit(image, SIZE, 2) || ask())
        return 1;
    /* The owner of 3 is gone: somebody rolls it back. */
    if (nolpigat_rollback(image, SIZE, 3) || !ask())
        return 1;
    if (nolpigat_kind(nolpigat_fail(image, SIZE, 2)) != NOLPIGAT_KIND_STOPPED)
        return 1;
    return ask();
}
