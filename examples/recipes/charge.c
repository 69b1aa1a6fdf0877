/* Charge: a cycle of the charger in a transaction, with conflicts and a transaction that is lost.
 * docs/RECIPES.md says why. */
#include <nolpigat.h>
#include <stdio.h>

/* What a charge changes, both or none. */
#define CHARGES 9    /* record: how many charges */
#define KILOGRAMS 17 /* record: their weight */
#define MOST_VALUE 65534
#define TRANSACTIONS 15

static uint8_t image[NOLPIGAT_IMAGE_SIZE];

/* How a step or a whole charge ended. */
enum step {
    DONE,
    LATER,    /* another transaction locks a record: try again after a while */
    ALL_OPEN, /* all transactions are open: try again after a while */
    LOST,     /* the home's card has failed and the transaction was rolled back: begin a new one */
    FULL,     /* the sum is no value */
    STOPPED,  /* the store has stopped */
    FAULT     /* a fault of this program, or an answer that it does not know */
};

/* What is open now, for people: one of these is in the way. */
static void print_open(void) {
    uint8_t transaction;
    for (transaction = 1; transaction <= TRANSACTIONS; transaction++) {
        const uint32_t home = nolpigat_home(image, sizeof image, transaction);
        if (nolpigat_kind(home) == NOLPIGAT_KIND_NUMBER)
            printf("  open: transaction %u, home card %u\n", (unsigned)transaction, (unsigned)nolpigat_number(home));
    }
}

/* What an answer that is not the wanted one means for the charge. */
static enum step ended(const char *call, uint32_t answer) {
    char text[NOLPIGAT_ANSWER_TEXT_SIZE];
    nolpigat_answer_text(answer, text, sizeof text);
    printf("  %s: %s\n", call, text);
    if (!nolpigat_is_refused(answer))
        return FAULT;
    switch (nolpigat_number(answer)) {
    case NOLPIGAT_REFUSAL_STOPPED: return STOPPED;
    case NOLPIGAT_REFUSAL_NOT_OPEN: return LOST;
    case NOLPIGAT_REFUSAL_LOCKED: return LATER;
    default: printf("  %s\n", nolpigat_refusal_text(nolpigat_number(answer))); return FAULT;
    }
}

/* The wanted card if it is in the newest placement, else the first that is: any other is refused as a
 * home (8). */
static enum step choose_home(uint8_t wanted, uint8_t *home) {
    const uint32_t count = nolpigat_placement_count(image, sizeof image);
    uint32_t newest;
    if (nolpigat_kind(count) != NOLPIGAT_KIND_NUMBER)
        return ended("placement_count", count);
    newest = nolpigat_placement(image, sizeof image, (uint8_t)(nolpigat_number(count) - 1));
    if (nolpigat_kind(newest) != NOLPIGAT_KIND_NUMBER)
        return ended("placement", newest);
    for (*home = wanted; !(nolpigat_number(newest) & 0x80u >> *home);)
        *home = (uint8_t)((*home + 1) % 8);
    return DONE;
}

/* Opens the lowest free transaction. */
static enum step open_one(uint8_t wanted, uint8_t *transaction) {
    const uint32_t lowest = nolpigat_free_transaction(image, sizeof image);
    uint8_t home;
    enum step step = choose_home(wanted, &home);
    uint32_t answer;
    if (step != DONE)
        return step;
    if (nolpigat_kind(lowest) != NOLPIGAT_KIND_NUMBER)
        return ended("free_transaction", lowest);
    if (nolpigat_number(lowest) == 0)
        return ALL_OPEN;
    *transaction = (uint8_t)nolpigat_number(lowest);
    answer = nolpigat_begin(image, sizeof image, *transaction, home);
    return answer == NOLPIGAT_KIND_OK ? DONE : ended("begin", answer);
}

/* Adds to a record; an absent one counts as 0. */
static enum step add(uint8_t transaction, uint16_t record, uint16_t amount) {
    const uint32_t old = nolpigat_get(image, sizeof image, transaction, record);
    uint32_t sum = amount, answer;
    if (nolpigat_kind(old) == NOLPIGAT_KIND_VALUE)
        sum += nolpigat_number(old);
    else if (nolpigat_kind(old) != NOLPIGAT_KIND_ABSENT)
        return ended("get", old);
    if (sum > MOST_VALUE)
        return FULL;
    answer = nolpigat_store(image, sizeof image, transaction, record, (uint16_t)sum);
    return answer == NOLPIGAT_KIND_OK ? DONE : ended("store", answer);
}

static enum step commit(uint8_t transaction) {
    const uint32_t answer = nolpigat_commit(image, sizeof image, transaction);
    return answer == NOLPIGAT_KIND_OK ? DONE : ended("commit", answer);
}

/* What cannot be finished is rolled back, so that nobody waits for its locks. */
static enum step give_up(uint8_t transaction, enum step step) {
    const uint32_t answer = nolpigat_rollback(image, sizeof image, transaction);
    if (answer != NOLPIGAT_KIND_OK)
        return ended("rollback", answer);
    if (step == LATER)
        print_open();
    return step;
}

/* One charge. A lost or stopped one is closed already, and its number may be another's by now: it is
 * not used again, not even for a rollback. */
static enum step charge(uint8_t home, uint16_t kilograms) {
    uint8_t transaction = 0;
    enum step step = open_one(home, &transaction);
    if (step != DONE)
        return step;
    step = add(transaction, CHARGES, 1);
    if (step == DONE)
        step = add(transaction, KILOGRAMS, kilograms);
    if (step == DONE)
        step = commit(transaction);
    return step == LATER || step == FULL || step == FAULT ? give_up(transaction, step) : step;
}

/* ---- the cases, one after the other ---- */

static int ends(const char *name, enum step step, enum step expected) {
    static const char *const words[] = {"done", "later", "later, all are open", "lost: begin a new one",
                                        "full", "stopped",  "fault"};
    printf("%s: %s\n", name, words[step]);
    return step == expected;
}

/* The desk holds the weight, then lets it go. */
static int conflict(void) {
    uint8_t desk;
    if (open_one(1, &desk) != DONE || add(desk, KILOGRAMS, 5) != DONE)
        return 0;
    if (!ends("charge while the desk works", charge(0, 360), LATER))
        return 0;
    return commit(desk) == DONE && ends("charge after the desk's commit", charge(0, 360), DONE);
}

/* The charger's home fails. Before it asks again, the desk begins and is given the same number: the
 * charger would work in the desk's transaction if it went on with that number. So whoever calls fail
 * tells those that were begun at the card. */
static int lost(void) {
    uint8_t charger, desk;
    if (open_one(1, &charger) != DONE || add(charger, CHARGES, 1) != DONE ||
        nolpigat_kind(nolpigat_fail(image, sizeof image, 1)) != NOLPIGAT_KIND_PLACED)
        return 0;
    if (!ends("commit after the home failed", commit(charger), LOST))
        return 0;
    if (open_one(0, &desk) != DONE)
        return 0;
    printf("the lost transaction was %u, the desk's new one is %u\n", (unsigned)charger, (unsigned)desk);
    return ends("charge anew", charge(1, 370), DONE) && commit(desk) == DONE;
}

static int all_open(void) {
    uint8_t transactions[TRANSACTIONS];
    int i, done = 1;
    for (i = 0; i < TRANSACTIONS; i++)
        done = done && open_one(0, &transactions[i]) == DONE;
    done = done && ends("charge with all transactions open", charge(0, 380), ALL_OPEN);
    for (i = 0; i < TRANSACTIONS; i++)
        done = done && commit(transactions[i]) == DONE;
    return done;
}

int main(void) {
    if (!ends("charge before the first start", charge(0, 350), FAULT))
        return 1;
    if (nolpigat_start(image, sizeof image, 0xE0) || !ends("charge", charge(0, 350), DONE) || !conflict() || !lost() ||
        !all_open() || !ends("charge above the limit", charge(0, 65000), FULL))
        return 1;
    if (nolpigat_kind(nolpigat_fail(image, sizeof image, 0)) != NOLPIGAT_KIND_STOPPED)
        return 1;
    return !ends("charge after a stop", charge(0, 390), STOPPED);
}
