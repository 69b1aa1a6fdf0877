/* Table: a plant chooses the two cards of each block, and goes back to the store's own choice.
 * docs/RECIPES.md says why in this order. */
#include <nolpigat.h>
#include <stdio.h>

static uint8_t image[NOLPIGAT_IMAGE_SIZE];
static uint8_t list[NOLPIGAT_MOST_MOVES * NOLPIGAT_MOVE_SIZE];

/* How a step or a whole part ended. */
enum step {
    DONE,
    LATER,   /* others are in the way (see in_the_way.c): reorganise again after a while */
    MEND,    /* the table is wrong */
    STOPPED, /* the store has stopped */
    FAULT    /* a fault of this program, or an unknown answer */
};

/* Prints an answer, and of a refusal what it means. */
static void print(const char *call, uint32_t answer) {
    char text[NOLPIGAT_ANSWER_TEXT_SIZE];
    nolpigat_answer_text(answer, text, sizeof text);
    printf("  %s: %s", call, text);
    if (nolpigat_is_refused(answer))
        printf(": %s", nolpigat_refusal_text(nolpigat_number(answer)));
    printf("\n");
}

/* What an answer that is not the wanted one means. */
static enum step ended(uint32_t answer) {
    if (nolpigat_kind(answer) == NOLPIGAT_KIND_NONE)
        return LATER;
    if (!nolpigat_is_refused(answer))
        return FAULT;
    switch (nolpigat_number(answer)) {
    case NOLPIGAT_REFUSAL_RANGE:
    case NOLPIGAT_REFUSAL_PLACEMENT:
    case NOLPIGAT_REFUSAL_GAP:
    case NOLPIGAT_REFUSAL_OVERLAP: return MEND;
    case NOLPIGAT_REFUSAL_STOPPED: return STOPPED;
    case NOLPIGAT_REFUSAL_NOT_HELD:
    case NOLPIGAT_REFUSAL_COPY_LOCKED:
    case NOLPIGAT_REFUSAL_UNSETTLED: return LATER;
    default: return FAULT;
    }
}

/* A call whose one good answer has this kind. */
static enum step step(const char *call, uint32_t answer, uint32_t kind) {
    print(call, answer);
    return nolpigat_kind(answer) == kind ? DONE : ended(answer);
}

/* List, moves, settle: afterwards every block lies where the newest placement has it. */
static enum step reorganise(void) {
    const uint32_t answer = nolpigat_move_list(image, sizeof image, list, sizeof list);
    enum step result = step("move_list", answer, NOLPIGAT_KIND_LISTED);
    uint32_t i;
    for (i = 0; result == DONE && i < nolpigat_number(answer); i++) {
        const uint32_t moved = nolpigat_move(image, sizeof image, list[2 * i], list[2 * i + 1]);
        if (nolpigat_kind(moved) != NOLPIGAT_KIND_COPIES)
            result = step("move", moved, NOLPIGAT_KIND_COPIES);
    }
    return result == DONE ? step("settle", nolpigat_settle(image, sizeof image), NOLPIGAT_KIND_RETIRED) : result;
}

static int is_refused_with(uint32_t answer, uint32_t number) {
    return nolpigat_is_refused(answer) && nolpigat_number(answer) == number;
}

/* The blocks go to the cards of the table. Where three placements are active (10), the older ones are
 * retired before. After LATER only reorganise is called again if the table is placed already. */
static enum step use_table(const uint8_t *lines, size_t length) {
    uint32_t answer = nolpigat_place_by_table(image, sizeof image, lines, length);
    enum step result;
    print("place_by_table", answer);
    if (is_refused_with(answer, NOLPIGAT_REFUSAL_ACTIVE)) {
        result = reorganise();
        if (result != DONE)
            return result;
        answer = nolpigat_place_by_table(image, sizeof image, lines, length);
        print("place_by_table", answer);
    }
    return answer == NOLPIGAT_KIND_OK ? reorganise() : ended(answer);
}

/* The newest placement's mask. */
static enum step ask_newest(uint8_t *mask) {
    const uint32_t count = nolpigat_placement_count(image, sizeof image);
    uint32_t answer = count;
    if (nolpigat_kind(count) == NOLPIGAT_KIND_NUMBER)
        answer = nolpigat_placement(image, sizeof image, (uint8_t)(nolpigat_number(count) - 1));
    *mask = (uint8_t)nolpigat_number(answer);
    return nolpigat_kind(answer) == NOLPIGAT_KIND_NUMBER ? DONE : ended(answer);
}

/* The newest mask again, which place puts on rails. What is begun is first brought to its end, so that
 * one placement is active. 9 says that this one is by rails already. */
static enum step back_to_rails(void) {
    uint8_t mask;
    uint32_t answer;
    enum step result = reorganise();
    if (result == DONE)
        result = ask_newest(&mask);
    if (result != DONE)
        return result;
    answer = nolpigat_place(image, sizeof image, mask);
    print("place", answer);
    if (is_refused_with(answer, NOLPIGAT_REFUSAL_PLACEMENT))
        return DONE;
    return answer == NOLPIGAT_KIND_OK ? reorganise() : ended(answer);
}

/* ---- the cases, one after the other ---- */

/* The forehearth's records, blocks 0 to 9, on cards 1 and 6; all others on 0 and 5. */
static const uint8_t forehearth[] = {0, 9, 1, 6, 10, 63, 0, 5};
static const uint8_t with_gap[] = {0, 9, 1, 6, 11, 63, 0, 5};
static const uint8_t with_overlap[] = {0, 10, 1, 6, 10, 63, 0, 5};
static const uint8_t with_equal_cards[] = {0, 9, 1, 1, 10, 63, 0, 5};
static const uint8_t turned_round[] = {9, 0, 1, 6, 10, 63, 0, 5};

static int ends(const char *name, enum step result, enum step expected) {
    static const char *const words[] = {"done", "later", "mend the table", "stopped", "fault"};
    printf("%s: %s\n", name, words[result]);
    return result == expected;
}

/* From which cards a record of the forehearth and another one are read. */
static int sources(void) {
    uint32_t first, second;
    if (nolpigat_begin(image, sizeof image, 1, 0) != 0)
        return 0;
    first = nolpigat_source(image, sizeof image, 1, 16);
    second = nolpigat_source(image, sizeof image, 1, 160);
    printf("record 16 is read from card %u, record 160 from card %u\n", (unsigned)nolpigat_number(first),
           (unsigned)nolpigat_number(second));
    return nolpigat_commit(image, sizeof image, 1) == 0;
}

/* Eight cards, and records in blocks 2 and 20. */
static int filled(void) {
    return nolpigat_start(image, sizeof image, 0xFF) == 0 && nolpigat_begin(image, sizeof image, 1, 0) == 0 &&
           nolpigat_store(image, sizeof image, 1, 16, 100) == 0 &&
           nolpigat_store(image, sizeof image, 1, 160, 109) == 0 && nolpigat_commit(image, sizeof image, 1) == 0 &&
           sources();
}

static int wrong_tables(void) {
    return ends("a block in no line", use_table(with_gap, sizeof with_gap), MEND) &&
           ends("a block in two lines", use_table(with_overlap, sizeof with_overlap), MEND) &&
           ends("equal cards", use_table(with_equal_cards, sizeof with_equal_cards), MEND) &&
           ends("last block before the first", use_table(turned_round, sizeof turned_round), MEND);
}

/* A record that has to move is locked: the table is placed, and the moves are made later. */
static int in_the_way(void) {
    return nolpigat_begin(image, sizeof image, 2, 0) == 0 && nolpigat_store(image, sizeof image, 2, 16, 101) == 0 &&
           ends("forehearth's table", use_table(forehearth, sizeof forehearth), LATER) &&
           nolpigat_commit(image, sizeof image, 2) == 0 && ends("again", reorganise(), DONE) && sources();
}

/* A failure of a card of the table places the others by rails. The table is placed again when the card
 * has been exchanged. */
static int failure(void) {
    const uint32_t answer = nolpigat_fail(image, sizeof image, 1);
    print("fail", answer);
    return nolpigat_kind(answer) == NOLPIGAT_KIND_PLACED && ends("card 1 fails", reorganise(), DONE) && sources() &&
           nolpigat_fit(image, sizeof image, 1) == 0 &&
           ends("the table again", use_table(forehearth, sizeof forehearth), DONE) && sources();
}

/* The same cards, on rails. */
static int back(void) {
    return ends("back to rails", back_to_rails(), DONE) && sources() && ends("once more", back_to_rails(), DONE);
}

/* Two placements were added and not settled, so that three are active. */
static int three_active(void) {
    return nolpigat_place(image, sizeof image, 0xFE) == 0 && nolpigat_place(image, sizeof image, 0xFF) == 0 &&
           ends("the table, three are active", use_table(forehearth, sizeof forehearth), DONE) && sources();
}

/* Of the table's cards two fail. */
static int stop(void) {
    return nolpigat_kind(nolpigat_fail(image, sizeof image, 0)) == NOLPIGAT_KIND_PLACED &&
           nolpigat_kind(nolpigat_fail(image, sizeof image, 5)) == NOLPIGAT_KIND_STOPPED &&
           ends("after the stop", use_table(forehearth, sizeof forehearth), STOPPED);
}

int main(void) {
    return !(ends("before the first start", use_table(forehearth, sizeof forehearth), FAULT) && filled() &&
             wrong_tables() && in_the_way() && failure() && back() && three_active() && stop());
}
