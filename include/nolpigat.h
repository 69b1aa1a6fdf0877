/* The replicated record store for callers in C99 and C++: link with libnolpigat.a (x86-64).
 *
 * The store lies in an image of 21,248 bytes that the caller lends with each call. It keeps 512
 * records of 16 bits, each on two of up to eight cards. docs/RULES.md has the rules; for every image
 * length and contents, answer and image after a call are proved to be those of the rules.
 *
 * The caller's part:
 * - lend at least the length that is passed; no pointer may be null, even with length 0;
 * - let the bytes of a command, of a list and of a table's lines lie outside the image, and the two
 *   images of a conversion apart from each other;
 * - while a call that changes an image runs, make no other call on that image.
 * Every length and contents are allowed: another length than 21,248 is refused with 1, a broken
 * control form with 2. An image of zeros is refused with 2 until its first start. A refused call
 * leaves the image as found. A call that is cut short may leave an image with half of its changes:
 * work on a copy where that can happen (docs/RECIPES.md, copy and switch). Images of 21,024 bytes,
 * which versions 1.x left, are lengthened by nolpigat_convert_21024, and images of 21,216 bytes, which
 * versions 2.x left and that converter makes, by nolpigat_convert_21216.
 *
 * No call keeps a pointer, and there is no state but the image, so every function is re-entrant.
 * Calls on different images may run at the same time, and so may calls with a const image on one
 * image. Images, commands, lists and lines are bytes and need no alignment. A call needs at most
 * NOLPIGAT_STACK_SIZE bytes of stack; it allocates no memory and makes no system call.
 *
 * Numbers: cards 0 to 7, blocks 0 to 63, records 0 to 511, transactions 1 to 15, values to store 0 to
 * 65,534. Record r lies in block r / 8. A mask is a set of cards in a byte; card 0 is its highest bit
 * (80 hex). C converts an argument to the parameter's type before the call: card 256 would be card 0.
 *
 * An answer is kind * 65536 + number; ok is 0. The number is 0 where the kind has none. If several
 * refusals apply, the lowest is returned, except that a command's form (15) comes first, and the gaps
 * and overlaps of a table (17, 18) before 10. Refusals 1, 2 and 4 come from every call up to move_list
 * but start, which gives only 1 and 9, and fail and return_card, which do not give 4; each call names
 * its others. The functions behind move_list name all their refusals.
 */
#ifndef NOLPIGAT_H
#define NOLPIGAT_H

#include <stddef.h>
#include <stdint.h>

/* The version of this header and of the archive it describes. */
#define NOLPIGAT_VERSION_MAJOR 3
#define NOLPIGAT_VERSION_MINOR 0
#define NOLPIGAT_VERSION_PATCH 0
#define NOLPIGAT_VERSION "3.0.0"

/* The lengths of an image, of those that versions 2.x and 1.x left, of a command, of an entry of a move
 * list and of a line of a table, in bytes. */
#define NOLPIGAT_IMAGE_SIZE 21248
#define NOLPIGAT_VERSION_2_IMAGE_SIZE 21216
#define NOLPIGAT_VERSION_1_IMAGE_SIZE 21024
#define NOLPIGAT_COMMAND_SIZE 5
#define NOLPIGAT_MOVE_SIZE 2
#define NOLPIGAT_LINE_SIZE 4

/* A move list with room for so many entries is never too short: 8 cards of 64 blocks. */
#define NOLPIGAT_MOST_MOVES 512

/* The most lines of a table: one for each block. */
#define NOLPIGAT_MOST_LINES 64

/* The longest text of nolpigat_answer_text has so many bytes, its final 0 counted. */
#define NOLPIGAT_ANSWER_TEXT_SIZE 19

/* The most bytes of stack that a call needs, its return address counted; not counted is what a dynamic
 * linker takes when it binds memset and memcpy at their first use. It is measured with the archive of
 * this version, not proved; tests/stack.c measures it again. */
#define NOLPIGAT_STACK_SIZE 2560

/* Where the compiler can, it warns of an answer that is not looked at. Define the macro as nothing
 * before including this header to have no such warnings. */
#ifndef NOLPIGAT_MUST_CHECK
#if defined(__cplusplus) && __cplusplus >= 201703L
#define NOLPIGAT_MUST_CHECK [[nodiscard]]
#elif defined(__STDC_VERSION__) && __STDC_VERSION__ >= 202311L
#define NOLPIGAT_MUST_CHECK [[nodiscard]]
#elif defined(__GNUC__)
#define NOLPIGAT_MUST_CHECK __attribute__((warn_unused_result))
#else
#define NOLPIGAT_MUST_CHECK
#endif
#endif

/* Kinds of answers. */
enum {
    NOLPIGAT_KIND_OK = 0,
    NOLPIGAT_KIND_VALUE = 1,       /* the record's value */
    NOLPIGAT_KIND_ABSENT = 2,
    NOLPIGAT_KIND_PLACED = 3,      /* the mask of the placement added */
    NOLPIGAT_KIND_UNPLACED = 4,
    NOLPIGAT_KIND_STOPPED = 5,
    NOLPIGAT_KIND_COPIES = 6,      /* how many were written: 0 to 2 */
    NOLPIGAT_KIND_RETIRED = 7,     /* how many placements: 0 to 3 */
    NOLPIGAT_KIND_PROTECTED = 8,
    NOLPIGAT_KIND_UNPROTECTED = 9,
    NOLPIGAT_KIND_LOAD = 10,       /* how many records: 0 to 512 */
    NOLPIGAT_KIND_LISTED = 11,     /* how many moves: 0 to NOLPIGAT_MOST_MOVES */
    NOLPIGAT_KIND_NONE = 12,
    NOLPIGAT_KIND_NUMBER = 13,     /* what a query asked for */
    NOLPIGAT_KIND_WRITTEN = 14,    /* how many bytes were written */
    NOLPIGAT_KIND_REFUSED = 15     /* the refusal's number, below */
};

/* Numbers of refusals. */
enum {
    NOLPIGAT_REFUSAL_LENGTH = 1,        /* an image has not its length */
    NOLPIGAT_REFUSAL_CONTROL_FORM = 2,  /* control form broken; also before the first start */
    NOLPIGAT_REFUSAL_RANGE = 3,         /* a number is outside its range */
    NOLPIGAT_REFUSAL_STOPPED = 4,       /* stopped: every call but start, fail and return_card */
    NOLPIGAT_REFUSAL_NOT_OPEN = 5,      /* transaction not open */
    NOLPIGAT_REFUSAL_ALREADY_OPEN = 6,  /* begin of an open transaction */
    NOLPIGAT_REFUSAL_LOCKED = 7,        /* some holder's slot is locked by another number */
    NOLPIGAT_REFUSAL_CARD = 8,          /* the call's condition on the card is unmet */
    NOLPIGAT_REFUSAL_PLACEMENT = 9,     /* these cards cannot be a placement */
    NOLPIGAT_REFUSAL_ACTIVE = 10,       /* place: three or more are active */
    NOLPIGAT_REFUSAL_NOT_HELD = 11,     /* move: the card does not hold the block */
    NOLPIGAT_REFUSAL_COPY_LOCKED = 12,  /* move: the card's copy has a locked slot */
    NOLPIGAT_REFUSAL_UNSETTLED = 13,    /* settle: its condition unmet */
    NOLPIGAT_REFUSAL_HOME = 14,         /* withdraw: an open transaction has its home there */
    NOLPIGAT_REFUSAL_MALFORMED = 15,    /* command malformed */
    NOLPIGAT_REFUSAL_LIST = 16,         /* move_list: the list is shorter than needed */
    NOLPIGAT_REFUSAL_GAP = 17,          /* place_by_table: a block is in no line */
    NOLPIGAT_REFUSAL_OVERLAP = 18,      /* place_by_table: a block is in two lines */
    NOLPIGAT_REFUSAL_STALE = 19,        /* return_card: the card is not current */
    NOLPIGAT_REFUSAL_SERIALS = 20       /* place, place_by_table: no serials are left */
};

/* Operations of commands, each with the fields that it has. */
enum {
    NOLPIGAT_OPERATION_START = 0,     /* value: the mask */
    NOLPIGAT_OPERATION_BEGIN = 1,     /* transaction, card: the home */
    NOLPIGAT_OPERATION_GET = 2,       /* transaction, number: the record */
    NOLPIGAT_OPERATION_STORE = 3,     /* transaction, number: the record, value */
    NOLPIGAT_OPERATION_DELETE = 4,    /* transaction, number: the record */
    NOLPIGAT_OPERATION_COMMIT = 5,    /* transaction */
    NOLPIGAT_OPERATION_ROLLBACK = 6,  /* transaction */
    NOLPIGAT_OPERATION_FIT = 7,       /* card */
    NOLPIGAT_OPERATION_WITHDRAW = 8,  /* card */
    NOLPIGAT_OPERATION_PLACE = 9,     /* value: the mask */
    NOLPIGAT_OPERATION_FAIL = 10,     /* card */
    NOLPIGAT_OPERATION_MOVE = 11,     /* card, number: the block */
    NOLPIGAT_OPERATION_SETTLE = 12,
    NOLPIGAT_OPERATION_STATE = 13,
    NOLPIGAT_OPERATION_LOAD = 14      /* card */
};

/* The kind of an answer. */
static inline uint32_t nolpigat_kind(uint32_t answer) {
    return answer >> 16;
}

/* The number of an answer. */
static inline uint32_t nolpigat_number(uint32_t answer) {
    return answer & 0xFFFFu;
}

/* 1 if the answer is a refusal, else 0. Its number is nolpigat_number's. */
static inline int nolpigat_is_refused(uint32_t answer) {
    return nolpigat_kind(answer) == NOLPIGAT_KIND_REFUSED;
}

/* What a refusal's number means, for people: never null, and one text for all unknown numbers. */
static inline const char *nolpigat_refusal_text(uint32_t number) {
    switch (number) {
    case NOLPIGAT_REFUSAL_LENGTH: return "an image has another length than the call takes";
    case NOLPIGAT_REFUSAL_CONTROL_FORM: return "the control part is broken or the store was never started";
    case NOLPIGAT_REFUSAL_RANGE: return "a number is outside its range";
    case NOLPIGAT_REFUSAL_STOPPED: return "the store has stopped";
    case NOLPIGAT_REFUSAL_NOT_OPEN: return "the transaction is not open";
    case NOLPIGAT_REFUSAL_ALREADY_OPEN: return "the transaction is open already";
    case NOLPIGAT_REFUSAL_LOCKED: return "the record is locked by another transaction";
    case NOLPIGAT_REFUSAL_CARD: return "the card is not in the state that the call needs";
    case NOLPIGAT_REFUSAL_PLACEMENT: return "these cards cannot be a placement";
    case NOLPIGAT_REFUSAL_ACTIVE: return "three or more placements are active";
    case NOLPIGAT_REFUSAL_NOT_HELD: return "the card does not hold the block";
    case NOLPIGAT_REFUSAL_COPY_LOCKED: return "the card's copy of the block has a locked record";
    case NOLPIGAT_REFUSAL_UNSETTLED: return "a block still has to move";
    case NOLPIGAT_REFUSAL_HOME: return "the card is the home of an open transaction";
    case NOLPIGAT_REFUSAL_MALFORMED: return "the command is malformed";
    case NOLPIGAT_REFUSAL_LIST: return "the list is too short for the moves";
    case NOLPIGAT_REFUSAL_GAP: return "a block is in no line of the table";
    case NOLPIGAT_REFUSAL_OVERLAP: return "a block is in two lines of the table";
    case NOLPIGAT_REFUSAL_STALE: return "the card's table is stale";
    case NOLPIGAT_REFUSAL_SERIALS: return "no serials are left: too many placements since the start";
    default: return "the refusal is unknown to this version";
    }
}

/* The word of a kind in the listing: never null, and "unknown" for a kind that there is none of. */
static inline const char *nolpigat_kind_text(uint32_t kind) {
    switch (kind) {
    case NOLPIGAT_KIND_OK: return "ok";
    case NOLPIGAT_KIND_VALUE: return "value";
    case NOLPIGAT_KIND_ABSENT: return "absent";
    case NOLPIGAT_KIND_PLACED: return "placed";
    case NOLPIGAT_KIND_UNPLACED: return "unplaced";
    case NOLPIGAT_KIND_STOPPED: return "stopped";
    case NOLPIGAT_KIND_COPIES: return "copies";
    case NOLPIGAT_KIND_RETIRED: return "retired";
    case NOLPIGAT_KIND_PROTECTED: return "protected";
    case NOLPIGAT_KIND_UNPROTECTED: return "unprotected";
    case NOLPIGAT_KIND_LOAD: return "load";
    case NOLPIGAT_KIND_LISTED: return "listed";
    case NOLPIGAT_KIND_NONE: return "none";
    case NOLPIGAT_KIND_NUMBER: return "number";
    case NOLPIGAT_KIND_WRITTEN: return "written";
    case NOLPIGAT_KIND_REFUSED: return "refused";
    default: return "unknown";
    }
}

/* How many numbers a kind's answers may have: 1 where they have no number, 0 for no kind. */
static inline uint32_t nolpigat_number_range(uint32_t kind) {
    switch (kind) {
    case NOLPIGAT_KIND_OK:
    case NOLPIGAT_KIND_ABSENT:
    case NOLPIGAT_KIND_UNPLACED:
    case NOLPIGAT_KIND_STOPPED:
    case NOLPIGAT_KIND_PROTECTED:
    case NOLPIGAT_KIND_UNPROTECTED:
    case NOLPIGAT_KIND_NONE: return 1;
    case NOLPIGAT_KIND_PLACED:
    case NOLPIGAT_KIND_COPIES:
    case NOLPIGAT_KIND_RETIRED: return 256;
    case NOLPIGAT_KIND_VALUE:
    case NOLPIGAT_KIND_LOAD:
    case NOLPIGAT_KIND_LISTED:
    case NOLPIGAT_KIND_NUMBER:
    case NOLPIGAT_KIND_WRITTEN:
    case NOLPIGAT_KIND_REFUSED: return 65536;
    default: return 0;
    }
}

/* The answer in the words of the listing, as "value 1234", "placed E0", "refused 7", "listed 3",
 * "none", "number 2" or "written 21248"; "unknown" and the code where it is no answer's. The text is
 * put into a buffer of size bytes. It is always ended by 0, and cut where it has no room; with size 0
 * the buffer is not touched. Returns the length of the whole text without its 0: it is cut if that is
 * not below size, which does not happen with NOLPIGAT_ANSWER_TEXT_SIZE. */
static inline size_t nolpigat_answer_text(uint32_t answer, char *buffer, size_t size) {
    const uint32_t kind = nolpigat_kind(answer), range = nolpigat_number_range(kind);
    const int known = nolpigat_number(answer) < range;
    const uint32_t base = known && kind == NOLPIGAT_KIND_PLACED ? 16 : 10;
    const char *word = known ? nolpigat_kind_text(kind) : "unknown";
    uint32_t rest = known ? nolpigat_number(answer) : answer;
    int least = known && range == 1 ? 0 : base == 16 ? 2 : 1;
    char tail[12]; /* a space and the digits, from the last one down */
    size_t first = sizeof tail, length = 0;

    for (; rest != 0 || least > 0; rest /= base, least--)
        tail[--first] = "0123456789ABCDEF"[rest % base];
    if (first < sizeof tail)
        tail[--first] = ' ';
    while (*word != 0 || first < sizeof tail) {
        const char next = *word != 0 ? *word++ : tail[first++];
        if (length + 1 < size)
            buffer[length] = next;
        length++;
    }
    if (size > 0)
        buffer[length < size ? length : size - 1] = 0;
    return length;
}

#ifdef __cplusplus
extern "C" {
#endif

/* start: all zero, then the mask's cards work and are the one placement, with serial 1, whose stamp they
 * get. Older contents are not examined.
 * mask: two members at least.
 * Answer: ok. Refused: 1; 9 under two members. */
NOLPIGAT_MUST_CHECK
uint32_t nolpigat_start(uint8_t *image, size_t length, uint8_t mask);

/* begin: the transaction opens.
 * transaction: 1 to 15; home: card 0 to 7, in the newest placement.
 * Answer: ok. Refused: 3; 6 already open; 8 home is not in the newest placement. */
NOLPIGAT_MUST_CHECK
uint32_t nolpigat_begin(uint8_t *image, size_t length, uint8_t transaction, uint8_t home);

/* get: own pending state if the first holder's slot is locked by this transaction, else the
 * committed one. No holder: absent. Takes no lock.
 * transaction: 1 to 15, open; record: 0 to 511.
 * Answer: value with the value, or absent. Refused: 3; 5 not open; 7 locked by another. */
NOLPIGAT_MUST_CHECK
uint32_t nolpigat_get(const uint8_t *image, size_t length, uint8_t transaction, uint16_t record);

/* store: every holder's slot is locked and given the pending value. With no holder, both sites of
 * the newest placement get the block, all else in it zero.
 * transaction: 1 to 15, open; record: 0 to 511; value: 0 to 65,534. Records that have 65,535 from
 * before, committed or pending, are read and kept as others are.
 * Answer: ok. Refused: 3, also for value 65,535; 5 not open; 7 locked by another. */
NOLPIGAT_MUST_CHECK
uint32_t nolpigat_store(uint8_t *image, size_t length, uint8_t transaction, uint16_t record,
                        uint16_t value);

/* delete: if get would say absent, the answer is absent and nothing changes. Else every holder's
 * slot is locked with pending absent.
 * transaction: 1 to 15, open; record: 0 to 511.
 * Answer: ok or absent. Refused: 3; 5 not open; 7 locked by another. */
NOLPIGAT_MUST_CHECK
uint32_t nolpigat_delete(uint8_t *image, size_t length, uint8_t transaction, uint16_t record);

/* commit: slots locked by the transaction, on all working cards, take the pending state and are
 * unlocked. The transaction closes.
 * transaction: 1 to 15, open.
 * Answer: ok. Refused: 3; 5 not open. */
NOLPIGAT_MUST_CHECK
uint32_t nolpigat_commit(uint8_t *image, size_t length, uint8_t transaction);

/* rollback: as commit, but the slots drop the pending state.
 * transaction: 1 to 15, open.
 * Answer: ok. Refused: 3; 5 not open. */
NOLPIGAT_MUST_CHECK
uint32_t nolpigat_rollback(uint8_t *image, size_t length, uint8_t transaction);

/* fit: the card's table is zeroed, its stamp too, a failed mark is cleared and it works.
 * card: 0 to 7, not working, in no active placement.
 * Answer: ok. Refused: 3; 8 the card works or is in an active placement. */
NOLPIGAT_MUST_CHECK
uint32_t nolpigat_fit(uint8_t *image, size_t length, uint8_t card);

/* withdraw: the card's table is zeroed, its stamp too; it no longer works.
 * card: 0 to 7, working, in no active placement, no open transaction's home.
 * Answer: ok. Refused: 3; 8 it does not work or is in an active placement; 14 it is a home. */
NOLPIGAT_MUST_CHECK
uint32_t nolpigat_withdraw(uint8_t *image, size_t length, uint8_t card);

/* place: the mask becomes the newest placement, with sites on two supply rails.
 * mask: two members at least, all working, not the newest mask again; the newest mask again is taken
 * where that placement is by a table, or older than the choice of sites on two supply rails.
 * Answer: ok. Refused: 9 the mask is not such; 10 three or more placements are active; 20 no serials
 * are left, which some 16,777,000 placements since the start use up. */
NOLPIGAT_MUST_CHECK
uint32_t nolpigat_place(uint8_t *image, size_t length, uint8_t mask);

/* fail: the card no longer works and is marked failed; its table is not read again before a fit or a
 * return. If some active placement now has two failed or fewer than two working members, every open
 * transaction is rolled back on the working cards and the store stops. Otherwise transactions begun
 * there are rolled back, and if it was in the newest placement, one without it is added, with sites on
 * two supply rails, also after a table. While the store is stopped, the card is only marked, and the
 * answer is stopped.
 * card: 0 to 7, working.
 * Answer: placed with the mask added, unplaced if none is, or stopped. Refused: 3; 8 not working. It is
 * never refused with 4. */
NOLPIGAT_MUST_CHECK
uint32_t nolpigat_fail(uint8_t *image, size_t length, uint8_t card);

/* move: each site of the newest placement that lacks the block gets a copy of the card's; one that
 * has it keeps its own. The card drops the block unless it is a site.
 * card: 0 to 7, working and holding the block; block: 0 to 63.
 * Answer: copies with the number written. Refused: 3; 8 the card does not work; 11 it does not hold
 * the block; 12 its copy has a locked slot. */
NOLPIGAT_MUST_CHECK
uint32_t nolpigat_move(uint8_t *image, size_t length, uint8_t card, uint8_t block);

/* settle: if every block held on a working card is held by both its newest sites and by no other
 * working card, only the newest placement remains.
 * Answer: retired with the number of placements retired. Refused: 13 the condition is unmet. */
NOLPIGAT_MUST_CHECK
uint32_t nolpigat_settle(uint8_t *image, size_t length);

/* state: what the failure of one card would do.
 * Answer: protected, when failing any one working card would not stop the store, or unprotected. */
NOLPIGAT_MUST_CHECK
uint32_t nolpigat_state(const uint8_t *image, size_t length);

/* load: how many records are committed present in the card's held blocks.
 * card: 0 to 7, working.
 * Answer: load with the number. Refused: 3; 8 the card does not work. */
NOLPIGAT_MUST_CHECK
uint32_t nolpigat_load(const uint8_t *image, size_t length, uint8_t card);

/* command: the call that the bytes of a command ask for: operation (4 bits), transaction (4), card
 * (4), record or block (12), value or mask (16), most significant bit first. Operations 0 to 14 are
 * the calls above in their order. Fields that an operation lacks are zero; a mask is below 256.
 * command, command_length: five bytes, which must not overlap the image.
 * Answer: that of the call. Refused: as the call; 15 for malformed bytes or another length. */
NOLPIGAT_MUST_CHECK
uint32_t nolpigat_command(uint8_t *image, size_t length, const uint8_t *command,
                          size_t command_length);

/* place_by_table: the cards that the table's lines name become the newest placement, in which each
 * block lies on the two cards of its line. It has no command.
 * lines, lines_length: whole lines of four bytes, at most NOLPIGAT_MOST_LINES, outside the image. A
 * line is the first and the last block of a range, 0 to 63 and the first not above the last, and two
 * different working cards, 0 to 7: the first and the second site. Each block is in exactly one line;
 * the lines may come in any order. The cards named may be the newest mask again.
 * Answer: ok. Refused: 3, also for bytes that are not whole lines and for too many; 9 a line's cards
 * are equal or one does not work; 17 a block is in no line, so also where there are no lines; 18 a
 * block is in two; 10 three or more placements are active; 20 as place. 17 and 18 come before 10. */
NOLPIGAT_MUST_CHECK
uint32_t nolpigat_place_by_table(uint8_t *image, size_t length, const uint8_t *lines,
                                 size_t lines_length);

/* return_card: a failed card goes back to a stopped store, with its table as the image now has it. It
 * has no command. It is taken if it is current: the stamp at the end of its table has the serial and the
 * mask of the newest placement, and that mask names the card. What was locked on it is rolled back, and
 * it works again. The store runs again as soon as all members of the newest placement work and no active
 * placement has two failed or fewer than two working members; nolpigat_stopped tells. Every committed
 * record is then as it was at the stop, provided that the card's bytes are those at its failing.
 * card: 0 to 7, failed.
 * Answer: ok, whether the store then runs or not. Refused: 3; 8 the store runs, or the card is not
 * failed; 19 the card is stale. It is never refused with 4. */
NOLPIGAT_MUST_CHECK
uint32_t nolpigat_return_card(uint8_t *image, size_t length, uint8_t card);

/* move_list: the fewest moves that let settle succeed, blocks rising and then cards rising. It has no
 * command, and the image is only read.
 * list, list_length: room for list_length / 2 entries, outside the image. An entry is two bytes, the
 * card that the block moves from and the block: the last two arguments of move. The first entries
 * become the moves; the rest, with the last byte of an odd length, stays as lent. In every answer
 * but listed the whole list stays as lent.
 * Answer: listed with the number of moves, not of bytes; or none, whatever the length of the list,
 * if a block that must still move has a locked record on a card that it would move from. Refused: 16
 * the list is shorter than needed, which one of NOLPIGAT_MOST_MOVES entries never is. */
NOLPIGAT_MUST_CHECK
uint32_t nolpigat_move_list(const uint8_t *image, size_t image_length, uint8_t *list,
                            size_t list_length);

/* convert_21024: an image that versions 1.x left, of NOLPIGAT_VERSION_1_IMAGE_SIZE bytes, becomes one of
 * versions 2.x: the lent one, of NOLPIGAT_VERSION_2_IMAGE_SIZE bytes, becomes its bytes and zeros behind
 * them. The older image is only read. A stopped store is converted too. convert_21216 goes on from there.
 * older, older_length: the older image; image, length: the lent one, of any contents, apart from it.
 * Answer: written with the number of bytes, all of the lent image. Refused: 1 one of the two lengths is
 * not such; 2 the older image's control form is broken by the rules of its version, so also where it is
 * zero. Then the lent image stays as it was. */
NOLPIGAT_MUST_CHECK
uint32_t nolpigat_convert_21024(const uint8_t *older, size_t older_length, uint8_t *image,
                                size_t length);

/* convert_21216: an image that versions 2.x left, of NOLPIGAT_VERSION_2_IMAGE_SIZE bytes, becomes one of
 * this version: the lent one, of NOLPIGAT_IMAGE_SIZE bytes, gets its bytes, serial 4, and the stamp of
 * the newest placement for each working card. The older image is only read. A stopped store is converted
 * too, and stays stopped until a start: cards that had failed before are stale.
 * Arguments, answer and refusals are as of convert_21024, with these two lengths. */
NOLPIGAT_MUST_CHECK
uint32_t nolpigat_convert_21216(const uint8_t *older, size_t older_length, uint8_t *image,
                                size_t length);

/* Queries. They only read, and have no commands. Those up to free_transaction ask the control part
 * and are never refused with 4, so that a panel can ask them after a stop.
 *
 * stopped: whether the store has stopped.
 * Answer: number, 1 if it has, else 0. Refused: 1; 2. */
NOLPIGAT_MUST_CHECK
uint32_t nolpigat_stopped(const uint8_t *image, size_t length);

/* placement_count: how many placements are active.
 * Answer: number, 1 to 4. Refused: 1; 2. */
NOLPIGAT_MUST_CHECK
uint32_t nolpigat_placement_count(const uint8_t *image, size_t length);

/* placement: an active placement. Index 0 is the oldest, the count less one the newest.
 * index: 0 to 3.
 * Answer: number with the placement's mask, or none if no more than index are active. Refused: 1; 2;
 * 3 the index is above 3. */
NOLPIGAT_MUST_CHECK
uint32_t nolpigat_placement(const uint8_t *image, size_t length, uint8_t index);

/* working: the cards that work, also those in no placement.
 * Answer: number with their mask. Refused: 1; 2. */
NOLPIGAT_MUST_CHECK
uint32_t nolpigat_working(const uint8_t *image, size_t length);

/* failed: the cards that are marked failed, from their fail until a fit, a return or a start.
 * Answer: number with their mask, 0 if there is none. Refused: 1; 2. */
NOLPIGAT_MUST_CHECK
uint32_t nolpigat_failed(const uint8_t *image, size_t length);

/* home: whether a transaction is open, and where it was begun.
 * transaction: 1 to 15.
 * Answer: number with its home card, or none if it is not open. Refused: 1; 2; 3. */
NOLPIGAT_MUST_CHECK
uint32_t nolpigat_home(const uint8_t *image, size_t length, uint8_t transaction);

/* free_transaction: the lowest transaction that is not open.
 * Answer: number with the transaction, 0 if all fifteen are open. Refused: 1; 2. */
NOLPIGAT_MUST_CHECK
uint32_t nolpigat_free_transaction(const uint8_t *image, size_t length);

/* source: which card a get with the same arguments reads.
 * transaction: 1 to 15, open; record: 0 to 511.
 * Answer: number with the card, the first holder of the record's block; or none if no card holds it,
 * where get says absent. Refused: exactly as that get: 1; 2; 3; 4; 5; 7. */
NOLPIGAT_MUST_CHECK
uint32_t nolpigat_source(const uint8_t *image, size_t length, uint8_t transaction, uint16_t record);

/* holders: on how many cards the record's block is held.
 * transaction: 1 to 15, open; record: 0 to 511.
 * Answer: number, 0 if no card holds it. Refused: exactly as a get: 1; 2; 3; 4; 5; 7. */
NOLPIGAT_MUST_CHECK
uint32_t nolpigat_holders(const uint8_t *image, size_t length, uint8_t transaction, uint16_t record);

/* write_command: the bytes of a command from its fields, for nolpigat_command.
 * command, command_length: five bytes, which become the command; operation: one of
 * NOLPIGAT_OPERATION_START to _LOAD; transaction and card: 0 to 15; number: the record or block, 0 to
 * 4,095; value: the value, or the mask, 0 to 255. A field that the operation lacks is 0. A number in
 * its field's range may still be outside that of the call, which then refuses it with 3.
 * Answer: ok. Refused: 15 for another length, an unknown operation or a field that is not such; then
 * the bytes stay as lent. */
NOLPIGAT_MUST_CHECK
uint32_t nolpigat_write_command(uint8_t *command, size_t command_length, uint8_t operation,
                                uint8_t transaction, uint8_t card, uint16_t number, uint16_t value);

/* read_command: the fields of a command's bytes; those that the operation lacks become 0.
 * command, command_length: five bytes; the five pointers: different ones, not null, aligned for their
 * types and outside the command.
 * Answer: ok. Refused: 15 where nolpigat_command would refuse with 15; then the five numbers stay as
 * lent. */
NOLPIGAT_MUST_CHECK
uint32_t nolpigat_read_command(const uint8_t *command, size_t command_length, uint8_t *operation,
                               uint8_t *transaction, uint8_t *card, uint16_t *number,
                               uint16_t *value);

#ifdef __cplusplus
}
#endif

#endif
