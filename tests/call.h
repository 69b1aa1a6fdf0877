/* The call that a command's bytes ask for, made by its own function. For calls.c and stack.c. */
#ifndef CALL_H
#define CALL_H

#include <nolpigat.h>

/* The fields of a command. */
struct fields {
    uint8_t operation, transaction, card;
    uint16_t number, value;
};

static uint32_t read_fields(const uint8_t *command, size_t length, struct fields *fields) {
    return nolpigat_read_command(command, length, &fields->operation, &fields->transaction, &fields->card,
                                 &fields->number, &fields->value);
}

static uint32_t call(uint8_t *image, const struct fields *fields) {
    const size_t size = NOLPIGAT_IMAGE_SIZE;
    const uint8_t transaction = fields->transaction, card = fields->card, mask = (uint8_t)fields->value;
    /* A block has 8 bits in its call and 12 in a command; what is wider is out of range, as 255. */
    const uint8_t block = (uint8_t)(fields->number < 255 ? fields->number : 255);
    switch (fields->operation) {
    case NOLPIGAT_OPERATION_START: return nolpigat_start(image, size, mask);
    case NOLPIGAT_OPERATION_BEGIN: return nolpigat_begin(image, size, transaction, card);
    case NOLPIGAT_OPERATION_GET: return nolpigat_get(image, size, transaction, fields->number);
    case NOLPIGAT_OPERATION_STORE:
        return nolpigat_store(image, size, transaction, fields->number, fields->value);
    case NOLPIGAT_OPERATION_DELETE: return nolpigat_delete(image, size, transaction, fields->number);
    case NOLPIGAT_OPERATION_COMMIT: return nolpigat_commit(image, size, transaction);
    case NOLPIGAT_OPERATION_ROLLBACK: return nolpigat_rollback(image, size, transaction);
    case NOLPIGAT_OPERATION_FIT: return nolpigat_fit(image, size, card);
    case NOLPIGAT_OPERATION_WITHDRAW: return nolpigat_withdraw(image, size, card);
    case NOLPIGAT_OPERATION_PLACE: return nolpigat_place(image, size, mask);
    case NOLPIGAT_OPERATION_FAIL: return nolpigat_fail(image, size, card);
    case NOLPIGAT_OPERATION_MOVE: return nolpigat_move(image, size, card, block);
    case NOLPIGAT_OPERATION_SETTLE: return nolpigat_settle(image, size);
    case NOLPIGAT_OPERATION_STATE: return nolpigat_state(image, size);
    case NOLPIGAT_OPERATION_LOAD: return nolpigat_load(image, size, card);
    default: return UINT32_MAX; /* no answer's code */
    }
}

#endif
