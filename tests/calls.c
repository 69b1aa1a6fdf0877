/* Performs the commands on standard input twice, each through its own call and through
 * nolpigat_command, on two images, and writes each from its fields. Exit 1 where an answer, an image
 * or a command's bytes differ. */
#include "call.h"
#include <stdio.h>
#include <string.h>

#define SIZE NOLPIGAT_IMAGE_SIZE

static uint8_t by_call[SIZE], by_command[SIZE];

/* The fields give the same bytes again. */
static int writes_back(const uint8_t *command, const struct fields *fields) {
    uint8_t written[NOLPIGAT_COMMAND_SIZE];
    const uint32_t answer = nolpigat_write_command(written, sizeof written, fields->operation, fields->transaction,
                                                   fields->card, fields->number, fields->value);
    return answer == 0 && memcmp(written, command, sizeof written) == 0;
}

/* Malformed bytes are refused by the reader too, and no call of its own stands for them. */
static int same(const uint8_t *command) {
    const uint32_t malformed = ((uint32_t)NOLPIGAT_KIND_REFUSED << 16) | NOLPIGAT_REFUSAL_MALFORMED;
    const uint32_t answer = nolpigat_command(by_command, SIZE, command, NOLPIGAT_COMMAND_SIZE);
    struct fields fields;
    if (answer == malformed)
        return read_fields(command, NOLPIGAT_COMMAND_SIZE, &fields) == malformed;
    return read_fields(command, NOLPIGAT_COMMAND_SIZE, &fields) == 0 && writes_back(command, &fields) &&
           call(by_call, &fields) == answer;
}

int main(void) {
    uint8_t command[NOLPIGAT_COMMAND_SIZE];
    unsigned long number = 0;

    while (fread(command, sizeof command, 1, stdin) == 1) {
        number++;
        if (!same(command) || memcmp(by_call, by_command, SIZE) != 0) {
            fprintf(stderr, "command %lu differs\n", number);
            return 1;
        }
    }
    return number == 0;
}
