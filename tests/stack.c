/* Measures the stack that calls need: performs the commands on standard input on a painted stack, each
 * through its own call and through nolpigat_command, and after each of them every function that only
 * reads, and on copies a placing by table, calls that follow a table, both conversions, and a stop with
 * the return of every card. Prints the bytes used. Exit 1 if they are more than NOLPIGAT_STACK_SIZE. Link
 * it with -z now: else the dynamic linker binds memset and memcpy on this stack. */
#include "call.h"
#include <stdio.h>
#include <string.h>
#include <ucontext.h>

#define SIZE NOLPIGAT_IMAGE_SIZE
#define PAINT 0xA5
#define MOST_COMMANDS 20000

static uint8_t commands[MOST_COMMANDS][NOLPIGAT_COMMAND_SIZE];
static size_t number;
static uint8_t by_call[SIZE], by_command[SIZE];
static uint8_t copy[SIZE], older[NOLPIGAT_VERSION_2_IMAGE_SIZE], converted[SIZE];
static uint8_t list[NOLPIGAT_MOST_MOVES * NOLPIGAT_MOVE_SIZE];
static uint8_t lines[NOLPIGAT_MOST_LINES * NOLPIGAT_LINE_SIZE];
static unsigned char stack[1 << 16];
static const unsigned char *base;
static ucontext_t outside, inside;
static uint32_t refused; /* keeps the answers in use */

static void queries(uint8_t transaction, uint16_t record) {
    refused += nolpigat_move_list(by_call, SIZE, list, sizeof list) + nolpigat_stopped(by_call, SIZE) +
               nolpigat_placement_count(by_call, SIZE) + nolpigat_placement(by_call, SIZE, 0) +
               nolpigat_working(by_call, SIZE) + nolpigat_failed(by_call, SIZE) +
               nolpigat_home(by_call, SIZE, transaction) + nolpigat_free_transaction(by_call, SIZE) +
               nolpigat_source(by_call, SIZE, transaction, record) +
               nolpigat_holders(by_call, SIZE, transaction, record);
}

/* A table of one line a block, on the two first working cards. */
static void fill_lines(uint8_t working) {
    uint8_t first = 0, second, block;
    while (first < 7 && !(working & 0x80 >> first))
        first++;
    second = (uint8_t)(first + 1);
    while (second < 7 && !(working & 0x80 >> second))
        second++;
    for (block = 0; block < NOLPIGAT_MOST_LINES; block++) {
        uint8_t *line = lines + block * NOLPIGAT_LINE_SIZE;
        line[0] = line[1] = block;
        line[2] = block % 2 ? first : second;
        line[3] = block % 2 ? second : first;
    }
}

static void tables(const struct fields *fields) {
    memcpy(copy, by_call, SIZE);
    fill_lines(by_call[5]);
    refused += nolpigat_place_by_table(copy, SIZE, lines, sizeof lines);
    refused += nolpigat_move_list(copy, SIZE, list, sizeof list) + nolpigat_settle(copy, SIZE);
    refused += call(copy, fields);
}

/* The image as version 2 had it: without a serial, and without the four bytes of a stamp behind each table.
 * Its first bytes are those of version 1 as long as no table of a plant is placed. */
static void conversions(void) {
    const size_t table = 2624, control = 32, kept = sizeof older - control - 8 * table;
    size_t card;
    memcpy(older, by_call, control);
    memset(older + 23, 0, 3);
    for (card = 0; card < 8; card++)
        memcpy(older + control + card * table, by_call + control + card * (table + 4), table);
    memcpy(older + control + 8 * table, by_call + SIZE - kept, kept);
    refused += nolpigat_convert_21216(older, sizeof older, converted, SIZE);
    refused += nolpigat_convert_21024(older, NOLPIGAT_VERSION_1_IMAGE_SIZE, converted, sizeof older);
}

/* Every card fails, so that the store stops, and comes back. */
static void returns(void) {
    uint8_t card;
    memcpy(copy, by_call, SIZE);
    for (card = 0; card < 8; card++)
        refused += nolpigat_fail(copy, SIZE, card);
    for (card = 0; card < 8; card++)
        refused += nolpigat_return_card(copy, SIZE, card);
}

/* Runs on the painted stack. Its own frame, and those of the functions of this file that make the
 * calls, are counted too: the figure is not too low. */
static void perform_all(void) {
    size_t i;
    base = (const unsigned char *)__builtin_frame_address(0);
    for (i = 0; i < number; i++) {
        uint8_t written[NOLPIGAT_COMMAND_SIZE];
        struct fields fields;
        refused += nolpigat_command(by_command, SIZE, commands[i], NOLPIGAT_COMMAND_SIZE);
        if (read_fields(commands[i], NOLPIGAT_COMMAND_SIZE, &fields) == 0) {
            refused += nolpigat_write_command(written, sizeof written, fields.operation, fields.transaction,
                                              fields.card, fields.number, fields.value);
            refused += call(by_call, &fields);
            queries(fields.transaction, fields.number);
            tables(&fields);
            conversions();
            returns();
        }
    }
}

/* How far below the base the stack was written. */
static size_t used(void) {
    const unsigned char *lowest = stack;
    while (lowest < base && *lowest == PAINT)
        lowest++;
    return (size_t)(base - lowest);
}

int main(void) {
    number = fread(commands, NOLPIGAT_COMMAND_SIZE, MOST_COMMANDS, stdin);
    memset(stack, PAINT, sizeof stack);
    if (number == 0 || getcontext(&inside) != 0)
        return 1;
    inside.uc_stack.ss_sp = stack;
    inside.uc_stack.ss_size = sizeof stack;
    inside.uc_link = &outside;
    makecontext(&inside, perform_all, 0);
    if (swapcontext(&outside, &inside) != 0)
        return 1;
    printf("%lu\n", (unsigned long)used());
    return used() > NOLPIGAT_STACK_SIZE;
}
