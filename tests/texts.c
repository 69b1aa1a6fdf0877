/* Prints the text of every refusal and of one code of each kind, as tests/texts.txt has them. Exit 1
 * where a buffer of any size is overrun, is not ended or has other bytes than the text. */
#include <nolpigat.h>
#include <stdio.h>
#include <string.h>

#define LENT 0x7E

/* With room for size bytes: the text's first ones and 0, and the bytes behind them as lent. */
static int fits(uint32_t answer, const char *text, size_t size) {
    char buffer[2 * NOLPIGAT_ANSWER_TEXT_SIZE];
    const size_t length = strlen(text), put = length < size ? length : size - 1;
    size_t i;
    memset(buffer, LENT, sizeof buffer);
    if (nolpigat_answer_text(answer, buffer, size) != length)
        return 0;
    for (i = size; i < sizeof buffer; i++)
        if (buffer[i] != LENT)
            return 0;
    return size == 0 || (memcmp(buffer, text, put) == 0 && buffer[put] == 0);
}

static int print_answer(uint32_t answer) {
    char text[NOLPIGAT_ANSWER_TEXT_SIZE];
    size_t size;
    if (nolpigat_answer_text(answer, text, sizeof text) >= sizeof text)
        return 0;
    printf("%08X %s\n", (unsigned)answer, text);
    for (size = 0; size <= sizeof text; size++)
        if (!fits(answer, text, size))
            return 0;
    return 1;
}

int main(void) {
    /* A code of each kind, then codes of no answer: a number where the kind has none, one too wide,
     * kinds that there are none of. */
    static const uint32_t codes[] = {
        0x00000, 0x10000, 0x1FFFF, 0x20000, 0x3000C, 0x300FF, 0x40000, 0x50000, 0x60002, 0x70003,
        0x80000, 0x90000, 0xA0200, 0xB0000, 0xB0200, 0xC0000, 0xD0000, 0xD00E0, 0xE5300, 0xF0001,
        0xF0010, 0xF0011, 0xF0012, 0xF0013, 0xF0014, 0x00001, 0x20001, 0x4FFFF, 0x50001, 0x80001, 0x90001, 0xC0001,
        0x30100, 0x60100, 0x70100, 0x100000, 0xFFFFFFFF};
    size_t i;
    uint32_t number;
    for (i = 0; i < sizeof codes / sizeof *codes; i++)
        if (!print_answer(codes[i]))
            return 1;
    for (number = 0; number <= 21; number++)
        printf("refusal %u: %s\n", (unsigned)number, nolpigat_refusal_text(number));
    return nolpigat_is_refused(0xE0010) || !nolpigat_is_refused(0xF0010);
}
