/* A user's program: prints the version that it was compiled with, and a record that it stores. */
#include <nolpigat.h>
#include <stdio.h>
#include <string.h>

int main(void) {
    static uint8_t image[NOLPIGAT_IMAGE_SIZE];
    char version[32], text[NOLPIGAT_ANSWER_TEXT_SIZE];
    sprintf(version, "%d.%d.%d", NOLPIGAT_VERSION_MAJOR, NOLPIGAT_VERSION_MINOR, NOLPIGAT_VERSION_PATCH);
    if (strcmp(version, NOLPIGAT_VERSION) != 0 || nolpigat_start(image, sizeof image, 0xE0) != 0 ||
        nolpigat_begin(image, sizeof image, 1, 0) != 0 || nolpigat_store(image, sizeof image, 1, 9, 1234) != 0)
        return 1;
    nolpigat_answer_text(nolpigat_get(image, sizeof image, 1, 9), text, sizeof text);
    printf("nolpigat %s: %s\n", version, text);
    return 0;
}
