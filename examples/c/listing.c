/* listing [IMAGE]: runs the commands on standard input and prints their listing. They go on from the
 * image in the file, or begin with zeros. An image that an earlier version left is converted first. */
#include <nolpigat.h>
#include <stdio.h>
#include <string.h>

static int is_written(uint32_t answer) {
    return nolpigat_kind(answer) == NOLPIGAT_KIND_WRITTEN;
}

/* The bytes become the image. 0 if they are neither one of this version nor an older one. */
static int take_over(const uint8_t *bytes, size_t length, uint8_t *image) {
    static uint8_t between[NOLPIGAT_VERSION_2_IMAGE_SIZE];
    if (length == NOLPIGAT_IMAGE_SIZE) {
        memcpy(image, bytes, length);
        return 1;
    }
    if (length == NOLPIGAT_VERSION_1_IMAGE_SIZE) {
        if (!is_written(nolpigat_convert_21024(bytes, length, between, sizeof between)))
            return 0;
        bytes = between;
        length = sizeof between;
    }
    return is_written(nolpigat_convert_21216(bytes, length, image, NOLPIGAT_IMAGE_SIZE));
}

/* The file's bytes become the image. 0 if that cannot be. */
static int read_image(const char *name, uint8_t *image) {
    static uint8_t bytes[NOLPIGAT_IMAGE_SIZE + 1];
    FILE *file = fopen(name, "rb");
    size_t length;
    if (!file)
        return 0;
    length = fread(bytes, 1, sizeof bytes, file);
    fclose(file);
    return take_over(bytes, length, image);
}

int main(int argc, char **argv) {
    static uint8_t image[NOLPIGAT_IMAGE_SIZE];
    uint8_t command[NOLPIGAT_COMMAND_SIZE];
    char text[NOLPIGAT_ANSWER_TEXT_SIZE];
    size_t length;
    unsigned long number = 0;

    if (argc > 2 || (argc == 2 && !read_image(argv[1], image))) {
        fprintf(stderr, "usage: listing [IMAGE]; an image has %d bytes, an older one %d or %d\n", NOLPIGAT_IMAGE_SIZE,
                NOLPIGAT_VERSION_2_IMAGE_SIZE, NOLPIGAT_VERSION_1_IMAGE_SIZE);
        return 2;
    }
    /* The last read may give one to four bytes, which the store refuses with 15. */
    while ((length = fread(command, 1, sizeof command, stdin)) > 0) {
        size_t i;
        printf("%lu ", ++number);
        for (i = 0; i < length; i++)
            printf("%02X", command[i]);
        nolpigat_answer_text(nolpigat_command(image, sizeof image, command, length), text, sizeof text);
        printf(" %s\n", text);
    }
    return ferror(stdin) || fflush(stdout) != 0;
}
