/* copy_and_switch FOLDER: a call works on a copy of the image, which takes the image's place when the
 * call has answered; so does a file. What is cut short leaves the last whole image. docs/RECIPES.md
 * says why. */
#define _POSIX_C_SOURCE 200809L
#include <fcntl.h>
#include <nolpigat.h>
#include <stdio.h>
#include <string.h>
#include <unistd.h>

#define SIZE NOLPIGAT_IMAGE_SIZE
#define MOST_NAME 4096

/* In memory that keeps its contents without power, current is one byte of it, written last. */
struct cabinet {
    uint8_t images[2][SIZE];
    volatile uint8_t current;
};

static struct cabinet cabinet;
static char folder[MOST_NAME], file[MOST_NAME + 16], new_file[MOST_NAME + 16];

static const uint8_t *image(void) {
    return cabinet.images[cabinet.current];
}

/* The call of a command. A refused call changes nothing, so the copy is left unused; any other answer
 * is the last thing that happens to the copy, and then it is the image. */
static uint32_t change(const uint8_t *command, size_t length) {
    const uint8_t other = (uint8_t)(1 - cabinet.current);
    uint32_t answer;
    memcpy(cabinet.images[other], image(), SIZE);
    answer = nolpigat_command(cabinet.images[other], SIZE, command, length);
    if (!nolpigat_is_refused(answer))
        cabinet.current = other;
    return answer;
}

/* As change, of a command's fields. */
static uint32_t call(uint8_t operation, uint8_t transaction, uint8_t card, uint16_t number, uint16_t value) {
    uint8_t command[NOLPIGAT_COMMAND_SIZE];
    const uint32_t answer =
        nolpigat_write_command(command, sizeof command, operation, transaction, card, number, value);
    return answer == NOLPIGAT_KIND_OK ? change(command, sizeof command) : answer;
}

/* The image's bytes as a new file. It is on the disk when fsync has returned. */
static int write_new(size_t length) {
    const int descriptor = open(new_file, O_WRONLY | O_CREAT | O_TRUNC, 0666);
    size_t written = 0;
    if (descriptor < 0)
        return 0;
    while (written < length) {
        const ssize_t more = write(descriptor, image() + written, length - written);
        if (more <= 0)
            break;
        written += (size_t)more;
    }
    if (written < length || fsync(descriptor) != 0) {
        close(descriptor);
        return 0;
    }
    return close(descriptor) == 0;
}

/* A rename puts the whole new file in the place of the old one, or does not happen. The folder is
 * synced too, so that the name is on the disk. */
static int save(void) {
    int descriptor, synced;
    if (!write_new(SIZE) || rename(new_file, file) != 0)
        return 0;
    descriptor = open(folder, O_RDONLY);
    if (descriptor < 0)
        return 0;
    synced = fsync(descriptor) == 0;
    return close(descriptor) == 0 && synced;
}

/* The file's bytes go to the copy, which becomes the image if it is whole: stopped is the query that
 * is refused for no other reason. What a panel does with a whole image is the recipe boot. */
static uint32_t load(void) {
    uint8_t *other = cabinet.images[1 - cabinet.current];
    FILE *stream = fopen(file, "rb");
    size_t length = 0; /* no file, or one that is too long: as an empty one */
    uint32_t answer;
    if (stream) {
        length = fread(other, 1, SIZE, stream);
        if (length == SIZE && fgetc(stream) != EOF)
            length = 0;
        fclose(stream);
    }
    answer = nolpigat_stopped(other, length);
    if (nolpigat_kind(answer) == NOLPIGAT_KIND_NUMBER)
        cabinet.current = (uint8_t)(1 - cabinet.current);
    return answer;
}

/* ---- the cases, one after the other ---- */

static int is(const char *name, uint32_t answer, const char *expected) {
    char text[NOLPIGAT_ANSWER_TEXT_SIZE];
    nolpigat_answer_text(answer, text, sizeof text);
    printf("%s: %s\n", name, text);
    return strcmp(text, expected) == 0;
}

/* The record's value, by a transaction that is rolled back. */
static int has(const char *name, uint16_t record, const char *expected) {
    return call(NOLPIGAT_OPERATION_BEGIN, 15, 0, 0, 0) == 0 &&
           is(name, nolpigat_get(image(), SIZE, 15, record), expected) &&
           call(NOLPIGAT_OPERATION_ROLLBACK, 15, 0, 0, 0) == 0;
}

static int stores(uint16_t value) {
    return call(NOLPIGAT_OPERATION_BEGIN, 1, 0, 0, 0) == 0 && call(NOLPIGAT_OPERATION_STORE, 1, 0, 9, value) == 0 &&
           call(NOLPIGAT_OPERATION_COMMIT, 1, 0, 0, 0) == 0;
}

/* The copy is half written when the power goes: the image is the one before the call. */
static int cut_short_call(void) {
    memset(cabinet.images[1 - cabinet.current] + SIZE / 2, 0xFF, SIZE / 2);
    return has("after a call that was cut short", 9, "value 1234");
}

/* The new file is half written when the power goes: the file is the one before. */
static int cut_short_save(void) {
    return stores(5678) && write_new(SIZE / 2) && is("load", load(), "number 0") &&
           has("after a save that was cut short", 9, "value 1234");
}

int main(int argc, char **argv) {
    if (argc != 2 || strlen(argv[1]) >= MOST_NAME) {
        fprintf(stderr, "usage: copy_and_switch FOLDER\n");
        return 2;
    }
    strcpy(folder, argv[1]);
    sprintf(file, "%s/image", folder);
    sprintf(new_file, "%s/image.new", folder);
    if (!is("load without a file", load(), "refused 1") ||
        !is("start", call(NOLPIGAT_OPERATION_START, 0, 0, 0, 0xE0), "ok") || !stores(1234) || !save())
        return 1;
    if (!is("a refused call", call(NOLPIGAT_OPERATION_FIT, 0, 0, 0, 0), "refused 8") ||
        !is("no command", call(15, 0, 0, 0, 0), "refused 15") || !cut_short_call() || !cut_short_save())
        return 1;
    return !stores(5678) || !save() || !is("load", load(), "number 0") || !has("after a save", 9, "value 5678");
}
