/* SPDX-License-Identifier: MIT OR Apache-2.0 */
/* What the examples that print a page of a problem file have alike. */
#include <stdio.h>
#include <stdlib.h>
#include "tagetessash.h"

/* a call that writes a page */
typedef uint16_t page_call(const uint8_t *file, size_t file_bytes, uint16_t *state, size_t state_words, uint16_t *work, size_t work_words, uint8_t *out,
    size_t out_bytes, size_t *length);

static void *buffer(const char *program, size_t bytes)
{
    void *made = malloc(bytes);
    if (made == NULL) {
        fprintf(stderr, "%s: no memory\n", program);
        exit(2);
    }
    return made;
}

/* The program `PROGRAM FILE`, which prints the page that the call writes, into room bytes at the most. It exits with 0 if there is a page, with 1 if the file
 * is refused (its X line is printed, and what it means on standard error), with 2 if it is used wrongly. */
static int print_page(const char *program, page_call *call, size_t room, int arguments, char **argument)
{
    /* one byte more than the longest file: with it a longer one is told from it */
    const size_t file_room = TAGETESSASH_FILE_BYTES + 1;
    size_t file_bytes, length;
    uint8_t *file, *page;
    uint16_t *state, *work, number;
    unsigned refusal, place;
    int refused = 0;
    FILE *in;

    if (arguments != 2) {
        fprintf(stderr, "%s FILE\n", program);
        return 2;
    }
    if (tagetessash_version() != TAGETESSASH_VERSION) {
        fprintf(stderr, "%s: the library has version %d, the header %d\n", program, tagetessash_version(), TAGETESSASH_VERSION);
        return 2;
    }
    in = fopen(argument[1], "rb");
    if (in == NULL) {
        perror(argument[1]);
        return 2;
    }
    file = buffer(program, file_room);
    file_bytes = fread(file, 1, file_room, in);
    if (ferror(in)) {
        perror(argument[1]);
        return 2;
    }
    fclose(in);

    /* state and work are lent for the work alone */
    state = buffer(program, TAGETESSASH_STATE_WORDS * sizeof *state);
    work = buffer(program, TAGETESSASH_WORK_WORDS * sizeof *work);
    page = buffer(program, room);
    number = call(file, file_bytes, state, TAGETESSASH_STATE_WORDS, work, TAGETESSASH_WORK_WORDS, page, room, &length);
    if (number != TAGETESSASH_DONE) {
        fprintf(stderr, "%s: %s\n", program, tagetessash_meaning(number));
        return 2;
    }
    if (fwrite(page, 1, length, stdout) != length || fflush(stdout) != 0) {
        perror(program);
        return 2;
    }
    /* an X line ends long before the buffer does */
    if (page[0] == 'X' && sscanf((const char *)page, "X,%u,%u", &refusal, &place) == 2) {
        const char *name = tagetessash_place_name((uint16_t)refusal);
        refused = 1;
        fprintf(stderr, "%s: refused %u at %s %u: %s\n", program, refusal, name == NULL ? "place" : name, place, tagetessash_meaning((uint16_t)refusal));
    }
    free(page);
    free(work);
    free(state);
    free(file);
    return refused;
}
