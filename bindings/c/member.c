/* SPDX-License-Identifier: MIT OR Apache-2.0 */
/* Asks of vectors whether they are in the module of a file's elements: the file is read once, then each vector divided.
 *
 *     member FILE VECTOR..
 *
 * A VECTOR is a file of lines V,coefficient,component,e1,..,en, the greatest term first. Prints for each, as the command member does, a C line for each term
 * of the quotients, a W line for each of the remainder, and M,1 or M,0; for one that is refused its X line, whose place for 23 is the term.
 *
 * Exits with 0 if all are members, with 6 if one is none, with 1 if the file or a vector is refused, with 2 if it is used wrongly. */
#include <stdio.h>
#include <stdlib.h>
#include <string.h>
#include "tagetessash.h"

enum { A_MEMBER = 0, REFUSED = 1, USED_WRONGLY = 2, NO_MEMBER = 6 };

static void *buffer(size_t bytes)
{
    void *made = malloc(bytes);
    if (made == NULL) {
        fprintf(stderr, "member: no memory\n");
        exit(USED_WRONGLY);
    }
    return made;
}

static FILE *opened(const char *name)
{
    FILE *in = fopen(name, "rb");
    if (in == NULL) {
        perror(name);
        exit(USED_WRONGLY);
    }
    return in;
}

static int refused(const char *name, uint16_t number, size_t place)
{
    printf("X,%u,%lu\n", number, (unsigned long)place);
    fprintf(stderr, "%s: refused %u: %s\n", name, number, tagetessash_meaning(number));
    return REFUSED;
}

/* The numbers of a V line as a term: how many there were, 0 for another line. */
static size_t term_of(const char *line, tagetessash_term *term)
{
    size_t count = 0;
    if (*line++ != 'V')
        return 0;
    memset(term, 0, sizeof *term);
    while (*line == ',') {
        char *end;
        unsigned long number = strtoul(line + 1, &end, 10);
        if (end == line + 1 || number > UINT16_MAX || count == 2 + TAGETESSASH_VARIABLES)
            return 0;
        if (count == 0)
            term->coefficient = (uint16_t)number;
        else if (count == 1)
            term->component = (uint16_t)number;
        else if (number > UINT8_MAX)
            return 0;
        else
            term->exponents[count - 2] = (uint16_t)number;
        count++;
        line = end;
    }
    return *line == '\n' ? count : 0;
}

/* The rows of a file of V lines. One term more than a vector may have is enough for the library to refuse it. */
static size_t read_vector(const char *name, size_t variables, uint16_t *rows)
{
    FILE *in = opened(name);
    char line[256];
    size_t count = 0;
    while (count <= TAGETESSASH_VECTOR_TERMS && fgets(line, sizeof line, in) != NULL) {
        tagetessash_term term;
        if (term_of(line, &term) != 2 + variables) {
            fprintf(stderr, "%s: line %lu is no V line\n", name, (unsigned long)count + 1);
            exit(USED_WRONGLY);
        }
        tagetessash_put_row(rows, count++, term);
    }
    fclose(in);
    return count;
}

static size_t print_rows(char letter, const uint16_t *rows, size_t variables)
{
    size_t count = tagetessash_row_count(rows, TAGETESSASH_OUT_WORDS), i, x;
    for (i = 0; i < count; i++) {
        tagetessash_term term = tagetessash_row(rows, i);
        printf("%c,%u,%u", letter, term.coefficient, term.component);
        for (x = 0; x < variables; x++)
            printf(",%u", term.exponents[x]);
        putchar('\n');
    }
    return count;
}

int main(int arguments, char **argument)
{
    const size_t file_room = TAGETESSASH_FILE_BYTES + 1;
    uint8_t *file;
    uint16_t *state, *work, *vector, *quotients, *remainder, number;
    size_t file_bytes, place, variables;
    int ended = A_MEMBER, i;
    FILE *in;

    if (arguments < 3) {
        fprintf(stderr, "member FILE VECTOR..\n");
        return USED_WRONGLY;
    }
    if (tagetessash_version() != TAGETESSASH_VERSION) {
        fprintf(stderr, "member: the library has version %d, the header %d\n", tagetessash_version(), TAGETESSASH_VERSION);
        return USED_WRONGLY;
    }
    file = buffer(file_room);
    in = opened(argument[1]);
    file_bytes = fread(file, 1, file_room, in);
    fclose(in);
    state = buffer(TAGETESSASH_STATE_WORDS * sizeof *state);
    work = buffer(TAGETESSASH_WORK_WORDS * sizeof *work);
    number = tagetessash_read(file, file_bytes, state, TAGETESSASH_STATE_WORDS, work, TAGETESSASH_WORK_WORDS, &place);
    free(file);
    free(work);
    if (number != TAGETESSASH_DONE) {
        free(state);
        return refused(argument[1], number, place);
    }
    variables = tagetessash_variables(state);
    vector = buffer((TAGETESSASH_VECTOR_TERMS + 1) * TAGETESSASH_ROW_WORDS * sizeof *vector);
    quotients = buffer(TAGETESSASH_OUT_WORDS * sizeof *quotients);
    remainder = buffer(TAGETESSASH_OUT_WORDS * sizeof *remainder);
    for (i = 2; i < arguments; i++) {
        size_t words = read_vector(argument[i], variables, vector) * TAGETESSASH_ROW_WORDS;
        number = tagetessash_divide(state, TAGETESSASH_STATE_WORDS, vector, words, quotients, TAGETESSASH_OUT_WORDS, remainder, TAGETESSASH_OUT_WORDS, &place);
        if (number != TAGETESSASH_DONE) {
            ended = refused(argument[i], number, place);
            continue;
        }
        print_rows('C', quotients, variables);
        if (print_rows('W', remainder, variables) == 0) {
            printf("M,1\n");
        } else {
            printf("M,0\n");
            if (ended == A_MEMBER)
                ended = NO_MEMBER;
        }
    }
    free(remainder);
    free(quotients);
    free(vector);
    free(state);
    return ended;
}
