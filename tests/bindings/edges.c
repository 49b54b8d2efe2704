/* SPDX-License-Identifier: MIT OR Apache-2.0 */
/* What the header says beyond the answers that resolve prints: its numbers, packed rows, null with length 0, buffers one word too short, work areas of many
 * lengths for hybrid, wrong numbers, altered states, levels dropped, degrees, weights, the accessors, the sheet, the Betti page, the minimal numbers, the
 * bidegrees, the Hilbert function. */
#include <stdio.h>
#include <stdlib.h>
#include <string.h>
#include "tagetessash.h"

static int failures;

#define CHECK(what) \
    do { \
        if (!(what)) { \
            printf("line %d: not %s\n", __LINE__, #what); \
            failures++; \
        } \
    } while (0)

/* The header's numbers fit each other: there is no array of a negative length. */
#define HOLDS(name, what) typedef char name[(what) ? 1 : -1]
#define LEVELS (TAGETESSASH_HIGHEST_LEVEL + 1)
HOLDS(a_row, TAGETESSASH_PACKED_AT + TAGETESSASH_PACKED_WORDS == TAGETESSASH_ROW_WORDS);
HOLDS(packed_exponents, TAGETESSASH_VARIABLES * TAGETESSASH_EXPONENT_BITS == TAGETESSASH_PACKED_WORDS * TAGETESSASH_WORD_BITS);
HOLDS(a_levels_counts, TAGETESSASH_COUNTS_WORDS == 1 + TAGETESSASH_LEVEL_VECTORS);
HOLDS(a_levels_rows, TAGETESSASH_LEVEL_WORDS == TAGETESSASH_LEVEL_TERMS * TAGETESSASH_ROW_WORDS);
HOLDS(rows_behind_counts, TAGETESSASH_ROWS_AT == TAGETESSASH_COUNTS_AT + LEVELS * TAGETESSASH_COUNTS_WORDS);
HOLDS(degrees_behind_rows, TAGETESSASH_DEGREES_AT == TAGETESSASH_ROWS_AT + LEVELS * TAGETESSASH_LEVEL_WORDS);
HOLDS(carried_behind_degrees, TAGETESSASH_CARRIED_AT == TAGETESSASH_DEGREES_AT + TAGETESSASH_COMPONENTS);
HOLDS(the_state, TAGETESSASH_STATE_WORDS == TAGETESSASH_CARRIED_AT + LEVELS * TAGETESSASH_LEVEL_VECTORS);
HOLDS(the_work_area, TAGETESSASH_WORK_WORDS == TAGETESSASH_VECTOR_TERMS * TAGETESSASH_ROW_WORDS);
HOLDS(the_least_work_area, TAGETESSASH_LEAST_WORK_WORDS == TAGETESSASH_LEAST_TERMS * TAGETESSASH_ROW_WORDS);
HOLDS(the_trees_work_area, TAGETESSASH_TREE_WORK_WORDS == TAGETESSASH_TREE_TERMS * TAGETESSASH_ROW_WORDS);
HOLDS(a_pages_line, TAGETESSASH_PAGE_LINE_BYTES == (1 + TAGETESSASH_PAGE_COLUMNS) * TAGETESSASH_PAGE_CELL_BYTES + 1);
HOLDS(whole_lines, TAGETESSASH_PAGE_BYTES % TAGETESSASH_PAGE_LINE_BYTES == 0);
HOLDS(lines_of_bidegrees, TAGETESSASH_BIDEGREES_BYTES == TAGETESSASH_PAGE_COLUMNS * TAGETESSASH_LEVEL_VECTORS * TAGETESSASH_BIDEGREES_LINE_BYTES);
HOLDS(a_refusals_lines, TAGETESSASH_HILBERT_BYTES == 29 + TAGETESSASH_VECTOR_TERMS * 62);
HOLDS(lines_of_values, TAGETESSASH_HILBERT_BYTES >= TAGETESSASH_HILBERT_DEGREES * TAGETESSASH_HILBERT_LINE_BYTES);
HOLDS(a_fetched_vector, TAGETESSASH_OUT_WORDS == TAGETESSASH_VECTOR_TERMS * TAGETESSASH_ROW_WORDS);

static const char three[] = "R,7,3,3,1\nT,1,1,1,1,0,0\nT,2,1,1,0,1,0\nT,3,2,1,0,0,1\nE,3\n";
static const char no_basis[] = "R,7,2,1,1\nT,1,1,1,2,0\nT,2,1,1,1,1\nT,2,1,1,0,2\nE,3\n";

static uint16_t *words(size_t count)
{
    uint16_t *buffer = malloc(count * sizeof *buffer);
    if (buffer == NULL)
        exit(2);
    return buffer;
}

/* every word is this one */
static int all(const uint16_t *buffer, size_t count, uint16_t word)
{
    size_t i;
    for (i = 0; i < count; i++)
        if (buffer[i] != word)
            return 0;
    return 1;
}

static void fill(uint16_t *buffer, size_t count, uint16_t word)
{
    size_t i;
    for (i = 0; i < count; i++)
        buffer[i] = word;
}

static uint16_t *state, *work, *tree, *out, *before;
static size_t place;

static uint16_t read_text(const char *text)
{
    return tagetessash_read((const uint8_t *)text, strlen(text), state, TAGETESSASH_STATE_WORDS, work, TAGETESSASH_WORK_WORDS, &place);
}

static uint16_t lift(size_t level, uint16_t way, uint16_t pick)
{
    return tagetessash_lift(state, TAGETESSASH_STATE_WORDS, work, TAGETESSASH_WORK_WORDS, NULL, 0, level, way, pick, &place);
}

static uint16_t fetch(size_t level, size_t vector)
{
    return tagetessash_fetch(state, TAGETESSASH_STATE_WORDS, out, TAGETESSASH_OUT_WORDS, level, vector, &place);
}

/* the number, place 0, and no word of the state changed */
#define REFUSED(call, refusal) \
    do { \
        memcpy(before, state, TAGETESSASH_STATE_WORDS * sizeof *state); \
        place = 99; \
        CHECK((call) == (refusal)); \
        CHECK(place == 0); \
        CHECK(memcmp(before, state, TAGETESSASH_STATE_WORDS * sizeof *state) == 0); \
    } while (0)

/* the row that docs/BUFFERS.md prints, by each accessor and as it stands in memory; the same exponents read from a file */
static void packed_rows(void)
{
    static const uint16_t printed[TAGETESSASH_ROW_WORDS] = { 5, 9, 1800, 1286, 772, 258 };
    uint64_t packed;
    size_t i;
    CHECK(tagetessash_coefficient(printed) == 5 && tagetessash_component(printed) == 9);
    CHECK(tagetessash_packed(printed) == 0x0102030405060708u);
    memcpy(&packed, printed + TAGETESSASH_PACKED_AT, sizeof packed);
    CHECK(packed == tagetessash_packed(printed));
    CHECK(tagetessash_row(printed, 0).coefficient == 5 && tagetessash_row(printed, 0).component == 9);
    for (i = 0; i < TAGETESSASH_VARIABLES; i++)
        CHECK(tagetessash_exponent(printed, i) == i + 1 && tagetessash_row(printed, 0).exponents[i] == i + 1);
    CHECK(read_text("R,7,8,1,9\nT,1,5,9,1,2,3,4,5,6,7,8\nT,1,6,9,0,255,0,0,0,0,0,255\nE,2\n") == TAGETESSASH_DONE);
    CHECK(memcmp(tagetessash_rows(state, 0, 1), printed, sizeof printed) == 0);
    CHECK(tagetessash_packed(tagetessash_rows(state, 0, 1) + TAGETESSASH_ROW_WORDS) == 0x00ff0000000000ffu);
}

/* Each exponent of one term altered to 1: past the last variable there is no accepted basis then, and nothing is changed. */
static void past_the_last_variable(void)
{
    size_t n, i;
    for (n = 1; n <= TAGETESSASH_VARIABLES; n++)
        for (i = 0; i < TAGETESSASH_VARIABLES; i++) {
            size_t bit = (TAGETESSASH_VARIABLES - 1 - i) * TAGETESSASH_EXPONENT_BITS;
            char text[100];
            sprintf(text, "R,7,%d,2,1\nT,1,1,1%.*s\nE,1\n", (int)n, (int)(2 * n), ",0,0,0,0,0,0,0,0");
            CHECK(read_text(text) == TAGETESSASH_DONE && tagetessash_packed(tagetessash_rows(state, 0, 1)) == 0);
            state[TAGETESSASH_ROWS_AT + TAGETESSASH_PACKED_AT + bit / TAGETESSASH_WORD_BITS] = (uint16_t)(1u << bit % TAGETESSASH_WORD_BITS);
            CHECK(tagetessash_exponent(tagetessash_rows(state, 0, 1), i) == 1);
            /* its degree is that of the altered term, so that nothing but the place of the exponent can be wrong */
            state[TAGETESSASH_CARRIED_AT] = 1;
            if (i < n)
                CHECK(lift(1, TAGETESSASH_DIVISION, 0) == TAGETESSASH_DONE && tagetessash_exponent(tagetessash_rows(state, 0, 1), i) == 1);
            else
                REFUSED(lift(1, TAGETESSASH_DIVISION, 0), TAGETESSASH_NO_LEVEL);
        }
}

/* x e_1, x e_2, y e_1, y e_2, e_3, z e_1, z e_2 in components of degrees 1, 2, 2. By hand: the frame of level 1 is x e_3, x e_4, y e_6, x e_6, y e_7, x e_7,
 * that of level 2 y e_4, y e_6; each is a variable times a vector of the level below, so has one degree more than that vector. */
#define MODULE "T,1,1,1,1,0,0\nT,2,1,2,1,0,0\nT,3,1,1,0,1,0\nT,4,1,2,0,1,0\nT,5,1,3,0,0,0\nT,6,1,1,0,0,1\nT,7,1,2,0,0,1\nE,7\n"
static const char with_degrees[] = "R,7,3,1,3\nD,1,2,2\n" MODULE;
static const char without_degrees[] = "R,7,3,1,3\n" MODULE;

static int carries(size_t level, size_t count, const uint16_t *expected)
{
    size_t v;
    if (tagetessash_count(state, level) != count)
        return 0;
    for (v = 1; v <= count; v++)
        if (tagetessash_degree(state, level, v) != expected[v - 1])
            return 0;
    return tagetessash_degree(state, level, 0) == 0 && tagetessash_degree(state, level, count + 1) == 0;
}

static void degrees(void)
{
    static const uint16_t elements[] = { 2, 3, 2, 3, 2, 2, 3 }, first[] = { 3, 4, 3, 3, 4, 4 }, second[] = { 4, 5 };
    static const uint16_t flat[] = { 1, 1, 1, 1, 0, 1, 1 }, flat_first[] = { 2, 2, 2, 2, 2, 2 }, flat_second[] = { 3, 3 };
    static const unsigned ways[5][2] = {{TAGETESSASH_DIVISION, 0}, {TAGETESSASH_HYBRID, TAGETESSASH_GREATEST}, {TAGETESSASH_HYBRID, TAGETESSASH_NEWEST},
        {TAGETESSASH_HYBRID, TAGETESSASH_OLDEST}, {TAGETESSASH_TREE, 0}};
    size_t i, level;
    for (i = 0; i < 5; i++) {
        CHECK(read_text(with_degrees) == TAGETESSASH_DONE && place == 0);
        CHECK(tagetessash_component_degree(state, 1) == 1 && tagetessash_component_degree(state, 2) == 2 && tagetessash_component_degree(state, 3) == 2);
        CHECK(tagetessash_component_degree(state, 0) == 0 && tagetessash_component_degree(state, 4) == 0);
        CHECK(carries(0, 7, elements) && tagetessash_degree(state, 1, 1) == 0);
        for (level = 1; level <= 2; level++)
            CHECK(tagetessash_lift(state, TAGETESSASH_STATE_WORDS, tree, TAGETESSASH_TREE_WORK_WORDS, NULL, 0, level, (uint16_t)ways[i][0],
                      (uint16_t)ways[i][1], &place) == TAGETESSASH_DONE);
        CHECK(carries(0, 7, elements) && carries(1, 6, first) && carries(2, 2, second));
        /* nothing behind them */
        for (level = 0; level < LEVELS; level++)
            CHECK(all(state + TAGETESSASH_CARRIED_AT + level * TAGETESSASH_LEVEL_VECTORS + tagetessash_count(state, level),
                TAGETESSASH_LEVEL_VECTORS - tagetessash_count(state, level), 0));
        CHECK(all(state + TAGETESSASH_DEGREES_AT + 3, TAGETESSASH_COMPONENTS - 3, 0));
    }
    /* without a D line the same vectors, every word of them, and degrees of components that are 0 */
    memcpy(before, state, TAGETESSASH_STATE_WORDS * sizeof *state);
    CHECK(read_text(without_degrees) == TAGETESSASH_DONE);
    CHECK(lift(1, TAGETESSASH_DIVISION, 0) == TAGETESSASH_DONE && lift(2, TAGETESSASH_DIVISION, 0) == TAGETESSASH_DONE);
    CHECK(memcmp(before, state, TAGETESSASH_DEGREES_AT * sizeof *state) == 0);
    CHECK(tagetessash_component_degree(state, 1) == 0 && tagetessash_component_degree(state, 2) == 0 && tagetessash_component_degree(state, 3) == 0);
    CHECK(carries(0, 7, flat) && carries(1, 6, flat_first) && carries(2, 2, flat_second));
    /* lifting a level again drops what the one above it carried */
    CHECK(lift(1, TAGETESSASH_DIVISION, 0) == TAGETESSASH_DONE && carries(1, 6, flat_first) && tagetessash_degree(state, 2, 1) == 0);
    CHECK(all(state + TAGETESSASH_CARRIED_AT + 2 * TAGETESSASH_LEVEL_VECTORS, TAGETESSASH_LEVEL_VECTORS, 0));
}

/* One word of the degrees altered: there is no accepted basis, for lifting and for fetching. What stands behind them, or at a level that is not complete, is
 * not looked at. */
static void altered_degrees(void)
{
    static const size_t counts[] = { 7, 6, 2 };
    size_t level, v;
    uint16_t *word;
    for (level = 0; level < 3; level++)
        for (v = 1; v <= counts[level]; v++) {
            CHECK(read_text(with_degrees) == TAGETESSASH_DONE);
            CHECK(lift(1, TAGETESSASH_DIVISION, 0) == TAGETESSASH_DONE && lift(2, TAGETESSASH_DIVISION, 0) == TAGETESSASH_DONE);
            CHECK(fetch(1, 1) == TAGETESSASH_DONE && fetch(2, 1) == TAGETESSASH_DONE);
            word = state + TAGETESSASH_CARRIED_AT + level * TAGETESSASH_LEVEL_VECTORS + v - 1;
            CHECK(*word == tagetessash_degree(state, level, v));
            ++*word;
            REFUSED(lift(1, TAGETESSASH_DIVISION, 0), TAGETESSASH_NO_LEVEL);
            REFUSED(fetch(1, 1), TAGETESSASH_NO_LEVEL);
            *word = (uint16_t)(*word - 2);
            REFUSED(lift(3, TAGETESSASH_HYBRID, TAGETESSASH_NEWEST), TAGETESSASH_NO_LEVEL);
            REFUSED(fetch(2, 1), TAGETESSASH_NO_LEVEL);
            ++*word;
            CHECK(lift(1, TAGETESSASH_DIVISION, 0) == TAGETESSASH_DONE);
        }
    /* a component's degree, with the elements' or without them; one above 255 */
    CHECK(read_text(with_degrees) == TAGETESSASH_DONE);
    state[TAGETESSASH_DEGREES_AT + 2] = 255;
    REFUSED(lift(1, TAGETESSASH_DIVISION, 0), TAGETESSASH_NO_LEVEL);
    state[TAGETESSASH_CARRIED_AT + 4] = 255;
    CHECK(lift(1, TAGETESSASH_DIVISION, 0) == TAGETESSASH_DONE && tagetessash_component_degree(state, 3) == 255 && tagetessash_degree(state, 0, 5) == 255);
    state[TAGETESSASH_DEGREES_AT + 2] = 256;
    state[TAGETESSASH_CARRIED_AT + 4] = 256;
    REFUSED(lift(1, TAGETESSASH_DIVISION, 0), TAGETESSASH_NO_LEVEL);
    /* behind the components, behind the elements, at a level that is not complete: lifting writes zeros there */
    CHECK(read_text(with_degrees) == TAGETESSASH_DONE);
    state[TAGETESSASH_DEGREES_AT + 3] = 9;
    state[TAGETESSASH_CARRIED_AT + 7] = 9;
    state[TAGETESSASH_CARRIED_AT + 5 * TAGETESSASH_LEVEL_VECTORS] = 9;
    CHECK(lift(1, TAGETESSASH_DIVISION, 0) == TAGETESSASH_DONE);
    CHECK(state[TAGETESSASH_DEGREES_AT + 3] == 0 && state[TAGETESSASH_CARRIED_AT + 7] == 0);
    CHECK(state[TAGETESSASH_CARRIED_AT + 5 * TAGETESSASH_LEVEL_VECTORS] == 0);
}

/* 18 at line 2, after the line's shape; what has not D's shape, a second D line and a later one are 1. 24 behind R or D likewise; D behind G is 1. */
static void d_and_g_lines(void)
{
    static const struct {
        const char *lines;
        uint16_t number;
        size_t place;
    } files[] = {
        { "D,0,255\nT,1,1,1,1\nE,1\n", TAGETESSASH_DONE, 0 },
        { "D,256,0\nT,1,1,1,1\nE,1\n", TAGETESSASH_BAD_DEGREE, 2 },
        { "D,0,65535\n", TAGETESSASH_BAD_DEGREE, 2 },
        { "D,0,65536\nT,1,1,1,1\nE,1\n", TAGETESSASH_BAD_LINE, 2 },
        { "D,256\nT,1,1,1,1\nE,1\n", TAGETESSASH_BAD_LINE, 2 },
        { "D,0,0,0\nT,1,1,1,1\nE,1\n", TAGETESSASH_BAD_LINE, 2 },
        { "D\nT,1,1,1,1\nE,1\n", TAGETESSASH_BAD_LINE, 2 },
        { "D,0,01\nT,1,1,1,1\nE,1\n", TAGETESSASH_BAD_LINE, 2 },
        { "D,0,256", TAGETESSASH_BAD_LINE, 2 },
        { "D,0,1\nD,0,1\nT,1,1,1,1\nE,1\n", TAGETESSASH_BAD_LINE, 3 },
        { "T,1,1,1,1\nD,0,1\nE,1\n", TAGETESSASH_BAD_LINE, 3 },
        { "D,0,1\nT,1,1,1,1\nE,2\n", TAGETESSASH_BAD_COUNT, 4 },
        { "G,0,15\nT,1,1,1,1\nE,1\n", TAGETESSASH_DONE, 0 },
        { "D,0,255\nG,15,0\nT,1,1,1,1\nE,1\n", TAGETESSASH_DONE, 0 },
        { "G,16,0\nT,1,1,1,1\nE,1\n", TAGETESSASH_BAD_WEIGHT, 2 },
        { "D,0,0\nG,0,65535\n", TAGETESSASH_BAD_WEIGHT, 3 },
        { "D,0,256\nG,0,16\n", TAGETESSASH_BAD_DEGREE, 2 },
        { "G,0,65536\nT,1,1,1,1\nE,1\n", TAGETESSASH_BAD_LINE, 2 },
        { "G,16\nT,1,1,1,1\nE,1\n", TAGETESSASH_BAD_LINE, 2 },
        { "G,1,0,1,0\nT,1,1,1,1\nE,1\n", TAGETESSASH_BAD_LINE, 2 },
        { "G,1,0", TAGETESSASH_BAD_LINE, 2 },
        { "G,1,0\nD,0,1\nT,1,1,1,1\nE,1\n", TAGETESSASH_BAD_LINE, 3 },
        { "G,1,0\nG,1,0\nT,1,1,1,1\nE,1\n", TAGETESSASH_BAD_LINE, 3 },
        { "T,1,1,1,1\nG,1,0\nE,1\n", TAGETESSASH_BAD_LINE, 3 },
        { "D,0,1\nG,1,0\nT,1,1,1,1\nE,2\n", TAGETESSASH_BAD_COUNT, 5 },
    };
    char text[100];
    size_t i;
    for (i = 0; i < sizeof files / sizeof *files; i++) {
        sprintf(text, "R,7,1,1,2\n%s", files[i].lines);
        fill(state, TAGETESSASH_STATE_WORDS, 5);
        fill(work, TAGETESSASH_WORK_WORDS, 5);
        CHECK(read_text(text) == files[i].number && place == files[i].place);
        CHECK(all(work, TAGETESSASH_WORK_WORDS, 0));
        if (files[i].number != TAGETESSASH_DONE)
            CHECK(all(state, TAGETESSASH_STATE_WORDS, 0));
    }
    CHECK(strcmp(tagetessash_meaning(TAGETESSASH_BAD_DEGREE), "a component's degree is above 255") == 0);
    CHECK(strcmp(tagetessash_place_name(TAGETESSASH_BAD_DEGREE), "line") == 0 && tagetessash_place_name(10) == NULL);
    CHECK(strcmp(tagetessash_meaning(TAGETESSASH_BAD_WEIGHT), "a variable's weight is above 15") == 0);
    CHECK(strcmp(tagetessash_place_name(TAGETESSASH_BAD_WEIGHT), "line") == 0);
}

static void null_with_length_0(void)
{
    fill(state, TAGETESSASH_STATE_WORDS, 5);
    fill(work, TAGETESSASH_WORK_WORDS, 5);
    CHECK(tagetessash_read(NULL, 0, state, TAGETESSASH_STATE_WORDS, work, TAGETESSASH_WORK_WORDS, &place) == TAGETESSASH_BAD_LINE);
    CHECK(place == 1);
    CHECK(all(state, TAGETESSASH_STATE_WORDS, 0) && all(work, TAGETESSASH_WORK_WORDS, 0));
    CHECK(tagetessash_read(NULL, 0, NULL, 0, NULL, 0, &place) == TAGETESSASH_SHORT_BUFFER && place == 0);
    CHECK(tagetessash_lift(NULL, 0, NULL, 0, NULL, 0, 1, TAGETESSASH_TREE, 0, &place) == TAGETESSASH_SHORT_BUFFER && place == 0);
    CHECK(tagetessash_fetch(NULL, 0, NULL, 0, 1, 1, &place) == TAGETESSASH_SHORT_BUFFER && place == 0);
    CHECK(tagetessash_divide(NULL, 0, NULL, 0, NULL, 0, NULL, 0, &place) == TAGETESSASH_SHORT_BUFFER && place == 0);
}

static void without_a_basis(void)
{
    fill(state, TAGETESSASH_STATE_WORDS, 0);
    CHECK(tagetessash_complete(state) == 0 && tagetessash_count(state, 0) == 0 && tagetessash_rows(state, 0, 1) == NULL);
    CHECK(tagetessash_component_degree(state, 1) == 0 && tagetessash_degree(state, 0, 1) == 0);
    REFUSED(lift(1, TAGETESSASH_DIVISION, 0), TAGETESSASH_NO_LEVEL);
    REFUSED(fetch(1, 1), TAGETESSASH_NO_LEVEL);
    fill(state, TAGETESSASH_STATE_WORDS, 65535);
    REFUSED(lift(1, TAGETESSASH_DIVISION, 0), TAGETESSASH_NO_LEVEL);
    REFUSED(fetch(1, 1), TAGETESSASH_NO_LEVEL);
}

static void one_word_short(void)
{
    const uint8_t *file = (const uint8_t *)three;
    size_t bytes = strlen(three);
    CHECK(read_text(three) == TAGETESSASH_DONE);
    fill(work, TAGETESSASH_WORK_WORDS, 5);
    fill(tree, TAGETESSASH_TREE_WORK_WORDS, 5);
    fill(out, TAGETESSASH_OUT_WORDS, 5);
    REFUSED(tagetessash_read(file, bytes, state, TAGETESSASH_STATE_WORDS - 1, work, TAGETESSASH_WORK_WORDS, &place), TAGETESSASH_SHORT_BUFFER);
    REFUSED(tagetessash_read(file, bytes, state, TAGETESSASH_STATE_WORDS, work, TAGETESSASH_WORK_WORDS - 1, &place), TAGETESSASH_SHORT_BUFFER);
    REFUSED(tagetessash_lift(state, TAGETESSASH_STATE_WORDS, work, TAGETESSASH_WORK_WORDS - 1, NULL, 0, 1, TAGETESSASH_DIVISION, 0, &place),
        TAGETESSASH_SHORT_BUFFER);
    REFUSED(tagetessash_lift(state, TAGETESSASH_STATE_WORDS, tree, TAGETESSASH_TREE_WORK_WORDS - 1, NULL, 0, 1, TAGETESSASH_TREE, 0, &place),
        TAGETESSASH_SHORT_BUFFER);
    REFUSED(tagetessash_fetch(state, TAGETESSASH_STATE_WORDS, out, TAGETESSASH_OUT_WORDS - 1, 1, 1, &place), TAGETESSASH_SHORT_BUFFER);
    CHECK(all(work, TAGETESSASH_WORK_WORDS, 5) && all(tree, TAGETESSASH_TREE_WORK_WORDS, 5) && all(out, TAGETESSASH_OUT_WORDS, 5));
    CHECK(tagetessash_lift(state, TAGETESSASH_STATE_WORDS, tree, TAGETESSASH_TREE_WORK_WORDS, NULL, 0, 1, TAGETESSASH_TREE, 0, &place) == TAGETESSASH_DONE);
    CHECK(all(tree, TAGETESSASH_TREE_WORK_WORDS, 0));
}

/* Hybrid in work areas of many lengths (request A11). Of x + y^n + .. + y, y the working value has n terms by every pick code, once x y is gone, and the
 * vector n + 2: with 33 for n it is 14 in room for 32 terms, and done in room for 33. */
static void rooms(void)
{
#define ROWS(terms) ((terms) * TAGETESSASH_ROW_WORDS)
    static const size_t lengths[] = { 0, 1, ROWS(TAGETESSASH_LEAST_TERMS - 1), TAGETESSASH_LEAST_WORK_WORDS - 1, TAGETESSASH_LEAST_WORK_WORDS,
        TAGETESSASH_LEAST_WORK_WORDS + 1, ROWS(TAGETESSASH_LEAST_TERMS + 1) - 1, ROWS(TAGETESSASH_LEAST_TERMS + 1), ROWS(TAGETESSASH_LEAST_TERMS + 2) - 1,
        TAGETESSASH_WORK_WORDS - 1, TAGETESSASH_WORK_WORDS, TAGETESSASH_WORK_WORDS + 1, TAGETESSASH_TREE_WORK_WORDS + 5 };
    uint16_t *read = words(TAGETESSASH_STATE_WORDS), *area, pick, number;
    size_t n, i;
    for (n = TAGETESSASH_LEAST_TERMS; n <= TAGETESSASH_LEAST_TERMS + 1; n++) {
        char text[1000], *at = text;
        at += sprintf(at, "R,7,2,1,1\nT,1,1,1,1,0\n");
        for (i = n; i != 0; i--)
            at += sprintf(at, "T,1,1,1,0,%d\n", (int)i);
        sprintf(at, "T,2,1,1,0,1\nE,%d\n", (int)n + 2);
        CHECK(read_text(text) == TAGETESSASH_DONE);
        memcpy(read, state, TAGETESSASH_STATE_WORDS * sizeof *state);
        for (pick = TAGETESSASH_GREATEST; pick <= TAGETESSASH_OLDEST; pick++) {
            memcpy(state, read, TAGETESSASH_STATE_WORDS * sizeof *state);
            CHECK(lift(1, TAGETESSASH_HYBRID, pick) == TAGETESSASH_DONE && tagetessash_terms(state, 1, 1) == n + 2);
            memcpy(before, state, TAGETESSASH_STATE_WORDS * sizeof *state);
            for (i = 0; i < sizeof lengths / sizeof *lengths; i++) {
                area = words(lengths[i] + (lengths[i] == 0));
                fill(area, lengths[i], 5);
                memcpy(state, read, TAGETESSASH_STATE_WORDS * sizeof *state);
                place = 99;
                number = tagetessash_lift(state, TAGETESSASH_STATE_WORDS, area, lengths[i], NULL, 0, 1, TAGETESSASH_HYBRID, pick, &place);
                if (lengths[i] < TAGETESSASH_LEAST_WORK_WORDS) {
                    CHECK(number == TAGETESSASH_SHORT_BUFFER && place == 0 && all(area, lengths[i], 5));
                    CHECK(memcmp(state, read, TAGETESSASH_STATE_WORDS * sizeof *state) == 0);
                } else if (lengths[i] < ROWS(n)) {
                    CHECK(number == TAGETESSASH_TERM_LIMIT && place == 1 && all(area, lengths[i], 0) && all(state, TAGETESSASH_STATE_WORDS, 0));
                } else {
                    CHECK(number == TAGETESSASH_DONE && place == 0 && all(area, lengths[i], 0));
                    CHECK(memcmp(state, before, TAGETESSASH_STATE_WORDS * sizeof *state) == 0);
                }
                free(area);
            }
        }
    }
    free(read);
    /* 16 before 11 and 12, in the shortest area these; a way that there is not is a pick code of hybrid that there is not */
    fill(state, TAGETESSASH_STATE_WORDS, 0);
    area = words(TAGETESSASH_LEAST_WORK_WORDS);
    fill(area, TAGETESSASH_LEAST_WORK_WORDS, 5);
#define LIFT(length, way, pick) tagetessash_lift(state, TAGETESSASH_STATE_WORDS, area, length, NULL, 0, 1, way, pick, &place)
    REFUSED(LIFT(TAGETESSASH_LEAST_WORK_WORDS - 1, TAGETESSASH_HYBRID, TAGETESSASH_GREATEST), TAGETESSASH_SHORT_BUFFER);
    REFUSED(LIFT(TAGETESSASH_LEAST_WORK_WORDS, TAGETESSASH_HYBRID, TAGETESSASH_GREATEST), TAGETESSASH_NO_LEVEL);
    CHECK(read_text(three) == TAGETESSASH_DONE);
    REFUSED(LIFT(TAGETESSASH_LEAST_WORK_WORDS - 1, TAGETESSASH_HYBRID, 4), TAGETESSASH_SHORT_BUFFER);
    REFUSED(LIFT(TAGETESSASH_LEAST_WORK_WORDS, TAGETESSASH_HYBRID, 4), TAGETESSASH_BAD_NUMBER);
    REFUSED(LIFT(TAGETESSASH_LEAST_WORK_WORDS, 3, TAGETESSASH_GREATEST), TAGETESSASH_BAD_NUMBER);
    REFUSED(LIFT(TAGETESSASH_LEAST_WORK_WORDS, TAGETESSASH_DIVISION, 0), TAGETESSASH_SHORT_BUFFER);
    REFUSED(LIFT(TAGETESSASH_LEAST_WORK_WORDS, TAGETESSASH_TREE, 0), TAGETESSASH_SHORT_BUFFER);
    CHECK(all(area, TAGETESSASH_LEAST_WORK_WORDS, 5));
    free(area);
}

/* -x - y, -y modulo p: the vector x e_2 - y e_1 + y e_2 by every way; p - 1 does not fit fifteen bits */
static void large_prime(unsigned p)
{
    static const unsigned ways[5][2] = {{TAGETESSASH_DIVISION, 0}, {TAGETESSASH_HYBRID, TAGETESSASH_GREATEST}, {TAGETESSASH_HYBRID, TAGETESSASH_NEWEST},
        {TAGETESSASH_HYBRID, TAGETESSASH_OLDEST}, {TAGETESSASH_TREE, 0}};
    char text[200];
    size_t i;
    sprintf(text, "R,%u,2,1,1\nT,1,%u,1,1,0\nT,1,%u,1,0,1\nT,2,%u,1,0,1\nE,3\n", p, p - 1, p - 1, p - 1);
    for (i = 0; i < 5; i++) {
        CHECK(read_text(text) == TAGETESSASH_DONE && tagetessash_prime(state) == p);
        CHECK(tagetessash_row(tagetessash_rows(state, 0, 2), 0).coefficient == p - 1);
        CHECK(tagetessash_lift(
                  state, TAGETESSASH_STATE_WORDS, tree, TAGETESSASH_TREE_WORK_WORDS, NULL, 0, 1, (uint16_t)ways[i][0], (uint16_t)ways[i][1], &place)
            == TAGETESSASH_DONE);
        CHECK(fetch(1, 1) == TAGETESSASH_DONE && tagetessash_row_count(out, TAGETESSASH_OUT_WORDS) == 3);
        CHECK(tagetessash_row(out, 0).coefficient == 1 && tagetessash_row(out, 1).coefficient == p - 1 && tagetessash_row(out, 2).coefficient == 1);
        CHECK(tagetessash_row(out, 1).component == 1 && tagetessash_row(out, 1).exponents[1] == 1);
    }
}

static void levels_and_accessors(void)
{
    size_t level, v, i;
    CHECK(read_text(three) == TAGETESSASH_DONE && place == 0);
    CHECK(tagetessash_prime(state) == 7 && tagetessash_variables(state) == 3 && tagetessash_order(state) == 3 && tagetessash_components(state) == 1);
    CHECK(tagetessash_complete(state) == 1 && tagetessash_count(state, 0) == 3 && tagetessash_level_terms(state, 0) == 3);
    CHECK(tagetessash_row(tagetessash_rows(state, 0, 3), 0).coefficient == 2 && tagetessash_row(tagetessash_rows(state, 0, 3), 0).exponents[2] == 1);
    REFUSED(lift(2, TAGETESSASH_DIVISION, 0), TAGETESSASH_NO_LEVEL);
    REFUSED(lift(0, TAGETESSASH_DIVISION, 0), TAGETESSASH_BAD_NUMBER);
    REFUSED(lift(10, TAGETESSASH_DIVISION, 0), TAGETESSASH_BAD_NUMBER);
    REFUSED(lift(1, TAGETESSASH_HYBRID, 0), TAGETESSASH_BAD_NUMBER);
    REFUSED(lift(1, TAGETESSASH_HYBRID, 4), TAGETESSASH_BAD_NUMBER);
    REFUSED(lift(1, 3, TAGETESSASH_GREATEST), TAGETESSASH_BAD_NUMBER);
    CHECK(lift(1, TAGETESSASH_HYBRID, TAGETESSASH_NEWEST) == TAGETESSASH_DONE);
    CHECK(lift(2, TAGETESSASH_HYBRID, TAGETESSASH_OLDEST) == TAGETESSASH_DONE);
    CHECK(tagetessash_complete(state) == 3 && tagetessash_count(state, 1) == 3 && tagetessash_count(state, 2) == 1);
    CHECK(tagetessash_count(state, 3) == 0 && tagetessash_terms(state, 2, 2) == 0 && tagetessash_terms(state, 2, 0) == 0);
    for (level = 1; level <= 2; level++)
        for (v = 1; v <= tagetessash_count(state, level); v++) {
            size_t terms = tagetessash_terms(state, level, v);
            fill(out, TAGETESSASH_OUT_WORDS, 5);
            CHECK(fetch(level, v) == TAGETESSASH_DONE && place == 0);
            CHECK(terms != 0 && tagetessash_row_count(out, TAGETESSASH_OUT_WORDS) == terms);
            CHECK(memcmp(out, tagetessash_rows(state, level, v), terms * TAGETESSASH_ROW_WORDS * sizeof *out) == 0);
            CHECK(all(out + terms * TAGETESSASH_ROW_WORDS, TAGETESSASH_OUT_WORDS - terms * TAGETESSASH_ROW_WORDS, 0));
            for (i = 0; i < terms; i++)
                CHECK(tagetessash_row(out, i).component >= 1 && tagetessash_row(out, i).component <= tagetessash_count(state, level - 1));
        }
    fill(out, TAGETESSASH_OUT_WORDS, 5);
    REFUSED(fetch(1, 0), TAGETESSASH_BAD_NUMBER);
    REFUSED(fetch(1, 4), TAGETESSASH_BAD_NUMBER);
    REFUSED(fetch(0, 1), TAGETESSASH_BAD_NUMBER);
    REFUSED(fetch(3, 1), TAGETESSASH_NO_LEVEL);
    CHECK(all(out, TAGETESSASH_OUT_WORDS, 5));
    CHECK(lift(1, TAGETESSASH_DIVISION, 0) == TAGETESSASH_DONE);
    CHECK(tagetessash_complete(state) == 2 && tagetessash_count(state, 2) == 0);
}

/* 9 shows 6y^3 and empties the state */
static void value_after_9(void)
{
    CHECK(read_text(no_basis) == TAGETESSASH_NO_BASIS && place == 1);
    CHECK(tagetessash_row_count(work, TAGETESSASH_WORK_WORDS) == 1);
    CHECK(tagetessash_row(work, 0).coefficient == 6 && tagetessash_row(work, 0).component == 1 && tagetessash_row(work, 0).exponents[1] == 3);
    CHECK(all(work + TAGETESSASH_ROW_WORDS, TAGETESSASH_WORK_WORDS - TAGETESSASH_ROW_WORDS, 0) && all(state, TAGETESSASH_STATE_WORDS, 0));
}

/* a call that writes what it finds in a file */
typedef uint16_t printing(const uint8_t *file, size_t file_bytes, uint16_t *state, size_t state_words, uint16_t *work, size_t work_words, uint8_t *out,
    size_t out_bytes, size_t *length);

/* What the call writes of the file, into room bytes; zeros behind it, nothing left in the other buffers; 16 a byte or word too short, and then nothing is
 * changed. */
static void prints(printing *call, size_t room, const char *text, const char *expected)
{
    const uint8_t *file = (const uint8_t *)text;
    size_t bytes = strlen(text), length = 99, i;
    uint8_t *page = malloc(room);
    if (page == NULL)
        exit(2);
    memset(page, 5, room);
    fill(state, TAGETESSASH_STATE_WORDS, 5);
    fill(work, TAGETESSASH_WORK_WORDS, 5);
    for (i = 0; i < 3; i++) {
        length = 99;
        CHECK(call(file, bytes, state, TAGETESSASH_STATE_WORDS - (i == 0), work, TAGETESSASH_WORK_WORDS - (i == 1), page, room - (i == 2), &length)
            == TAGETESSASH_SHORT_BUFFER);
        CHECK(length == 0 && all(state, TAGETESSASH_STATE_WORDS, 5) && all(work, TAGETESSASH_WORK_WORDS, 5));
    }
    for (i = 0; i < room && page[i] == 5; i++)
        ;
    CHECK(i == room);
    CHECK(call(file, bytes, state, TAGETESSASH_STATE_WORDS, work, TAGETESSASH_WORK_WORDS, page, room, &length) == TAGETESSASH_DONE);
    CHECK(length == strlen(expected) && memcmp(page, expected, strlen(expected)) == 0);
    for (i = length; i < room && page[i] == 0; i++)
        ;
    CHECK(i == room);
    CHECK(all(state, TAGETESSASH_STATE_WORDS, 0) && all(work, TAGETESSASH_WORK_WORDS, 0));
    free(page);
}

static void the_sheet_of(const char *text, const char *expected) { prints(tagetessash_sheet, TAGETESSASH_SHEET_BYTES, text, expected); }
static void the_page_of(const char *text, const char *expected) { prints(tagetessash_betti, TAGETESSASH_PAGE_BYTES, text, expected); }
static void the_numbers_of(const char *text, const char *expected) { prints(tagetessash_minimal, TAGETESSASH_PAGE_BYTES, text, expected); }
static void the_bidegrees_of(const char *text, const char *expected) { prints(tagetessash_bidegrees, TAGETESSASH_BIDEGREES_BYTES, text, expected); }

static void the_function_of(const char *text, const char *expected) { prints(tagetessash_hilbert, TAGETESSASH_HILBERT_BYTES, text, expected); }
static void the_log_of(const char *text, const char *expected) { prints(tagetessash_replay, TAGETESSASH_REPLAY_BYTES, text, expected); }
static void the_division_of(const char *text, const char *expected) { prints(tagetessash_member, TAGETESSASH_MEMBER_BYTES, text, expected); }
static void the_basis_of(const char *text, const char *expected) { prints(tagetessash_completed, TAGETESSASH_COMPLETED_BYTES, text, expected); }

/* x + y, y^2 + 1: logs that are taken, and 12, 21 and 22 with their lines */
static void logs(void)
{
    static const char file[] = "R,7,2,1,1\nT,1,1,1,1,0\nT,1,1,1,0,1\nT,2,1,1,0,2\nT,2,1,1,0,0\nE,4\n";
    static const char vector[] = "S,1,1,1,2,1,0\nS,1,1,6,1,0,2\nS,1,1,6,1,0,0\nS,1,1,1,2,0,1\n";
    static const struct {
        const char *lines, *printed;
    } tried[] = {
        { "L,1,1\nP,1,2,1\nP,1,0,1\nP,0,3,1\n", vector },
        { "L,1,1\nP,1,0,1\nP,1,2,1\nP,0,3,1\n", vector },
        { "", "X,21,7\n" },
        { "L,10,1\n", "X,12,7\n" },
        { "L,1,2\n", "X,12,7\n" },
        { "L,1,1\nP,1,2,2\n", "X,22,8\n" },
        { "L,1,1\nP,1,2\n", "X,21,8\n" },
        { "L,1,1\nP,1,2,1\nP,1,0,1\n", "X,22,10\n" },
    };
    char text[200];
    size_t i;
    for (i = 0; i < sizeof tried / sizeof *tried; i++) {
        sprintf(text, "%s%s", file, tried[i].lines);
        the_log_of(text, tried[i].printed);
    }
    CHECK(strcmp(tagetessash_meaning(TAGETESSASH_BAD_LOG), "a line of the log has the wrong shape, is missing or is one pick too many") == 0);
    CHECK(strcmp(tagetessash_place_name(TAGETESSASH_BAD_LOG), "line") == 0 && strcmp(tagetessash_place_name(TAGETESSASH_NOT_TAKEN), "line") == 0);
    CHECK(strncmp(tagetessash_meaning(TAGETESSASH_NOT_TAKEN), "a pick is no term", 17) == 0);
}

/* x^2 + 1 over x + y, y^2 + 1, as lines and as rows that are lent; the zero vector, whose pointer may be null; 23 with the line and with the row; a word too
 * short; a state that holds nothing; the state as it was each time; a row written and read */
static void divisions(void)
{
    static const char file[] = "R,7,2,1,1\nT,1,1,1,1,0\nT,1,1,1,0,1\nT,2,1,1,0,2\nT,2,1,1,0,0\nE,4\n";
    static const tagetessash_term terms[] = { { 1, 1, { 2, 0, 0, 0, 0, 0, 0, 0 } }, { 1, 1, { 0, 0, 0, 0, 0, 0, 0, 0 } } };
    static const uint16_t quotients_of[][4] = { { 1, 1, 1, 0 }, { 6, 1, 0, 1 }, { 1, 2, 0, 0 } };
    enum { WORDS = 2 * TAGETESSASH_ROW_WORDS, OUT = TAGETESSASH_OUT_WORDS, STATE = TAGETESSASH_STATE_WORDS };
    uint16_t vector[WORDS], *remainder = malloc(OUT * sizeof *remainder);
    char text[200];
    size_t i, shorter;
    if (remainder == NULL)
        exit(2);
    sprintf(text, "%sV,1,1,2,0\nV,1,1,0,0\n", file);
    the_division_of(text, "C,1,1,1,0\nC,6,1,0,1\nC,1,2,0,0\nM,1\n");
    sprintf(text, "%sV,2,1,0,1\n", file);
    the_division_of(text, "W,2,1,0,1\nM,0\n");
    the_division_of(file, "M,1\n");
    sprintf(text, "%sV,1,1,0,1\nV,1,1,1,0\n", file);
    the_division_of(text, "X,23,8\n");

    for (i = 0; i < 2; i++) {
        tagetessash_put_row(vector, i, terms[i]);
        CHECK(tagetessash_row(vector, i).coefficient == 1 && tagetessash_row(vector, i).component == 1);
        CHECK(tagetessash_row(vector, i).exponents[0] == terms[i].exponents[0]);
    }
    CHECK(read_text(file) == TAGETESSASH_DONE);
    for (shorter = 0; shorter < 3; shorter++) {
        fill(out, OUT, 5);
        fill(remainder, OUT, 5);
        REFUSED(tagetessash_divide(state, STATE - (shorter == 0), vector, WORDS, out, OUT - (shorter == 1), remainder, OUT - (shorter == 2), &place),
            TAGETESSASH_SHORT_BUFFER);
        CHECK(all(out, OUT, 5) && all(remainder, OUT, 5));
    }
    REFUSED(tagetessash_divide(state, STATE, vector, WORDS, out, OUT, remainder, OUT, &place), TAGETESSASH_DONE);
    CHECK(tagetessash_row_count(out, OUT) == 3 && all(out + 3 * TAGETESSASH_ROW_WORDS, OUT - 3 * TAGETESSASH_ROW_WORDS, 0) && all(remainder, OUT, 0));
    for (i = 0; i < 3; i++) {
        tagetessash_term term = tagetessash_row(out, i);
        CHECK(term.coefficient == quotients_of[i][0] && term.component == quotients_of[i][1]);
        CHECK(term.exponents[0] == quotients_of[i][2] && term.exponents[1] == quotients_of[i][3]);
    }
    REFUSED(tagetessash_divide(state, STATE, NULL, 0, out, OUT, remainder, OUT, &place), TAGETESSASH_DONE);
    CHECK(all(out, OUT, 0) && all(remainder, OUT, 0));
    vector[TAGETESSASH_ROW_WORDS] = 7;
    fill(out, OUT, 5);
    fill(remainder, OUT, 5);
    CHECK(tagetessash_divide(state, STATE, vector, WORDS, out, OUT, remainder, OUT, &place) == TAGETESSASH_BAD_VECTOR && place == 2);
    CHECK(all(out, OUT, 0) && all(remainder, OUT, 0) && tagetessash_complete(state) == 1);
    state[TAGETESSASH_PRIME_AT] = 6;
    fill(out, OUT, 5);
    REFUSED(tagetessash_divide(state, STATE, vector, WORDS, out, OUT, remainder, OUT, &place), TAGETESSASH_NO_LEVEL);
    CHECK(all(out, OUT, 5));
    CHECK(strcmp(tagetessash_place_name(TAGETESSASH_BAD_VECTOR), "term") == 0);
    free(remainder);
}

/* request A1's example; a module whose page has rows by the D line; without it 17; 9 before 17; a file that is not read; 17 in words */
static void the_pages(void)
{
    the_page_of("R,7,2,3,1\nT,1,1,1,2,0\nT,2,1,1,1,1\nT,3,1,1,0,2\nE,3\n",
        "    0:     1     -     -     -     -     -     -     -     -     -     -\n"
        "    1:     -     3     2     -     -     -     -     -     -     -     -\n"
        " total     1     3     2     -     -     -     -     -     -     -     -\n");
    the_page_of("R,7,2,3,2\nD,0,1\nT,1,1,1,1,1\nT,2,1,1,2,0\nT,2,1,2,0,1\nT,3,1,2,0,2\nE,4\n",
        "    0:     1     -     -     -     -     -     -     -     -     -     -\n"
        "    1:     1     2     1     -     -     -     -     -     -     -     -\n"
        "    2:     -     1     -     -     -     -     -     -     -     -     -\n"
        " total     2     3     1     -     -     -     -     -     -     -     -\n");
    the_page_of("R,7,1,1,1\nT,1,1,1,0\nT,2,1,1,0\nE,2\n",
        "   -2:     -     -     1     -     -     -     -     -     -     -     -\n"
        "   -1:     -     2     -     -     -     -     -     -     -     -     -\n"
        "    0:     1     -     -     -     -     -     -     -     -     -     -\n"
        " total     1     2     1     -     -     -     -     -     -     -     -\n");
    the_page_of("R,7,2,3,2\nT,1,1,1,1,1\nT,2,1,1,2,0\nT,2,1,2,0,1\nT,3,1,2,0,2\nE,4\n", "X,17,2\n");
    the_page_of("R,7,2,1,1\nT,1,1,1,2,0\nT,2,1,1,1,1\nT,2,1,1,0,1\nE,3\n", "X,9,1\nW,6,1,0,1\n");
    the_page_of(no_basis, "X,9,1\nW,6,1,0,3\n");
    the_page_of("R,7,1,1,2\nD,0,256\n", "X,18,2\n");
    the_page_of("", "X,1,1\n");
    CHECK(strcmp(tagetessash_meaning(TAGETESSASH_TWO_DEGREES), "an element has terms of two degrees") == 0);
    CHECK(strcmp(tagetessash_place_name(TAGETESSASH_TWO_DEGREES), "element") == 0);
}

/* an element twice; a relation that follows from two others; components that relations take away, all of them; one relation three times; nothing to be left
 * out; 17, and 9 before it; a limit; files that are not read; 20 in words, which no file brings about */
static void the_minimal_numbers(void)
{
    the_numbers_of("R,7,2,1,1\nT,1,1,1,1,0\nT,2,1,1,1,0\nT,3,1,1,0,1\nE,3\n",
        "   -1:     -     -     -     -     -     -     -     -     -     -     -\n"
        "    0:     1     2     1     -     -     -     -     -     -     -     -\n"
        " total     1     2     1     -     -     -     -     -     -     -     -\n");
    the_numbers_of("R,7,2,3,2\nD,0,1\nT,1,1,1,1,1\nT,2,1,1,2,0\nT,2,1,2,0,1\nT,3,1,2,0,2\nE,4\n",
        "    0:     1     -     -     -     -     -     -     -     -     -     -\n"
        "    1:     1     2     -     -     -     -     -     -     -     -     -\n"
        "    2:     -     -     -     -     -     -     -     -     -     -     -\n"
        " total     2     2     -     -     -     -     -     -     -     -     -\n");
    the_numbers_of("R,7,1,1,2\nT,1,2,2,0\nT,1,1,1,0\nT,2,1,1,0\nE,3\n",
        "   -1:     -     -     -     -     -     -     -     -     -     -     -\n"
        "    0:     -     -     -     -     -     -     -     -     -     -     -\n"
        " total     -     -     -     -     -     -     -     -     -     -     -\n");
    the_numbers_of("R,7,1,1,1\nT,1,1,1,0\nT,2,1,1,0\nE,2\n",
        "   -2:     -     -     -     -     -     -     -     -     -     -     -\n"
        "   -1:     -     -     -     -     -     -     -     -     -     -     -\n"
        "    0:     -     -     -     -     -     -     -     -     -     -     -\n"
        " total     -     -     -     -     -     -     -     -     -     -     -\n");
    the_numbers_of("R,3,1,1,2\nD,4,4\nT,1,1,2,0\nT,1,2,1,0\nT,2,2,2,0\nT,2,1,1,0\nT,3,1,2,0\nT,3,2,1,0\nE,6\n",
        "    2:     -     -     -     -     -     -     -     -     -     -     -\n"
        "    3:     -     -     -     -     -     -     -     -     -     -     -\n"
        "    4:     1     -     -     -     -     -     -     -     -     -     -\n"
        " total     1     -     -     -     -     -     -     -     -     -     -\n");
    the_numbers_of("R,7,2,3,1\nT,1,1,1,2,0\nT,2,1,1,1,1\nT,3,1,1,0,2\nE,3\n",
        "    0:     1     -     -     -     -     -     -     -     -     -     -\n"
        "    1:     -     3     2     -     -     -     -     -     -     -     -\n"
        " total     1     3     2     -     -     -     -     -     -     -     -\n");
    the_numbers_of("R,7,2,3,2\nT,1,1,1,1,1\nT,2,1,1,2,0\nT,2,1,2,0,1\nT,3,1,2,0,2\nE,4\n", "X,17,2\n");
    the_numbers_of("R,7,2,1,1\nT,1,1,1,2,0\nT,2,1,1,1,1\nT,2,1,1,0,1\nE,3\n", "X,9,1\nW,6,1,0,1\n");
    the_numbers_of("R,7,2,1,1\nT,1,1,1,1,0\nT,1,1,1,0,255\nT,2,1,1,0,2\nE,3\n", "X,13,0\n");
    the_numbers_of("R,7,1,1,2\nD,0,256\n", "X,18,2\n");
    the_numbers_of("R,7,1,1,2\nG,16,0\n", "X,24,2\n");
    the_numbers_of("", "X,1,1\n");
    CHECK(strcmp(tagetessash_meaning(TAGETESSASH_NOT_ENDED), "level 9 is not empty") == 0);
    CHECK(strcmp(tagetessash_place_name(TAGETESSASH_NOT_ENDED), "level") == 0);
}

/* request A14's example, and without its G line; a module, the components' degrees in the first sum alone; the largest sums; 25 for one degree and two
 * bidegrees, lines for the other way round; 9 before 25; files that are not read; 25 in words; no weight in a state */
static void the_bidegrees(void)
{
#define PRODUCT "T,1,1,1,1,0,1,0\nT,2,1,1,0,1,0,1\nE,2\n"
#define RELATIONS "T,1,1,1,2,0\nT,1,1,2,0,1\nE,2\n"
    the_bidegrees_of("R,7,4,3,1\nG,1,0,1,0,0,1,0,1\n" PRODUCT, "B,0,0,0,1\nB,1,1,1,2\nB,2,2,2,1\n");
    the_bidegrees_of("R,7,4,3,1\n" PRODUCT, "B,0,0,0,1\nB,1,2,0,2\nB,2,4,0,1\n");
    the_bidegrees_of("R,7,2,3,2\nD,0,1\n" RELATIONS, "B,0,0,0,1\nB,0,1,0,1\nB,1,2,0,1\n");
    the_bidegrees_of("R,7,2,3,2\nD,3,4\nG,1,1,1,2\n" RELATIONS, "B,0,3,0,1\nB,0,4,0,1\nB,1,5,2,1\n");
    the_bidegrees_of("R,7,8,1,1\nD,255\nG,15,15,15,15,15,15,15,15,15,15,15,15,15,15,15,15\nT,1,1,1,255,255,255,255,255,255,255,255\nE,1\n",
        "B,0,255,0,1\nB,1,30855,30600,1\n");
    the_bidegrees_of("R,7,2,3,2\nD,0,1\nG,1,0,0,1\n" RELATIONS, "X,25,1\n");
    the_bidegrees_of("R,7,2,3,2\n" RELATIONS, "X,25,1\n");
    the_bidegrees_of("R,7,2,3,1\nG,1,0,2,0\nT,1,1,1,2,0\nT,1,1,1,0,1\nE,2\n", "B,0,0,0,1\nB,1,2,0,1\n");
    the_bidegrees_of("R,7,2,1,1\nG,1,0,0,1\nT,1,1,1,2,0\nT,2,1,1,1,1\nT,2,1,1,0,1\nE,3\n", "X,9,1\nW,6,1,0,1\n");
    the_bidegrees_of("R,7,1,1,2\nD,0,0\nG,0,16\n", "X,24,3\n");
    the_bidegrees_of("", "X,1,1\n");
    the_sheet_of("R,7,1,1,2\nG,16,0\n", "X,24,2\n");
    the_page_of("R,7,1,1,2\nG,16,0\n", "X,24,2\n");
    CHECK(strcmp(tagetessash_meaning(TAGETESSASH_TWO_BIDEGREES), "an element has terms of two bidegrees") == 0);
    CHECK(strcmp(tagetessash_place_name(TAGETESSASH_TWO_BIDEGREES), "element") == 0);
    CHECK(read_text("R,7,4,3,1\n" PRODUCT) == TAGETESSASH_DONE && lift(1, TAGETESSASH_DIVISION, 0) == TAGETESSASH_DONE);
    memcpy(before, state, TAGETESSASH_STATE_WORDS * sizeof *state);
    CHECK(read_text("R,7,4,3,1\nG,1,2,3,4,5,6,7,8\n" PRODUCT) == TAGETESSASH_DONE && lift(1, TAGETESSASH_DIVISION, 0) == TAGETESSASH_DONE);
    CHECK(memcmp(before, state, TAGETESSASH_STATE_WORDS * sizeof *state) == 0);
}

/* the lines with these values, the last of them repeated to the end */
static void the_values_of(const char *text, const unsigned long *values, size_t count)
{
    char expected[TAGETESSASH_HILBERT_DEGREES * TAGETESSASH_HILBERT_LINE_BYTES + 1], *at = expected;
    size_t d;
    for (d = 0; d < TAGETESSASH_HILBERT_DEGREES; d++)
        at += sprintf(at, "H,%u,%lu\n", (unsigned)d, values[d < count ? d : count - 1]);
    the_function_of(text, expected);
}

/* document 01's printed file; an element of two degrees, where the page has 17, and the same with a G line; components of degrees 30 and 31, so that the
 * elements count in the last line and the vector does not; a constant; the largest values; 9; a limit; files that are not read */
static void the_hilbert_functions(void)
{
#define TAILED "T,1,1,1,2,0\nT,1,1,1,0,1\nT,2,1,1,1,1\nT,3,1,1,0,2\nE,4\n"
    static const unsigned long printed[] = { 1, 1, 0 }, squares[] = { 1, 2, 0 }, none[] = { 0 };
    unsigned long values[TAGETESSASH_HILBERT_DEGREES] = { 0 };
    unsigned d;
    the_values_of("R,7,2,1,1\nT,1,1,1,1,0\nT,1,1,1,0,1\nT,2,1,1,0,2\nT,2,1,1,0,0\nE,4\n", printed, 3);
    the_values_of("R,7,2,1,1\n" TAILED, squares, 3);
    the_values_of("R,7,2,1,1\nG,15,0,1,7\n" TAILED, squares, 3);
    the_page_of("R,7,2,1,1\n" TAILED, "X,17,1\n");
    values[30] = 1;
    values[31] = 3;
    values[32] = 2;
    the_values_of("R,7,2,1,2\nD,30,31\nT,1,1,1,2,0\nT,2,1,1,1,1\nT,3,1,2,0,1\nT,3,3,1,0,0\nE,4\n", values, TAGETESSASH_HILBERT_DEGREES);
    the_values_of("R,7,3,2,1\nT,1,1,1,0,0,0\nE,1\n", none, 1);
    values[0] = 16;
    for (d = 1; d < TAGETESSASH_HILBERT_DEGREES; d++)
        values[d] = values[d - 1] * (d + 7) / d;
    the_values_of("R,7,8,3,16\nT,1,1,16,255,255,255,255,255,255,255,255\nE,1\n", values, TAGETESSASH_HILBERT_DEGREES);
    the_function_of(no_basis, "X,9,1\nW,6,1,0,3\n");
    the_function_of("R,7,2,1,1\nT,1,1,1,1,0\nT,1,1,1,0,255\nT,2,1,1,0,2\nE,3\n", "X,13,0\n");
    the_function_of("R,7,1,1,2\nD,0,256\n", "X,18,2\n");
    the_function_of("R,7,1,1,2\nD,0,0\nG,0,16\n", "X,24,3\n");
    the_function_of("", "X,1,1\n");
}

/* so many elements in a second component, then x and x + y in the first, to which y is added */
static char *stuffed(char *text, unsigned others, int completed)
{
    char *at = text;
    unsigned i;
    at += sprintf(at, "R,7,2,1,2\n");
    for (i = 1; i <= others; i++)
        at += sprintf(at, "T,%u,1,2,0,2\n", i);
    at += sprintf(at, "T,%u,1,1,1,0\nT,%u,1,1,1,0\nT,%u,1,1,0,1\n", others + 1, others + 2, others + 2);
    if (completed)
        at += sprintf(at, "T,%u,1,1,0,1\n", others + 3);
    sprintf(at, "E,%u\n", others + 3 + (completed != 0));
    return text;
}

/* x^2 and x y + y^2, to which y^3 is added, with D and G lines as they are; a basis as it is; what is added read again; the 64th element and the 65th, 19 in
 * words; a limit; files that are not read */
static void the_completed_files(void)
{
#define SQUARES "T,1,1,1,2,0\nT,2,1,1,1,1\nT,2,1,1,0,2\n"
    char file[2000], expected[2000];
    the_basis_of("R,7,2,1,1\n" SQUARES "E,3\n", "R,7,2,1,1\n" SQUARES "T,3,1,1,0,3\nE,4\n");
    the_basis_of("R,7,2,1,1\nD,5\nG,1,2,3,4\n" SQUARES "E,3\n", "R,7,2,1,1\nD,5\nG,1,2,3,4\n" SQUARES "T,3,1,1,0,3\nE,4\n");
    the_basis_of("R,7,2,1,1\n" SQUARES "T,3,1,1,0,3\nE,4\n", "R,7,2,1,1\n" SQUARES "T,3,1,1,0,3\nE,4\n");
    CHECK(read_text("R,7,2,1,1\n" SQUARES "T,3,1,1,0,3\nE,4\n") == TAGETESSASH_DONE);
    the_basis_of(stuffed(file, 61, 0), stuffed(expected, 61, 1));
    the_basis_of(stuffed(file, 62, 0), "X,19,65\n");
    the_basis_of("R,7,2,1,1\nT,1,1,1,1,0\nT,1,1,1,0,255\nT,2,1,1,0,2\nE,3\n", "X,13,0\n");
    the_basis_of("R,7,1,1,2\nD,0,256\n", "X,18,2\n");
    the_basis_of("", "X,1,1\n");
    CHECK(strcmp(tagetessash_meaning(TAGETESSASH_TOO_MANY_ELEMENTS), "a completed file would have more than 64 elements") == 0);
    CHECK(strcmp(tagetessash_place_name(TAGETESSASH_TOO_MANY_ELEMENTS), "element") == 0);
}

int main(void)
{
    state = words(TAGETESSASH_STATE_WORDS);
    before = words(TAGETESSASH_STATE_WORDS);
    work = words(TAGETESSASH_WORK_WORDS);
    tree = words(TAGETESSASH_TREE_WORK_WORDS);
    out = words(TAGETESSASH_OUT_WORDS);
    packed_rows();
    past_the_last_variable();
    degrees();
    altered_degrees();
    d_and_g_lines();
    null_with_length_0();
    without_a_basis();
    one_word_short();
    rooms();
    levels_and_accessors();
    large_prime(65521);
    large_prime(65519);
    value_after_9();
    the_sheet_of(no_basis, "X,9,1\nW,6,1,0,3\n");
    the_pages();
    the_minimal_numbers();
    the_bidegrees();
    the_hilbert_functions();
    the_completed_files();
    divisions();
    logs();
    free(state);
    free(before);
    free(work);
    free(tree);
    free(out);
    if (failures == 0)
        printf("edges of the C interface: as the header says\n");
    return failures != 0;
}
