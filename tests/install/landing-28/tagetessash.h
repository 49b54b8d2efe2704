/* The three calls of Tagetessash: read a problem file, lift a level, fetch a vector; and the sheet, the Betti page, the minimal Betti numbers, the bidegrees
 * and the Hilbert function of a file, each in one call.
 *
 * A header of one version does not fit a library of another: if (tagetessash_version() != TAGETESSASH_VERSION) do not go on.
 *
 * The caller lends every buffer. The library keeps nothing between calls but what stands in the state, allocates nothing and has no data of its own, so
 * that threads with buffers of their own may call it at a time. C99 and C++.
 *
 * What a pointer and the length behind it must be: so many bytes or words that may be read (and written, unless it is const) through the call. With
 * length 0 a pointer may be null, else it must not. Words are aligned as a uint16_t. The buffers of one call and its place do not overlap. place and
 * length are not null. The library can not test any of this; whatever else the buffers hold, every call returns and keeps to them.
 *
 * Each of the three calls returns a number, 0 or a refusal's, and writes its place (see below). After
 *     11, 12, 16                no buffer is changed
 *     1 to 9, 13 to 15, 18, 24  every buffer lent for writing is zero throughout, the state with it; but 9 leaves a value in the work area
 *     0                         the work area, the cache and what is unused of the state and of out are zero
 */
#ifndef TAGETESSASH_H
#define TAGETESSASH_H

#include <stddef.h>
#include <stdint.h>

#ifdef __cplusplus
extern "C" {
#endif

/* Grows with every change of a function here, of the state's layout, of which vectors a level has or of what the sheet prints.
 *     1    an exponent has a word of its own, a row ten words
 *     2    the exponents are packed, a row has six words; what the accessors below give and what the sheet prints is as it was
 *     3    the state has degrees behind its rows, a D line is read, 18 is answered; all that a state of version 2 holds stands where it stood
 * tagetessash_betti, tagetessash_bidegrees, tagetessash_hilbert and tagetessash_minimal came later, one by one: a program of version 3 that does not call them
 * fits every library of version 3, and one that does is not linked with a library that has no such function. With the second came a file's G line, which was
 * refused with 1, and 24: no state holds its weights, and every file that was read before is read as before. Later still hybrid took work areas of fewer than
 * TAGETESSASH_WORK_WORDS words: with as many or more every answer and every word is as before, and a library of version 3 from before refuses fewer with 16.
 * Version 1's buffers are long enough for version 3: a program that was compiled with that header is refused nothing and reads other words. Only the version
 * tells it. One of version 2 lends a state that is too short: where it does not ask for the version, every call answers 16. */
#define TAGETESSASH_VERSION 3

/* How many bytes of stack a call finds enough, from where it is called, so that a thread of this size and what its own functions need is safe. Of the stack
 * alone the library can not tell you that it is too small: the process dies. All calls but the tree's have arrays of fixed length and do not call themselves:
 * no file and no length of a work area makes them take more. From its caller's frame on (measured on x86-64; a thread has some 4 KiB of its own besides)
 * lifting by division and by hybrid takes 64 KiB, among it 24,832 bytes for the level being made, 7,428 for tables of the levels below, 6,144 for a vector and
 * 3,072 for the frame; reading takes 23 KiB, fetching 6, the sheet and the Betti page 48, the bidegrees 50, the Hilbert function 55, the minimal numbers 83.
 * The rest is for what runs beside them in the thread. TAGETESSASH_LIFT_STACK_BYTES is enough for threads that read, lift by division or hybrid and fetch. The
 * tree calls itself, 4,096 deep at the most, since each unfinished subtree holds a term of the work area: 3,050 KiB measured at that depth. */
#define TAGETESSASH_STACK_BYTES 262144
#define TAGETESSASH_LIFT_STACK_BYTES 98304
#define TAGETESSASH_TREE_STACK_BYTES 4194304

/* How many words a buffer has at the least; a shorter one is refused with 16, a longer one may be lent. The file and the cache may have any length. The
 * length of hybrid's work area says for how many terms of a working value there is room, see tagetessash_lift. */
#define TAGETESSASH_STATE_WORDS 125471
#define TAGETESSASH_WORK_WORDS 3072        /* to read, and to lift by division */
#define TAGETESSASH_LEAST_WORK_WORDS 192   /* to lift by hybrid, which uses TAGETESSASH_WORK_WORDS of a longer one */
#define TAGETESSASH_TREE_WORK_WORDS 24576  /* to lift by the tree */
#define TAGETESSASH_OUT_WORDS 3072
#define TAGETESSASH_SHEET_BYTES 1400000    /* the sheet's out has bytes */
#define TAGETESSASH_PAGE_BYTES 1508691     /* and so has the Betti page's, and that of the minimal numbers */
#define TAGETESSASH_BIDEGREES_BYTES 32384  /* and that of the bidegrees */
#define TAGETESSASH_HILBERT_BYTES 31773    /* and that of the Hilbert function */

/* The most that there can be. A longer file is refused with 1, more variables or components with 3, T lines for more terms of level 0 with 8, more terms of a
 * vector, of a working value (as many as of a vector) or of the tree's work area with 14, more vectors or terms of a level above 0 with 15. */
#define TAGETESSASH_FILE_BYTES 65536
#define TAGETESSASH_VARIABLES 8
#define TAGETESSASH_COMPONENTS 16
#define TAGETESSASH_HIGHEST_LEVEL 9
#define TAGETESSASH_LEVEL_VECTORS 128
#define TAGETESSASH_LEVEL_TERMS 2048
#define TAGETESSASH_VECTOR_TERMS 512
#define TAGETESSASH_TREE_TERMS 4096

/* The work area of hybrid has room for so many terms at the least, a row for each. */
#define TAGETESSASH_LEAST_TERMS 32

/* A Betti page, and a page of minimal numbers: columns 0 to 10 behind a label, each of so many bytes, and byte 10; 20,666 rows and the totals at the most. */
#define TAGETESSASH_PAGE_COLUMNS 11
#define TAGETESSASH_PAGE_CELL_BYTES 6
#define TAGETESSASH_PAGE_LINE_BYTES 73

/* A line of bidegrees, byte 10 included, has at the most so many bytes; there is one at the most for each generator of the same columns. */
#define TAGETESSASH_BIDEGREES_LINE_BYTES 23

/* Lines of the Hilbert function: one for each degree from 0 on, each, byte 10 included, of so many bytes at the most. Its out is longer: it has room for the
 * lines of every refusal, an X line of 29 bytes and 512 W lines of 62 at the most. */
#define TAGETESSASH_HILBERT_DEGREES 33
#define TAGETESSASH_HILBERT_LINE_BYTES 17

/* A term is a row of words: its coefficient, its component, its eight exponents in one number of 64 bits, a byte each. x1's is the top byte; those past the
 * last variable are zero. The number stands in four words, the lowest 16 bits first, so that on x86-64 these are its bytes in memory. */
#define TAGETESSASH_ROW_WORDS 6
#define TAGETESSASH_PACKED_WORDS 4
#define TAGETESSASH_WORD_BITS 16
#define TAGETESSASH_EXPONENT_BITS 8

/* At which word what stands; the accessors below know it. In a row: */
#define TAGETESSASH_COEFFICIENT_AT 0
#define TAGETESSASH_COMPONENT_AT 1
#define TAGETESSASH_PACKED_AT 2
/* in the state: */
#define TAGETESSASH_PRIME_AT 0
#define TAGETESSASH_VARIABLES_AT 1
#define TAGETESSASH_ORDER_AT 2
#define TAGETESSASH_COMPONENTS_AT 3
#define TAGETESSASH_COMPLETE_AT 4
#define TAGETESSASH_COUNTS_AT 5       /* how many vectors level 0 has, behind it an end for each of them; .. */
#define TAGETESSASH_COUNTS_WORDS 129  /* .. so many words behind it the next level's */
#define TAGETESSASH_ROWS_AT 1295      /* the rows of level 0, vector after vector; .. */
#define TAGETESSASH_LEVEL_WORDS 12288 /* .. so many words behind them the next level's */
#define TAGETESSASH_DEGREES_AT 124175 /* the degrees of the components, the first one's first */
#define TAGETESSASH_CARRIED_AT 124191 /* the degrees that level 0's elements carry; TAGETESSASH_LEVEL_VECTORS words behind them the next level's */

/* By which way a level is lifted. All three give the same vectors wherever they are not refused; 13 to 15 may come by one and not by another. */
enum {
    TAGETESSASH_DIVISION = 0,
    TAGETESSASH_HYBRID = 1,
    TAGETESSASH_TREE = 2
};

/* Which term a step of the hybrid way picks; the other ways do not look at the code. */
enum {
    TAGETESSASH_GREATEST = 1,
    TAGETESSASH_NEWEST = 2,
    TAGETESSASH_OLDEST = 3
};

/* The number that a call returns. */
enum {
    TAGETESSASH_DONE = 0,

    /* the file; the place is the line (an absent line has the next number) */
    TAGETESSASH_BAD_LINE = 1,       /* line shape or sequence wrong, line missing or after E; file too long (place 0) */
    TAGETESSASH_BAD_PRIME = 2,      /* p not prime, or not 2 to 65,535 */
    TAGETESSASH_BAD_RING = 3,       /* n not 1 to 8, order not 1 to 3 or s not 1 to 16 */
    TAGETESSASH_BAD_TERM = 4,       /* coefficient 0 or p or more, component not 1 to s, exponent above 255 */
    TAGETESSASH_BAD_ELEMENT = 5,    /* element number out of sequence or above 64 */
    TAGETESSASH_NOT_DESCENDING = 6, /* term not below the one before it in its element */
    TAGETESSASH_BAD_COUNT = 7,      /* E's count is 0 or not the number of T lines */
    TAGETESSASH_TOO_MANY_TERMS = 8, /* a 2,049th T line */
    TAGETESSASH_BAD_DEGREE = 18,    /* a component's degree is above 255 */
    TAGETESSASH_BAD_WEIGHT = 24,    /* a variable's weight is above 15 */

    /* no Groebner basis: the place is the number of a frame term whose division stops, and the work area holds the value where it stops, in rows */
    TAGETESSASH_NO_BASIS = 9,

    /* the call; place 0 */
    TAGETESSASH_NO_LEVEL = 11,     /* no accepted basis, or the level that is needed is not complete: k - 1 to lift level k, k to fetch from it */
    TAGETESSASH_BAD_NUMBER = 12,   /* level not 1 to 9, vector not 1 to its level's count, way or pick code that there is not */
    TAGETESSASH_SHORT_BUFFER = 16, /* a buffer is shorter than its length above */

    /* a limit; the place is the level, 0 while a basis is being accepted */
    TAGETESSASH_EXPONENT_LIMIT = 13, /* a product has an exponent above 255 */
    TAGETESSASH_TERM_LIMIT = 14,     /* a 513th term of a working value or vector, or a 4,097th in the tree's work area; by hybrid one for which the lent work
                                      * area has no row */
    TAGETESSASH_LEVEL_LIMIT = 15,    /* a 129th frame term, or a 2,049th term of a level above 0 */

    /* No call returns these: they stand in the X line that is written instead of a page. The place is the first such element; that of 20 is the level. */
    TAGETESSASH_TWO_DEGREES = 17,   /* an element has terms of two degrees: by tagetessash_betti and tagetessash_minimal */
    TAGETESSASH_TWO_BIDEGREES = 25, /* an element has terms of two bidegrees: by tagetessash_bidegrees */
    TAGETESSASH_NOT_ENDED = 20      /* level 9 is not empty: by tagetessash_minimal, and for no file, since level n + 1 is empty */
};

/* Reads a problem file and accepts or refuses its basis. After 0 the state has level 0, the file's elements, and no other level. A file is lines of numbers:
 *     R,p,n,order,s                               the ring: prime, variables, order code, components
 *     D,d1,..,ds                                  or not at all: the degree of each component, 0 to 255
 *     G,a1,b1,..,an,bn                            or not at all: two weights of each variable, 0 to 15, for tagetessash_bidegrees alone
 *     T,element,coefficient,component,e1,..,en    a term, any number of them
 *     E,count                                     how many T lines there are */
uint16_t tagetessash_read(const uint8_t *file, size_t file_bytes, uint16_t *state, size_t state_words, uint16_t *work, size_t work_words, size_t *place);

/* Forms the frame of a level, 1 to 9, and lifts all its terms; the level below must be complete. After 0 the level is complete and those above it are dropped.
 * The cache is for the tree (a term takes a row); it is zeroed whichever way lifts. 4,096 rows serve every basis of examples/ well. The tree calls itself:
 * it needs TAGETESSASH_TREE_STACK_BYTES.
 *
 * By hybrid the work area may be one for w terms, w from TAGETESSASH_LEAST_TERMS to TAGETESSASH_VECTOR_TERMS: w is the number of whole rows in it, one for more
 * is used up to 512 terms, one for fewer than 32 is refused with 16. 14 comes at term w + 1 of the working value, while the vector keeps its 512 terms. In the
 * same call any w that finishes gives the same words of the state as 512 does; a larger w never refuses where a smaller one finished, and gives the same number
 * where that is not 14. 14 empties the state as always: keep a copy to try again with more. The area is zeroed throughout, however long. Reading, division and
 * the tree have no such choice, nor have the calls that print. */
uint16_t tagetessash_lift(uint16_t *state, size_t state_words, uint16_t *work, size_t work_words, uint16_t *cache, size_t cache_words, size_t level,
    uint16_t way, uint16_t pick, size_t *place);

/* Writes a vector, 1 to the level's count, of a complete level, 1 to 9, into out: its rows, greatest term first, then zeros. */
uint16_t tagetessash_fetch(const uint16_t *state, size_t state_words, uint16_t *out, size_t out_words, size_t level, size_t vector, size_t *place);

/* Writes the sheet of a problem file, the bytes that the program prints, into out, zeros after them, and how many there are into length. Returns 0 for every
 * file, a refused one too (its X line says so), or 16, which changes no buffer and has length 0. After 0 state and work are zero: they are lent for the work
 * alone. It lifts by the hybrid way with the newest term, which on some files takes very long. */
uint16_t tagetessash_sheet(const uint8_t *file, size_t file_bytes, uint16_t *state, size_t state_words, uint16_t *work, size_t work_words, uint8_t *out,
    size_t out_bytes, size_t *length);

/* Writes the Betti page of a problem file, the bytes that the program prints, into out, likewise: how many vectors of which degree each level has, levels
 * lifted as for the sheet. A line has 72 bytes and byte 10: a label of 6, then columns 0 to 10 of 6 each, right-aligned, a dash for zero. Column 0 counts the
 * components, column 1 the elements, column k + 1 the vectors of level k; the row is the degree minus the column, and the last line has the totals. For a
 * refused file it writes the X line (and after X,9 the W lines) and nothing else; X,17 for an accepted one where an element has terms of two degrees. Returns 0
 * for every file, or 16, as tagetessash_sheet does. */
uint16_t tagetessash_betti(const uint8_t *file, size_t file_bytes, uint16_t *state, size_t state_words, uint16_t *work, size_t work_words, uint8_t *out,
    size_t out_bytes, size_t *length);

/* Writes the minimal Betti numbers of a problem file, the bytes that the program prints, into out, likewise: a page with the lines, labels and rows of the
 * file's Betti page, and for each count there what is left of it once generators that are not needed are left out. In each degree the constants between a
 * column and the next one are a matrix, a row for each generator of the next column, in it the coefficient of 1 times each generator of this one; its rank
 * modulo p is taken from both counts. The last line has the totals of what is left. For a refused file it writes what tagetessash_betti writes, X,17 too (and
 * X,20 where level 9 is not empty, which no file brings about). Returns 0 for every file, or 16, as tagetessash_sheet does. */
uint16_t tagetessash_minimal(const uint8_t *file, size_t file_bytes, uint16_t *state, size_t state_words, uint16_t *work, size_t work_words, uint8_t *out,
    size_t out_bytes, size_t *length);

/* Writes the bidegrees of a problem file, the bytes that the program prints, into out, likewise: a line B,column,a,b,count for each bidegree a, b of some
 * generator of a column, by column, then a, then b, ascending. The columns are those of the Betti page. The bidegree of a term is two sums, of the exponents
 * times the weights a and times the weights b of the file's G line, the degree of its component (D) added to the first; without a G line the weights are 1 and
 * 0. A vector has that of its leading term's image. For a refused file it writes the X line (and after X,9 the W lines) and nothing else; X,25 for an accepted
 * one where an element has terms of two bidegrees (17 is not tested). Returns 0 for every file, or 16, as tagetessash_sheet does. */
uint16_t tagetessash_bidegrees(const uint8_t *file, size_t file_bytes, uint16_t *state, size_t state_words, uint16_t *work, size_t work_words, uint8_t *out,
    size_t out_bytes, size_t *length);

/* Writes the Hilbert function of a problem file, the bytes that the program prints, into out, likewise: a line H,degree,value for each degree 0 to 32. The
 * value is how many monomials of that degree, the degree of their component (D) included, no leading monomial of an element divides: for a homogeneous file
 * the dimension of the quotient's part of that degree. It is found from the levels, lifted as for the sheet, as the alternating sum over the columns of the
 * Betti page. For a refused file it writes the X line (and after X,9 the W lines) and nothing else; an element may have terms of several degrees (neither 17
 * nor 25 is tested). Returns 0 for every file, or 16, as tagetessash_sheet does. */
uint16_t tagetessash_hilbert(const uint8_t *file, size_t file_bytes, uint16_t *state, size_t state_words, uint16_t *work, size_t work_words, uint8_t *out,
    size_t out_bytes, size_t *length);

/* The version of the library. */
uint16_t tagetessash_version(void);

/* What rows hold. */
typedef struct {
    uint16_t coefficient;
    uint16_t component; /* level 0: of the file's module; above it: the number of a vector of the level below */
    uint16_t exponents[TAGETESSASH_VARIABLES]; /* x1's first */
} tagetessash_term;

/* The same of the row that begins here, one by one. */
static inline uint16_t tagetessash_coefficient(const uint16_t *row) { return row[TAGETESSASH_COEFFICIENT_AT]; }
static inline uint16_t tagetessash_component(const uint16_t *row) { return row[TAGETESSASH_COMPONENT_AT]; }

/* all exponents in one number, x1's in the top byte: two rows have the same ones where these are equal, and the larger one is lexicographically greater */
static inline uint64_t tagetessash_packed(const uint16_t *row)
{
    uint64_t packed = 0;
    size_t w = TAGETESSASH_PACKED_WORDS;
    while (w-- != 0)
        packed = packed << TAGETESSASH_WORD_BITS | row[TAGETESSASH_PACKED_AT + w];
    return packed;
}

/* exponent 0 (of x1) to 7 (of x8) */
static inline uint16_t tagetessash_exponent(const uint16_t *row, size_t i)
{
    return (uint8_t)(tagetessash_packed(row) >> TAGETESSASH_EXPONENT_BITS * (TAGETESSASH_VARIABLES - 1 - i));
}

/* How many rows stand in front of the zeros: of out after a fetch, of the work area after 9. */
static inline size_t tagetessash_row_count(const uint16_t *rows, size_t words)
{
    size_t i = 0;
    while (i < words / TAGETESSASH_ROW_WORDS && tagetessash_coefficient(rows + i * TAGETESSASH_ROW_WORDS) != 0)
        i++;
    return i;
}

/* Row i, the first is 0. */
static inline tagetessash_term tagetessash_row(const uint16_t *rows, size_t i)
{
    const uint16_t *row = rows + i * TAGETESSASH_ROW_WORDS;
    tagetessash_term term;
    size_t x;
    term.coefficient = tagetessash_coefficient(row);
    term.component = tagetessash_component(row);
    for (x = 0; x < TAGETESSASH_VARIABLES; x++)
        term.exponents[x] = tagetessash_exponent(row, x);
    return term;
}

/* What a state holds, for states as calls leave them (or all zero: nothing). */

/* p, n, the order code and s of the file's first line */
static inline uint16_t tagetessash_prime(const uint16_t *state) { return state[TAGETESSASH_PRIME_AT]; }
static inline uint16_t tagetessash_variables(const uint16_t *state) { return state[TAGETESSASH_VARIABLES_AT]; }
static inline uint16_t tagetessash_order(const uint16_t *state) { return state[TAGETESSASH_ORDER_AT]; }
static inline uint16_t tagetessash_components(const uint16_t *state) { return state[TAGETESSASH_COMPONENTS_AT]; }

/* how many levels are complete: 0 without a basis, else levels 0 to this - 1 */
static inline size_t tagetessash_complete(const uint16_t *state) { return state[TAGETESSASH_COMPLETE_AT]; }

/* how many vectors a level has, of level 0 how many elements; 0 for a level that is not complete */
static inline size_t tagetessash_count(const uint16_t *state, size_t level)
{
    return level < tagetessash_complete(state) ? state[TAGETESSASH_COUNTS_AT + TAGETESSASH_COUNTS_WORDS * level] : 0;
}

/* how many terms the first so many vectors of a level have together */
static inline size_t tagetessash_end(const uint16_t *state, size_t level, size_t vectors)
{
    return vectors != 0 && vectors <= tagetessash_count(state, level)
        ? state[TAGETESSASH_COUNTS_AT + TAGETESSASH_COUNTS_WORDS * level + vectors]
        : 0;
}

/* how many terms a level has */
static inline size_t tagetessash_level_terms(const uint16_t *state, size_t level)
{
    return tagetessash_end(state, level, tagetessash_count(state, level));
}

/* how many terms a vector has; 0 for a vector that there is not */
static inline size_t tagetessash_terms(const uint16_t *state, size_t level, size_t vector)
{
    return vector != 0 && vector <= tagetessash_count(state, level)
        ? tagetessash_end(state, level, vector) - tagetessash_end(state, level, vector - 1)
        : 0;
}

/* the rows of a vector (of level 0: of an element, which can not be fetched), as they stand in the state; null for a vector that there is not */
static inline const uint16_t *tagetessash_rows(const uint16_t *state, size_t level, size_t vector)
{
    return tagetessash_terms(state, level, vector) != 0
        ? state + TAGETESSASH_ROWS_AT + TAGETESSASH_LEVEL_WORDS * level + TAGETESSASH_ROW_WORDS * tagetessash_end(state, level, vector - 1)
        : NULL;
}

/* Degrees. A component has the degree that the file's D line says, 0 without one. A vector has that of its leading monomial's image in level 0's module: the
 * sum of the monomial's exponents, plus the degree of its component (level 0) or of the vector of the level below that its component stands for. Every element
 * and vector carries it in the state; a state where one does not is no accepted basis (11). */

/* the degree of component 1 to s; 0 for a component that there is not */
static inline uint16_t tagetessash_component_degree(const uint16_t *state, size_t component)
{
    return component != 0 && component <= tagetessash_components(state) ? state[TAGETESSASH_DEGREES_AT + component - 1] : 0;
}

/* the degree that a vector carries, of level 0 an element; 0 for a vector that there is not */
static inline uint16_t tagetessash_degree(const uint16_t *state, size_t level, size_t vector)
{
    return vector != 0 && vector <= tagetessash_count(state, level)
        ? state[TAGETESSASH_CARRIED_AT + TAGETESSASH_LEVEL_VECTORS * level + vector - 1]
        : 0;
}

/* What a number means, in words. */
static inline const char *tagetessash_meaning(uint16_t number)
{
    switch (number) {
    case TAGETESSASH_DONE: return "done";
    case TAGETESSASH_BAD_LINE: return "a line has the wrong shape or stands in the wrong place, or the file is too long";
    case TAGETESSASH_BAD_PRIME: return "p is not a prime from 2 to 65,535";
    case TAGETESSASH_BAD_RING: return "the number of variables, the order code or the number of components is out of range";
    case TAGETESSASH_BAD_TERM: return "a coefficient, component or exponent is out of range";
    case TAGETESSASH_BAD_ELEMENT: return "an element number is out of sequence or above 64";
    case TAGETESSASH_NOT_DESCENDING: return "a term is not below the one before it in its element";
    case TAGETESSASH_BAD_COUNT: return "the count of T lines is 0 or wrong";
    case TAGETESSASH_TOO_MANY_TERMS: return "there are more than 2,048 T lines";
    case TAGETESSASH_NO_BASIS: return "the elements are no Groebner basis";
    case TAGETESSASH_NO_LEVEL: return "there is no accepted basis, or the level that is needed is not complete";
    case TAGETESSASH_BAD_NUMBER: return "there is no such level, vector, way or pick code";
    case TAGETESSASH_EXPONENT_LIMIT: return "a product has an exponent above 255";
    case TAGETESSASH_TERM_LIMIT: return "a working value, a vector or the tree's work area is full";
    case TAGETESSASH_LEVEL_LIMIT: return "a level has too many frame terms or too many terms";
    case TAGETESSASH_SHORT_BUFFER: return "a buffer is too short";
    case TAGETESSASH_TWO_DEGREES: return "an element has terms of two degrees";
    case TAGETESSASH_BAD_DEGREE: return "a component's degree is above 255";
    case TAGETESSASH_NOT_ENDED: return "level 9 is not empty";
    case TAGETESSASH_BAD_WEIGHT: return "a variable's weight is above 15";
    case TAGETESSASH_TWO_BIDEGREES: return "an element has terms of two bidegrees";
    default: return "no number of a call";
    }
}

/* What a number's place counts; null for numbers whose place is 0. */
static inline const char *tagetessash_place_name(uint16_t number)
{
    if ((number >= TAGETESSASH_BAD_LINE && number <= TAGETESSASH_TOO_MANY_TERMS) || number == TAGETESSASH_BAD_DEGREE || number == TAGETESSASH_BAD_WEIGHT)
        return "line";
    if (number == TAGETESSASH_NO_BASIS)
        return "frame term";
    if ((number >= TAGETESSASH_EXPONENT_LIMIT && number <= TAGETESSASH_LEVEL_LIMIT) || number == TAGETESSASH_NOT_ENDED)
        return "level";
    if (number == TAGETESSASH_TWO_DEGREES || number == TAGETESSASH_TWO_BIDEGREES)
        return "element";
    return NULL;
}

#ifdef __cplusplus
}
#endif

#endif
