/* SPDX-License-Identifier: MIT OR Apache-2.0 */
/* A library of another version, OTHER_VERSION, of which nothing else is called. */
#include <stdlib.h>
#include "tagetessash.h"

uint16_t tagetessash_version(void) { return OTHER_VERSION; }
uint16_t tagetessash_minor(void) { return TAGETESSASH_MINOR; }
uint16_t tagetessash_read(
    const uint8_t *file, size_t file_bytes, uint16_t *state, size_t state_words, uint16_t *work, size_t work_words, size_t *place) { abort(); }
uint16_t tagetessash_lift(uint16_t *state, size_t state_words, uint16_t *work, size_t work_words, uint16_t *cache, size_t cache_words, size_t level,
    uint16_t way, uint16_t pick, size_t *place) { abort(); }
uint16_t tagetessash_fetch(const uint16_t *state, size_t state_words, uint16_t *out, size_t out_words, size_t level, size_t vector, size_t *place) { abort(); }
uint16_t tagetessash_sheet(const uint8_t *file, size_t file_bytes, uint16_t *state, size_t state_words, uint16_t *work, size_t work_words, uint8_t *out,
    size_t out_bytes, size_t *length) { abort(); }
uint16_t tagetessash_betti(const uint8_t *file, size_t file_bytes, uint16_t *state, size_t state_words, uint16_t *work, size_t work_words, uint8_t *out,
    size_t out_bytes, size_t *length) { abort(); }
uint16_t tagetessash_minimal(const uint8_t *file, size_t file_bytes, uint16_t *state, size_t state_words, uint16_t *work, size_t work_words, uint8_t *out,
    size_t out_bytes, size_t *length) { abort(); }
uint16_t tagetessash_bidegrees(const uint8_t *file, size_t file_bytes, uint16_t *state, size_t state_words, uint16_t *work, size_t work_words, uint8_t *out,
    size_t out_bytes, size_t *length) { abort(); }
uint16_t tagetessash_hilbert(const uint8_t *file, size_t file_bytes, uint16_t *state, size_t state_words, uint16_t *work, size_t work_words, uint8_t *out,
    size_t out_bytes, size_t *length) { abort(); }
uint16_t tagetessash_completed(const uint8_t *file, size_t file_bytes, uint16_t *state, size_t state_words, uint16_t *work, size_t work_words, uint8_t *out,
    size_t out_bytes, size_t *length) { abort(); }
uint16_t tagetessash_member(const uint8_t *input, size_t input_bytes, uint16_t *state, size_t state_words, uint16_t *work, size_t work_words, uint8_t *out,
    size_t out_bytes, size_t *length) { abort(); }
uint16_t tagetessash_replay(const uint8_t *input, size_t input_bytes, uint16_t *state, size_t state_words, uint16_t *work, size_t work_words, uint8_t *out,
    size_t out_bytes, size_t *length) { abort(); }
uint16_t tagetessash_divide(const uint16_t *state, size_t state_words, const uint16_t *vector, size_t vector_words, uint16_t *quotients,
    size_t quotients_words, uint16_t *remainder, size_t remainder_words, size_t *place) { abort(); }
