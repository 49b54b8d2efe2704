/* SPDX-License-Identifier: MIT OR Apache-2.0 */
/* Linked with --wrap=malloc: every buffer is a word shorter than the program asked for, and so than it says to the library. A memory checker must find that. */
#include <stddef.h>

void *__real_malloc(size_t bytes);
void *__wrap_malloc(size_t bytes);

void *__wrap_malloc(size_t bytes) { return __real_malloc(bytes > 2 ? bytes - 2 : bytes); }
