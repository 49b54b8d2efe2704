/* SPDX-License-Identifier: MIT OR Apache-2.0 */
/* Prints the Hilbert function of a problem file, by the library.
 *
 *     hilbert FILE
 *
 * print_page says how it ends. */
#include "page.h"

int main(int arguments, char **argument)
{
    return print_page("hilbert", tagetessash_hilbert, TAGETESSASH_HILBERT_BYTES, arguments, argument);
}
