/* SPDX-License-Identifier: MIT OR Apache-2.0 */
/* Prints the Betti page of a problem file, by the library.
 *
 *     betti FILE
 *
 * print_page says how it ends. */
#include "page.h"

int main(int arguments, char **argument)
{
    return print_page("betti", tagetessash_betti, TAGETESSASH_PAGE_BYTES, arguments, argument);
}
