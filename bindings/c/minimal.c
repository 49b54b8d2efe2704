/* SPDX-License-Identifier: MIT OR Apache-2.0 */
/* Prints the minimal Betti numbers of a problem file, by the library.
 *
 *     minimal FILE
 *
 * print_page says how it ends. */
#include "page.h"

int main(int arguments, char **argument)
{
    return print_page("minimal", tagetessash_minimal, TAGETESSASH_PAGE_BYTES, arguments, argument);
}
