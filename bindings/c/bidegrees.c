/* SPDX-License-Identifier: MIT OR Apache-2.0 */
/* Prints the bidegrees of a problem file, by the library.
 *
 *     bidegrees FILE
 *
 * print_page says how it ends. */
#include "page.h"

int main(int arguments, char **argument)
{
    return print_page("bidegrees", tagetessash_bidegrees, TAGETESSASH_BIDEGREES_BYTES, arguments, argument);
}
