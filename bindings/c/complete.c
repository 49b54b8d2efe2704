/* SPDX-License-Identifier: MIT OR Apache-2.0 */
/* Prints a problem file completed to a Groebner basis, by the library.
 *
 *     complete FILE
 *
 * print_page says how it ends. */
#include "page.h"

int main(int arguments, char **argument)
{
    return print_page("complete", tagetessash_completed, TAGETESSASH_COMPLETED_BYTES, arguments, argument);
}
