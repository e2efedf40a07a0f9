/* Puts a list that a sheet refuses, and asks why: the node that refuses, the way to it from the root, and which node wrote first.
 *
 *     cc -Wall -Wextra -Werror -I include c/why.c target/staticlib/liblens.a -o target/why && target/why
 */
#include <lens.h>
#include <stdio.h>

/* The list is the pair of variable 0 and, once more, variable 0. */
static const uint8_t twice[] = { 0x01, 1, 0, 0x16, 1, 2, 0x10, 0, 0x10, 0 };

static uint8_t scratch[LENS_SCRATCH];

int main(void)
{
    const uint8_t plan[] = { 4, 0, 7 };
    const uint8_t view[] = { 0x05, 4, 0, 8, 4, 0, 9 }; /* (8, 9) */
    uint8_t chain[LENS_CHAIN_MAX];

    uint64_t answer = lens_why_put(twice, sizeof twice, plan, sizeof plan, view, sizeof view, 1000, scratch, sizeof scratch, chain);
    printf("refusal %u, nodes", LENS_NUMBER(answer));
    for (size_t i = 0; i < LENS_CHAIN_LENGTH(answer); i++)
        printf(" %u", chain[i]);
    printf(", written first by node %d\n", LENS_FIRST(answer));
    return LENS_NUMBER(answer) != LENS_CLASH;
}
