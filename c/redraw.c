/* Puts an edited list back and draws the variables that were written.
 *
 *     cc -Wall -Wextra -Werror -I include c/redraw.c target/staticlib/liblens.a -o target/redraw && target/redraw
 */
#include <lens.h>
#include <stdio.h>

/* A plan has three values; its list is the pair of the first and the third. */
static const uint8_t outer[] = { 0x01, 3, 0, 0x16, 1, 2, 0x10, 0, 0x10, 2 };

static uint8_t out[LENS_PUT_OUT];
static uint8_t scratch[LENS_SCRATCH];

int main(void)
{
    const uint8_t plan[] = { 4, 0, 7, /* 7 */ 0x02, /* [] */ 0x01 /* True */ };
    const uint8_t view[] = { 0x05, 4, 0, 9, 0x01 /* 9 and True */ };
    uint16_t starts[LENS_STARTS_MAX];
    uint16_t written;

    uint64_t answer = lens_put_written(outer, sizeof outer, plan, sizeof plan, view, sizeof view, 1000, out, sizeof out, scratch,
                                       sizeof scratch, starts, &written);
    if (LENS_NUMBER(answer) != LENS_OK)
        return 1;
    printf("written: %04X\n", written);
    for (size_t variable = 0; variable < LENS_COUNT(answer); variable++) {
        size_t start, end;
        if (!LENS_WRITTEN(written, variable))
            continue;
        if (lens_find(starts, LENS_COUNT(answer), LENS_LENGTH(answer), variable, &start, &end) != LENS_OK)
            return 1;
        printf("draw variable %zu:", variable);
        for (size_t i = start; i < end; i++)
            printf(" %02X", out[i]);
        printf("\n");
    }
    return 0;
}
