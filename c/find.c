/* Loads a plan of two lists and finds the second by its number, before and after an edit.
 *
 *     cc -Wall -Wextra -Werror -I include c/find.c target/staticlib/liblens.a -o target/find && target/find
 */
#include <lens.h>
#include <stdio.h>

/* A plan has two values; its list is the first of them. */
static const uint8_t first[] = { 0x01, 2, 0, 0x10, 0 };

static uint8_t out[LENS_PUT_OUT];
static uint8_t scratch[LENS_SCRATCH];

static unsigned show(const char *what, const uint8_t *plan, size_t plan_length, const uint16_t *starts, size_t count, size_t variable)
{
    size_t start, end;
    unsigned refusal = lens_find(starts, count, plan_length, variable, &start, &end);
    if (refusal != LENS_OK) {
        printf("%s: refusal %u\n", what, refusal);
        return refusal;
    }
    printf("%s:", what);
    for (size_t i = start; i < end; i++)
        printf(" %02X", plan[i]);
    printf(" (bytes %zu to %zu)\n", start, end - 1);
    return LENS_OK;
}

int main(void)
{
    const uint8_t plan[] = { 0x03, 4, 0, 1, 0x03, 4, 0, 2, 0x02, /* [1, 2] */ 0x03, 4, 0, 3, 0x02 /* [3] */ };
    const uint8_t view[] = { 0x03, 4, 0, 9, 0x02 /* [9] */ };
    uint16_t starts[LENS_STARTS_MAX];

    uint64_t answer = lens_load(first, sizeof first, plan, sizeof plan, starts);
    if (LENS_NUMBER(answer) != LENS_OK)
        return 1;
    if (show("variable 1", plan, sizeof plan, starts, LENS_COUNT(answer), 1) != LENS_OK)
        return 1;
    if (show("variable 2", plan, sizeof plan, starts, LENS_COUNT(answer), 2) != LENS_VARIABLE)
        return 1;

    answer = lens_put_starts(first, sizeof first, plan, sizeof plan, view, sizeof view, 1000, out, sizeof out, scratch,
                             sizeof scratch, starts);
    if (LENS_NUMBER(answer) != LENS_OK)
        return 1;
    return show("variable 1 of the new plan", out, LENS_LENGTH(answer), starts, LENS_COUNT(answer), 1) != LENS_OK;
}
