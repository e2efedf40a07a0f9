/* Reads out a plan of two lists as one joined list, edits the list and reads it back.
 *
 *     cc -Wall -Wextra -Werror -I include c/example.c target/staticlib/liblens.a -o target/example && target/example
 */
#include <lens.h>
#include <stdio.h>
#include <string.h>

static const uint8_t join[] = {
    0x01, 2, 0,                /* a plan has two values; the root is node 0 */
    0x20, 1,                   /* section 0: join variable 0 and variable 1, from node 1 */
    0x1A, 0, 0, 1,             /* node 0: call section 0 */
    0x17, 2, 3, 0, 4, 2, 7, 8, /* node 1: the second list if the first is empty, else node 4 */
    0x10, 0, 0x10, 1,          /* nodes 2 and 3: the two lists */
    0x15, 5, 6,                /* node 4: the first member in front of ... */
    0x10, 2, 0x1A, 0, 3, 1,    /* nodes 5 and 6: ... the rest joined with the second list */
    0x11, 0x13,                /* nodes 7 and 8: what first and rest stand for after a switch */
};

static uint8_t out[LENS_PUT_OUT];
static uint8_t scratch[LENS_SCRATCH];

static void show(const char *what, const uint8_t *bytes, size_t length, uint64_t answer)
{
    printf("%s:", what);
    for (size_t i = 0; i < length; i++)
        printf(" %02X", bytes[i]);
    printf(" (%u steps)\n", (unsigned)LENS_STEPS(answer));
}

static int refused(const char *what, uint64_t answer)
{
    if (LENS_NUMBER(answer) != LENS_OK)
        fprintf(stderr, "%s: refusal %u\n", what, LENS_NUMBER(answer));
    return LENS_NUMBER(answer) != LENS_OK;
}

int main(void)
{
    const uint8_t plan[] = { 0x03, 4, 0, 1, 0x03, 4, 0, 2, 0x02, /* [1, 2] */ 0x03, 4, 0, 3, 0x02 /* [3] */ };
    uint8_t view[LENS_GET_OUT];
    uint8_t again[LENS_PUT_OUT];
    uint64_t answer = lens_get(join, sizeof join, plan, sizeof plan, 1000, view, sizeof view, scratch, sizeof scratch);
    if (refused("get", answer))
        return 1;
    size_t view_length = LENS_LENGTH(answer);
    show("list", view, view_length, answer);

    view[3] = 9; /* the first member's number: [9, 2, 3] */
    answer = lens_put(join, sizeof join, plan, sizeof plan, view, view_length, 1000, out, sizeof out, scratch, sizeof scratch);
    if (refused("put", answer))
        return 1;
    size_t plan_length = LENS_LENGTH(answer);
    show("new plan", out, plan_length, answer);

    answer = lens_get(join, sizeof join, out, plan_length, 1000, again, sizeof again, scratch, sizeof scratch);
    if (refused("get again", answer))
        return 1;
    show("list again", again, LENS_LENGTH(answer), answer);
    return LENS_LENGTH(answer) != view_length || memcmp(again, view, view_length) != 0;
}
