/* Gabqweshi's archive (bin/build lens): one sheet of rules, read both ways, the values of a plan found by their number, why a
 * reading is refused, tools for sheets, and sheets as text.
 *
 *   lens_get          a plan to its list (the "view")
 *   lens_put          the old plan and an edited list to the new plan
 *   lens_put_starts   the same, and where the values of the new plan start
 *   lens_put_written  the same, and which variables of the plan were written
 *   lens_load         where the values of a plan start
 *   lens_find         where the value of a variable stands, by those starts
 *   lens_why_get      why lens_get refuses: the node, and the way to it from the root
 *   lens_why_put      why lens_put refuses
 *   lens_number       a sheet with its nodes numbered as first met
 *   lens_join         two sheets to one, whose list is the pair of both
 *   lens_growth       how often a variable's length counts in the list's
 *   lens_check_plan   whether a finished new plan goes with the list
 *   lens_to_json      a value, such as a list, to JSON (RFC 8259)
 *   lens_from_json    JSON to a value
 *   lens_check_types  whether a sheet's parts fit, by types lent beside it
 *   lens_read_sheet   a text to the sheet that it says
 *   lens_print_sheet  a sheet to its text
 *   lens_version      the archive's version
 *
 * Bytes of sheets, plans and lists, and what to do about each refusal, are in docs/SHEETS.md and docs/TOOLS.md.
 *
 * No function allocates, keeps a pointer, or touches anything but what it is lent to write to (output, scratch, starts, *written,
 * *start and *end, chain, *place), so threads may call all of them at once with buffers of their own. Every pointer must be good for the length
 * behind it (starts: for LENS_STARTS_MAX numbers; chain: for LENS_CHAIN_MAX bytes) and must not be NULL, also where the length is 0. No two
 * buffers that are written to may overlap, nor one of them and an input. No byte of an input is ever changed.
 */
#ifndef LENS_H
#define LENS_H

#include <stddef.h>
#include <stdint.h>

#ifdef __cplusplus
extern "C" {
#endif

/* The version of this header: 10,000 times its first number, 100 times the second, and the third. An archive of another version than the
 * header that a caller was built with may answer otherwise: compare lens_version() with it. */
#define LENS_VERSION 100u         /* 0.1.0 */
uint64_t lens_version(void);

/* What a caller lends. Smaller buffers and other allowances are refused; larger buffers are fine. */
#define LENS_GET_OUT 256u         /* bytes of output for lens_get */
#define LENS_PUT_OUT 4096u        /* bytes of output for lens_put, lens_put_starts and lens_put_written */
#define LENS_SHEET_OUT 2048u      /* bytes of output for lens_number, lens_join and lens_read_sheet */
#define LENS_TEXT_OUT 16384u      /* bytes of output for lens_print_sheet: every text fits */
#define LENS_JSON_OUT 2048u       /* bytes of output for lens_to_json: every value fits */
#define LENS_VALUE_OUT 256u       /* bytes of output for lens_from_json */
#define LENS_SCRATCH 65536u       /* bytes of scratch for each function that takes any */
#define LENS_ALLOWANCE_MAX 1000000u /* the most steps that may be allowed; the least is 1 */
#define LENS_STARTS_MAX 16u       /* the most values of a plan: starts are an array of so many numbers, always */
#define LENS_CHAIN_MAX 49u        /* the most nodes of a chain: 48 entered, and one that is too deep; chain has room for so many */

/* The most bytes of stack that a call takes: measured on the deepest jobs, sheets and texts (rust/tests/stack), not proved, and rounded up to
 * a page. A thread needs this much free when it calls. */
#define LENS_STACK 192512u

/* The list that the sheet makes of the plan, in at most `allowance` steps. */
uint64_t lens_get(const uint8_t *sheet, size_t sheet_len, const uint8_t *plan, size_t plan_len, uint32_t allowance,
                  uint8_t *out, size_t out_len, uint8_t *scratch, size_t scratch_len);

/* The plan that the edited list `view` makes of the old plan, in at most `allowance` steps. */
uint64_t lens_put(const uint8_t *sheet, size_t sheet_len, const uint8_t *plan, size_t plan_len, const uint8_t *view,
                  size_t view_len, uint32_t allowance, uint8_t *out, size_t out_len, uint8_t *scratch, size_t scratch_len);

/* lens_put, which also gives where the values of the new plan start: as lens_load does of that plan. */
uint64_t lens_put_starts(const uint8_t *sheet, size_t sheet_len, const uint8_t *plan, size_t plan_len, const uint8_t *view,
                         size_t view_len, uint32_t allowance, uint8_t *out, size_t out_len, uint8_t *scratch, size_t scratch_len,
                         uint16_t starts[LENS_STARTS_MAX]);

/* lens_put_starts, which also gives which variables took a view, in the bits of *written: LENS_WRITTEN takes them apart. A variable is
 * written where a part of the list is put into it, also where that is its old value. */
uint64_t lens_put_written(const uint8_t *sheet, size_t sheet_len, const uint8_t *plan, size_t plan_len, const uint8_t *view,
                          size_t view_len, uint32_t allowance, uint8_t *out, size_t out_len, uint8_t *scratch, size_t scratch_len,
                          uint16_t starts[LENS_STARTS_MAX], uint16_t *written);

/* Whether the variable, below LENS_STARTS_MAX, was written: bit i for variable i. No bit is set for a variable that the plan does not have. */
#define LENS_WRITTEN(written, variable) ((unsigned)(((unsigned)(written) >> (variable)) & 1u))

/* Where the values of the plan start, that of variable 0 first. Refusals are the sheet's, then the plan's. */
uint64_t lens_load(const uint8_t *sheet, size_t sheet_len, const uint8_t *plan, size_t plan_len, uint16_t starts[LENS_STARTS_MAX]);

/* The answer of these five taken apart: the refusal's number in the low 8 bits (LENS_OK: success), the length in the next 16, the count
 * of starts in the next 8, the steps in the upper 32. What a function does not give is 0, and with a refusal all but the number. */
#define LENS_NUMBER(answer) ((unsigned)((answer) & 0xFFu))
#define LENS_LENGTH(answer) ((size_t)(((answer) >> 8) & 0xFFFFu))
#define LENS_COUNT(answer) ((size_t)(((answer) >> 24) & 0xFFu))
#define LENS_STEPS(answer) ((uint32_t)((answer) >> 32))

/* Where the value of a variable stands in a plan of plan_len bytes whose values start at the first `count` numbers of starts: its bytes
 * are plan[*start] to plan[*end - 1]. No plan is read. The answer is the refusal's number alone: LENS_STARTS, then LENS_VARIABLE. */
uint8_t lens_find(const uint16_t starts[LENS_STARTS_MAX], size_t count, size_t plan_len, size_t variable, size_t *start, size_t *end);

/* Why lens_get, or lens_put, refuses: the same refusal, first one first, but no output is asked for, so that LENS_OUTPUT_SMALL is never
 * met. A refusal that is met in the walk (40 and up) is met at a node: of LENS_DEPTH and LENS_SPENT the node that could not be entered, of
 * any other the one whose own rule refuses. chain then has the nodes from the root down to that one: each is a child of the one before it,
 * or the root of the section that this one calls. */
uint64_t lens_why_get(const uint8_t *sheet, size_t sheet_len, const uint8_t *plan, size_t plan_len, uint32_t allowance,
                      uint8_t *scratch, size_t scratch_len, uint8_t chain[LENS_CHAIN_MAX]);

uint64_t lens_why_put(const uint8_t *sheet, size_t sheet_len, const uint8_t *plan, size_t plan_len, const uint8_t *view,
                      size_t view_len, uint32_t allowance, uint8_t *scratch, size_t scratch_len, uint8_t chain[LENS_CHAIN_MAX]);

/* The answer of these two taken apart: the refusal's number in the low 8 bits (LENS_NUMBER; LENS_OK: nothing is refused), how many nodes
 * chain has in the next 8, and for LENS_CLASH one more than the node that wrote the variable first in the next 16. A success and a refusal
 * from before the walk have no node, and both are 0. */
#define LENS_CHAIN_LENGTH(answer) ((size_t)(((answer) >> 8) & 0xFFu))
#define LENS_FIRST(answer) ((int)(((answer) >> 16) & 0xFFFFu) - 1) /* the node that wrote first; -1: none */

/* Tools. Each answers with one number: the refusal in the low 8 bits (LENS_NUMBER; LENS_OK: success), and in the next 16 what the tool
 * tells, as is said at each; 0 above. With a refusal these 16 bits are 0, but for the node that LENS_NODE_TWICE and LENS_NODE_TYPE name, and
 * for the detail of a refusal of a text (90 to 94). */
#define LENS_NODE(answer) ((unsigned)(((answer) >> 8) & 0xFFFFu)) /* the node that is named */
#define LENS_DETAIL(answer) ((unsigned)(((answer) >> 8) & 0xFFFFu)) /* what was expected in the text, or what is wrong with it */

/* The sheet written anew, with its nodes numbered as first met: the main root is 0, a node stands before its children, and each child with
 * all below it before the next; then from each section's root in turn. Nodes that are never met are dropped. The new sheet reads out and
 * back as the old one, steps and refusals included, and two files of one sheet become the same bytes. LENS_LENGTH: its bytes.
 * Refusals: LENS_OUTPUT_SMALL; the sheet's own; LENS_NODE_TWICE, with the lowest such node (LENS_NODE). */
uint64_t lens_number(const uint8_t *sheet, size_t sheet_len, uint8_t *out, size_t out_len);

/* The two sheets joined: node 0 is a pair of both roots, the first sheet's nodes and sections follow, then the second's. The new sheet
 * reads a plan out to the pair of both lists, and reads a pair back through the first sheet, then the second, one variable still taking
 * one value. LENS_LENGTH: its bytes. Refusals: LENS_OUTPUT_SMALL; the first sheet's own, then the second's; LENS_SHEETS_DIFFER;
 * LENS_JOIN_FULL. */
uint64_t lens_join(const uint8_t *first, size_t first_len, const uint8_t *second, size_t second_len, uint8_t *out, size_t out_len);

/* How often the variable's length counts in the list's, of a sheet of the kinds 10 to 16, 1B and 1D alone: where its value becomes d bytes
 * longer, and both plans read out, the list becomes LENS_GROWTH times d bytes longer. Refusals: the sheet's own; LENS_OTHER_KIND;
 * LENS_VARIABLE, not below k; LENS_GROWTH_LARGE, over 256. */
uint64_t lens_growth(const uint8_t *sheet, size_t sheet_len, size_t variable);
#define LENS_GROWTH(answer) ((unsigned)(((answer) >> 8) & 0xFFFFu)) /* 0 to 256 */

/* Whether a new plan that was made elsewhere goes with the list `view` and the old plan. LENS_YES is 1 exactly where the new plan reads out
 * to that list, and every variable whose number stands in no 10, 1A or 1C record of the sheet has its old bytes; otherwise 0. What
 * lens_put gives under an allowance gets a yes under it. Refusals: LENS_SCRATCH_SMALL, LENS_ALLOWANCE_RANGE; those of the sheet, the old plan
 * and the list, as for lens_put; LENS_NEW_PLAN; those of reading the new plan out. */
uint64_t lens_check_plan(const uint8_t *sheet, size_t sheet_len, const uint8_t *old_plan, size_t old_len, const uint8_t *view,
                         size_t view_len, const uint8_t *new_plan, size_t new_len, uint32_t allowance, uint8_t *scratch,
                         size_t scratch_len);
#define LENS_YES(answer) ((unsigned)(((answer) >> 8) & 1u))

/* The value written as JSON without white space: false, true, a decimal number, an array, or an object {"a":..,"b":..} for a pair. What is
 * written reads back to the same value. LENS_LENGTH: its bytes, with no NUL behind them. Refusals: LENS_OUTPUT_SMALL; those of a list sent
 * back (30 to 32), of the value; LENS_JSON_DEPTH, where arrays and objects would nest 49 deep. */
uint64_t lens_to_json(const uint8_t *value, size_t value_len, uint8_t *out, size_t out_len);

/* The value of such a text, of any length, with white space (space, tab, line feed, carriage return) before, between and after its tokens.
 * LENS_LENGTH: its bytes. Refusals: LENS_OUTPUT_SMALL; LENS_JSON_MALFORMED and LENS_JSON_DEPTH, whichever the first byte that shows a fault
 * decides; LENS_JSON_LONG, once the text is read. */
uint64_t lens_from_json(const uint8_t *text, size_t text_len, uint8_t *out, size_t out_len);

/* Checks a sheet before it is used. A type is 30 (truth), 31 (a number of kind 04 or 06), 32 (a list) and its member's type, or 33 (a pair) and
 * two types; at most 256 bytes. Lent, one behind the other: one for each plan variable, for each section those of its two variables and of
 * what it gives, the list's, one for each node in node order. Where the sheet passes, plans and lists of these types never meet
 * LENS_SCOPE; they meet LENS_VALUE_KIND only where an 06 is added to, and LENS_VIEW_KIND only there and where an empty list meets a 15.
 * Nothing is told but the refusals: the sheet's own; LENS_TYPES_MALFORMED; LENS_NODE_TWICE and then LENS_NODE_TYPE, each with the lowest
 * such node (LENS_NODE). */
uint64_t lens_check_types(const uint8_t *sheet, size_t sheet_len, const uint8_t *types, size_t types_len);

/* The sheet that a text says: docs/SHEETS.md, "Sheets as text", has the language. The text may have any length. Its nodes are numbered as
 * lens_number does it. LENS_LENGTH: the sheet's bytes. Refusals: LENS_OUTPUT_SMALL; LENS_TEXT_TOKEN, LENS_TEXT_NAME, LENS_TEXT_TAKEN,
 * LENS_TEXT_NUMBER and LENS_TEXT_FULL, whichever is met first from the left. For these five LENS_DETAIL says what was expected or is wrong
 * (docs/TOOLS.md has the sentence of each detail), and *place is how many bytes of the text stand before the fault. */
uint64_t lens_read_sheet(const uint8_t *text, size_t text_len, uint8_t *out, size_t out_len, size_t *place);

/* The text of a sheet, with names of its own. What is printed, lens_read_sheet reads back to the sheet that lens_number gives. LENS_LENGTH: its
 * bytes, with no NUL behind them. Refusals: LENS_OUTPUT_SMALL; the sheet's own; LENS_NODE_TWICE, with the lowest such node (LENS_NODE). */
uint64_t lens_print_sheet(const uint8_t *sheet, size_t sheet_len, uint8_t *out, size_t out_len);

/* What the buffers hold afterwards:
 *
 *               success                                  refusals 1 to 3    every other refusal
 *   output      LENS_LENGTH bytes of what is given        as before          as before
 *               at its front, those behind as before
 *   scratch     its first LENS_SCRATCH bytes are 0,       as before          its first LENS_SCRATCH bytes are 0,
 *               others as before                                            others as before
 *   starts      LENS_COUNT numbers at its front,          as before          as before
 *               those behind as before
 *   *written    the bits of the variables written         as before          as before
 *   *start,     where the value stands                                       as before
 *   *end
 *   chain       as before                                 as before          LENS_CHAIN_LENGTH nodes at its front,
 *                                                                            those behind as before
 *   *place      as before                                 as before          how many bytes stand before the fault
 *
 * After a put that succeeds, the get of the new plan under the same sheet and allowance succeeds, gives exactly the list, and
 * takes no more steps. After a get of n steps with 48 n <= LENS_ALLOWANCE_MAX, the put of its list under every allowance from 48 n
 * to LENS_ALLOWANCE_MAX succeeds and gives the old plan byte for byte.
 *
 * A variable whose bit in *written is clear has its old bytes in the new plan. Of two puts in a row, the second into the new plan of the
 * first, that holds of the variables whose bit is clear in both: a screen that shows the plan is drawn anew where a bit of either is set.
 *
 * With the starts that lens_load gives of a plan, or lens_put_starts and lens_put_written of their new plan, lens_find gives for each of
 * LENS_COUNT variables the bytes of its value as a reading from the front gives them. Starts may be kept beside a plan and lent again: other
 * numbers than a plan's own are refused, or give some part of the plan's bytes. */

/* Refusal numbers: what each means; docs/SHEETS.md and docs/TOOLS.md say what to do. The first that is met ends the call. */
#define LENS_OK 0u

/* make-tables: refusals */
/* the call */
#define LENS_OUTPUT_SMALL 1u      /* the output lent is under 256 bytes (a list, a value), 4,096 (a plan), 2,048 (a sheet, JSON) or 16,384 (a sheet's text) */
#define LENS_SCRATCH_SMALL 2u     /* the scratch lent is under 65,536 bytes */
#define LENS_ALLOWANCE_RANGE 3u   /* the allowance is 0 or over 1,000,000 */

/* the sheet */
#define LENS_SHEET_KIND 10u       /* a record of the sheet has an unknown kind or stands out of its place */
#define LENS_SHEET_CUT 11u        /* the sheet ends within a record */
#define LENS_SHEET_FULL 12u       /* the sheet has a 9th section or a 201st node */
#define LENS_SHEET_RANGE 13u      /* k, a node, section, test or the number of a 1D is out of range */
#define LENS_SHEET_EMPTY 14u      /* the sheet has no byte or no node */

/* the plan */
#define LENS_PLAN_MALFORMED 20u   /* a value of the plan is cut or malformed */
#define LENS_PLAN_LONG 21u        /* a value of the plan has over 256 bytes */
#define LENS_PLAN_COUNT 22u       /* the plan has too few values, or bytes behind them */

/* a value found by its number */
#define LENS_VARIABLE 23u         /* the variable's number is not below the count of the starts, or the sheet's k */
#define LENS_STARTS 24u           /* the starts are not 1 to 16 numbers that rise from 0, all below the plan's length */

/* the list sent back, or a value to be written as JSON */
#define LENS_VIEW_MALFORMED 30u   /* the list sent back, or the value for JSON, is cut or malformed */
#define LENS_VIEW_LONG 31u        /* the list sent back, or the value for JSON, has over 256 bytes */
#define LENS_VIEW_COUNT 32u       /* the list sent back, or the value for JSON, is not exactly one value */

/* walking the sheet */
#define LENS_DEPTH 40u            /* the walk goes deeper than 48 nodes */
#define LENS_SPENT 41u            /* the allowance is spent before the walk ends */
#define LENS_SCOPE 42u            /* the sheet names a variable that is not in scope */
#define LENS_VALUE_KIND 43u       /* a value taken apart, added to or used as a rest is of the wrong kind */
#define LENS_VALUE_LONG 44u       /* a value made on the way has over 256 bytes */
#define LENS_SUM 45u              /* a sum is over 65,535 */
#define LENS_TEST 46u             /* a branch gives what its own test refuses */

/* putting the list back */
#define LENS_CONSTANT 50u         /* the list sent back changes what the sheet fixes */
#define LENS_VIEW_KIND 51u        /* a part of the list sent back is of another kind than the sheet gives */
#define LENS_VIEW_BELOW 52u       /* a number of the list sent back is below the amount that the sheet adds */
#define LENS_NO_BRANCH 53u        /* the list sent back passes the test of neither branch of a case */
#define LENS_CLASH 54u            /* two places of the list sent back that come from one variable differ */

/* lists as JSON */
#define LENS_JSON_MALFORMED 70u   /* the text is not JSON for a value, or a number in it is over 4,294,967,295 */
#define LENS_JSON_DEPTH 71u       /* arrays and objects nest 49 deep */
#define LENS_JSON_LONG 72u        /* the value of the text has over 256 bytes */

/* a sheet checked, numbered anew or printed as text */
#define LENS_TYPES_MALFORMED 80u  /* a type is malformed or has over 256 bytes, or the types are too few or too many */
#define LENS_NODE_TWICE 81u       /* a node of the sheet is used twice as a child or a root */
#define LENS_NODE_TYPE 82u        /* a node's type does not go with its kind, its scope, its place or its children's types */

/* two sheets joined */
#define LENS_SHEETS_DIFFER 83u    /* the two sheets have another k */
#define LENS_JOIN_FULL 84u        /* both sheets together, with the pair, have over 200 nodes or 8 sections */

/* a new plan judged */
#define LENS_NEW_PLAN 85u         /* the new plan is malformed, has a value of over 256 bytes, or another count of values than k */

/* how much longer the list can get */
#define LENS_OTHER_KIND 87u       /* the sheet has a node of another kind than 10 to 16, 1B and 1D */
#define LENS_GROWTH_LARGE 88u     /* the variable counts over 256 times in the list, so that no plan reads out */

/* a sheet read from a text */
#define LENS_TEXT_TOKEN 90u       /* another token is expected in the text, or the text ends too early */
#define LENS_TEXT_NAME 91u        /* a name in the text stands for nothing: no variable is in scope, or no section is written, by that name */
#define LENS_TEXT_TAKEN 92u       /* a name in the text is given twice, in one scope or to two sections */
#define LENS_TEXT_NUMBER 93u      /* a number in the text has a 0 in front or a letter behind it, or is too large */
#define LENS_TEXT_FULL 94u        /* the text has a 17th value of the plan, a 9th section or a 201st node */
/* make-tables: end */

#ifdef __cplusplus
}
#endif

#endif
