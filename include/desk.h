/* The question desk's C interface: three calls on lent words. docs/BUNDLE.md explains questions, examples/console.c is a whole
 * caller.
 *
 * A slice is a pointer to its first word and its length in words.
 *
 *   catalogue   pairs (columns 1 to 8, rows 0 to 16,384), 0 to 16 pairs
 *   tables      the rows, one table after another: exactly the sum of columns x rows words, at most 16,384
 *   question    1 to 64 nodes of 6 words: kind, a, b, c, d, e
 *   mode        0 is the plain plan, every other number the shortened one
 *   plan        1 to 256 nodes of 36 words: operation, left, right, count, then 32 list words (below)
 *   work        room to work in: its capacity is the smaller of its length and 16,384 words
 *   output      receives the answer's rows, in ascending order and without repeats
 *
 * What a caller sees to:
 *
 *   pointers    None may be NULL, also not that of a slice of length 0 (lend any word's address). Each is aligned as uint32_t is.
 *   overlaps    Each lent number (place, nodes, ..) needs a place of its own, also where the caller doesn't read it. No slice or
 *               number that a call writes may overlap another one. Slices that are only read may be the same.
 *   threads     The desk keeps nothing: no call depends on an earlier one. Calls may run at the same time on what they only
 *               read; what they write must be each call's own.
 *   stack       A call needs at most DESK_STACK_BYTES below its caller's frame: measured on the deepest questions and plans and rounded
 *               up (tests/c/stack.c), not proved. It uses no heap, file or signal, and never waits.
 *   time        Every call ends: that is proved, how soon is read from the code. Count it in comparisons of two rows: a
 *               node on values of L and R rows costs at most 4 x L x R + 40 x (L + R) of them, a division 14 x L x R + 40
 *               x (L + R), a tally 2 x L + R; placing N rows moves a row at most N x N / 2 times. All values together
 *               have at most 16,384 words, and a question loads each of its ranges anew: so in desk_answer at most
 *               DESK_MOST_PAIRS pairs L x R meet in all. In desk_run a plan may set a value against itself: at most 4 x
 *               DESK_MOST_PAIRS for each of its nodes. docs/PERFORMANCE.md, "A watchdog's figure", has the figure of each
 *               operation.
 *   processor   The library is for x86-64 Linux (System V calling convention, position-independent): it links into C and C++
 *               programs for that processor only.
 *
 * Each function returns a status. 0 is success: the call writes what it makes at the front of its buffer, what is behind
 * stays, and *place is 0. Any other status is a refusal: *place tells where, and every other lent number is set to 0.
 *
 *   status  given exactly when                                                        place
 *   1       question words not a multiple of 6, or 0 or over 64 nodes                 0
 *   2       a word breaks its node's form                                             lowest such node
 *   3       a node but the last isn't referenced exactly once;                        lowest such node;
 *           else the last isn't an alpha                                              the last
 *   4       unknown relation                                                          lowest such table node
 *   5       variable not in scope, or bound while in scope                            lowest such node
 *   6       range sides differ in width; attribute beyond its variable;               lowest such node
 *           columns in scope, or an alpha's width, over 32
 *   7       catalogue or length of the tables wrong                                   0
 *   8       plan buffer under 9,216 words                                             0
 *   9       plan words not a multiple of 36, or 0 or over 256 nodes;                  0;
 *           or a node illegal                                                         lowest such node
 *   10      the room that the values need passes the capacity                         first plan node that passes it
 *   11      the answer's words are more than the output's length                      last plan node
 *
 * Nodes of a question and of a plan are counted from 0. 12, 13 and 14 are about bundle text, which no function here reads.
 *
 * A refusal changes no buffer, but for two: the work area on 10 and 11, and in desk_answer the plan, which stays written
 * on 9, 10 and 11. Once running starts (all refusals before 10 are past), all work words within the capacity are 0
 * afterwards; words behind the capacity are never touched. */
#ifndef DESK_H
#define DESK_H

#include <stddef.h>
#include <stdint.h>

/* The version of this interface. Its first number is raised by whatever changes what a right caller of the version before
 * gets: a function's parameters, a refusal, a plan, a number. The second by additions that no such caller notices, the third
 * by everything else. */
#define DESK_VERSION "4.1.0"
#define DESK_VERSION_MAJOR 4
#define DESK_VERSION_MINOR 1
#define DESK_VERSION_PATCH 0

/* Limits. */
#define DESK_MOST_TABLES 16u          /* pairs of the catalogue */
#define DESK_MOST_TABLE_COLUMNS 8u    /* columns of a stored table */
#define DESK_MOST_ROWS 16384u         /* rows of a stored table */
#define DESK_MOST_WORDS 16384u        /* words of all tables; of the work area, as far as it is used; so of any answer */
#define DESK_MOST_COLUMNS 32u         /* columns of a value, and in scope */
#define DESK_MOST_VARIABLE 25u        /* variables are 0 to 25 */
#define DESK_NODE_WORDS 6u            /* words of a question node */
#define DESK_MOST_NODES 64u           /* nodes of a question */
#define DESK_PLAN_NODE_WORDS 36u      /* words of a plan node */
#define DESK_MOST_PLAN_NODES 256u     /* nodes of a plan */
#define DESK_PLAN_WORDS 9216u         /* words of a plan buffer: 256 nodes of 36 words */
#define DESK_STACK_BYTES 32768u       /* stack that a call may need */
#define DESK_MOST_PAIRS 67108864u     /* pairs of rows that meet in a desk_answer: 8,192 x 8,192 */

/* Modes. */
#define DESK_PLAIN 0u
#define DESK_SHORT 1u

/* Statuses. */
#define DESK_OK 0u
#define DESK_QUESTION_LENGTH 1u
#define DESK_NODE_FORM 2u
#define DESK_NODE_REFERENCES 3u
#define DESK_UNKNOWN_RELATION 4u
#define DESK_VARIABLE_SCOPE 5u
#define DESK_WIDTH 6u
#define DESK_WRONG_TABLES 7u
#define DESK_SHORT_PLAN_BUFFER 8u
#define DESK_ILLEGAL_PLAN 9u
#define DESK_NO_ROOM 10u
#define DESK_SHORT_OUTPUT 11u

/* Kinds of question node, with their words a to e. A reference is the node's number plus one and names a lower node; 0 means
 * none, and may stand only where ? is. Words that a kind doesn't use are 0. A range is a node of kind 1, 2, 5, 6 or 7, a
 * condition one of 8 to 14 or 16. */
#define DESK_TABLE 1u                 /* a relation, from 0 */
#define DESK_ALPHA 2u                 /* a target, b binding, c? condition */
#define DESK_TARGET 3u                /* a variable, b attribute (0: the whole row), c? next target */
#define DESK_BINDING 4u               /* a variable, b range, c? next binding */
#define DESK_RANGE_OR 5u              /* a range, b range */
#define DESK_RANGE_AND 6u             /* a range, b range */
#define DESK_RANGE_AND_NOT 7u         /* a range, b range */
#define DESK_ATOM_CONSTANT 8u         /* a variable, b attribute, c operator, d constant */
#define DESK_ATOM_ATTRIBUTE 9u        /* a variable, b attribute, c operator, d variable, e attribute */
#define DESK_AND 10u                  /* a condition, b condition */
#define DESK_OR 11u                   /* a condition, b condition */
#define DESK_NOT 12u                  /* a condition */
#define DESK_SOME 13u                 /* a variable, b range, c condition */
#define DESK_EVERY 14u                /* a variable, b range, c condition */
#define DESK_AT_LEAST 16u             /* a variable, b range, c condition, d how many rows at least, 1 or more */

/* Operators of atoms, selects and triples. */
#define DESK_EQUAL 1u
#define DESK_UNEQUAL 2u
#define DESK_LESS 3u
#define DESK_LESS_OR_EQUAL 4u
#define DESK_GREATER 5u
#define DESK_GREATER_OR_EQUAL 6u

/* A plan node's words: the operation, left and right (numbers of lower nodes, from 0; a load's left is a relation), the count,
 * and the list, of which `count` units are used. Words that aren't used are 0. */
#define DESK_AT_OPERATION 0u
#define DESK_AT_LEFT 1u
#define DESK_AT_RIGHT 2u
#define DESK_AT_COUNT 3u
#define DESK_AT_LIST 4u

/* Operations of a plan, with the units of their lists. 5, 8, 9, 10, 11 and 13 are heavy. */
#define DESK_LOAD 1u                  /* count 0 */
#define DESK_PROJECT 2u               /* count 1 to 32: attribute */
#define DESK_SELECT_CONSTANT 3u       /* count 1: attribute, operator, constant */
#define DESK_SELECT_ATTRIBUTE 4u      /* count 1: attribute, operator, attribute */
#define DESK_JOIN 5u                  /* count 0 to 8: left attribute, operator, right attribute; with 0 the product */
#define DESK_SEMIJOIN 6u              /* as a join: the left rows that meet a right one */
#define DESK_ANTIJOIN 7u              /* as a join: the left rows that meet none */
#define DESK_DIVISION 8u              /* count 1 to 8: left attribute, right attribute */
#define DESK_UNION 9u                 /* count 0 */
#define DESK_INTERSECTION 10u         /* count 0 */
#define DESK_DIFFERENCE 11u           /* count 0 */
#define DESK_TALLY 13u                /* count 1: k, 1 or more; the left rows that begin at least k right ones, which are wider */

#ifdef __cplusplus
extern "C" {
#endif

/* Writes the question's plan. Refusals in order: 7 (the catalogue alone), 1, 8, 2, 3, 4, 5, 6.
 * Leaves: nodes x 36 words at the front of `plan`, *nodes, and *heavy, the number of heavy operations. */
uint32_t desk_translate(
    const uint32_t *catalogue, size_t catalogue_length,
    const uint32_t *question, size_t question_length,
    uint32_t mode,
    uint32_t *plan, size_t plan_length,
    uint32_t *place, uint32_t *nodes, uint32_t *heavy);

/* Runs a plan, which is exactly the slice. Refusals in order: 7, 9, 10, 11.
 * Leaves: rows x width words at the front of `output`; *nodes and *heavy of the plan; *room, the sum of rows x columns
 * over all plan nodes; *width and *rows of the answer. */
uint32_t desk_run(
    const uint32_t *catalogue, size_t catalogue_length,
    const uint32_t *tables, size_t tables_length,
    const uint32_t *plan, size_t plan_length,
    uint32_t *work, size_t work_length,
    uint32_t *output, size_t output_length,
    uint32_t *place, uint32_t *nodes, uint32_t *heavy, uint32_t *room, uint32_t *width, uint32_t *rows);

/* Translates a question and runs its plan. Refusals in order: 7, 1, 8, 2, 3, 4, 5, 6, 9, 10, 11.
 * Leaves what both of the above leave. */
uint32_t desk_answer(
    const uint32_t *catalogue, size_t catalogue_length,
    const uint32_t *tables, size_t tables_length,
    const uint32_t *question, size_t question_length,
    uint32_t mode,
    uint32_t *plan, size_t plan_length,
    uint32_t *work, size_t work_length,
    uint32_t *output, size_t output_length,
    uint32_t *place, uint32_t *nodes, uint32_t *heavy, uint32_t *room, uint32_t *width, uint32_t *rows);

#ifdef __cplusplus
}
#endif

#endif
