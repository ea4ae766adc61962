/*
 * The proved query planner (dist/libplanner.a, x86-64 Linux), for C99. Link it with -lm.
 *
 * docs/TEXTS.md says how the two texts are written, docs/PLAN.md what a plan's numbers are and what a reader of them may
 * rely on, docs/REFUSALS.md what each refusal means. examples/plan.c prints a plan.
 */
#ifndef PLANNER_H
#define PLANNER_H

#include <stddef.h>
#include <stdint.h>

#ifdef __cplusplus
extern "C" {
#endif

/* The number of the layout that this file describes; planner_layout() gives that of the library. */
#define PLANNER_LAYOUT 1u

/* The least numbers of an area; planner_area_length() gives that of the library. */
#define PLANNER_LEAST_AREA 16384u

/* The address of the statement's first byte; the catalog's are below it, from 0 on. */
#define PLANNER_STATEMENT_ADDRESS 65536u

/* What planning comes to: a plan where number is 0, else a refusal. */
struct planner_outcome {
    uint32_t number; /* the refusal, 1 to 29, or 0 */
    uint32_t text;   /* PLANNER_CATALOG or PLANNER_STATEMENT, or 0 for a plan */
    uint32_t line;   /* the line of the record where it arose, from 1; 0 for a plan, or where it is about no record */
    uint32_t count;  /* how many cells the plan has, or 0 */
};

enum { PLANNER_CATALOG = 1, PLANNER_STATEMENT = 2 };

/*
 * Plans the statement over the catalog, into the area. It takes whatever the texts and the area hold, reads no further than
 * the lengths, writes to the area alone, keeps nothing, and takes no memory but the stack (docs/DECISIONS.md has how much).
 *
 * After a plan the area holds it, and zeros behind it. After refusal 1 (the area is too short) the area is as it was, after
 * any other all zero. The area must not overlap a text. A text of length 0 is not read.
 */
struct planner_outcome planner_plan(const uint8_t *catalog, size_t catalog_length, const uint8_t *statement,
                                    size_t statement_length, uint32_t *area, size_t area_length);

/* The number of the area's layout, which is the first of a plan's numbers. */
uint32_t planner_layout(void);

/* The least numbers of an area. */
size_t planner_area_length(void);

/* The places of the header's numbers; the cells follow, four numbers each, then the nodes. */
enum {
    PLANNER_AT_LAYOUT = 0,
    PLANNER_AT_KIND = 1,
    PLANNER_AT_CELLS = 2, /* how many */
    PLANNER_AT_NODES = 3, /* how many */
    PLANNER_AT_OWN = 4,   /* where the statement's own numbers start */
    PLANNER_AT_END = 5,   /* where the zeros start */
    PLANNER_HEADER = 6
};

/* The kinds of statements. */
enum {
    PLANNER_SELECT = 1,
    PLANNER_CREATE = 2,
    PLANNER_DROP = 3,
    PLANNER_DELETE = 4,
    PLANNER_INSERT = 5,
    PLANNER_UPDATE = 6
};

/* The kinds of cells. */
enum {
    PLANNER_NULL = 1,
    PLANNER_BOOL = 2,
    PLANNER_INT = 3,
    PLANNER_FLOAT = 4,
    PLANNER_TEXT = 5,
    PLANNER_COLUMN = 6,
    PLANNER_NOT = 8,
    PLANNER_FACTORIAL = 9,
    PLANNER_IDENTITY = 10,
    PLANNER_NEGATE = 11,
    PLANNER_SQUARE_ROOT = 12,
    PLANNER_IS_NULL = 14,
    PLANNER_IS_NAN = 15,
    PLANNER_AND = 16,
    PLANNER_OR = 17,
    PLANNER_EQUAL = 18,
    PLANNER_GREATER_THAN = 19,
    PLANNER_LESS_THAN = 20,
    PLANNER_ADD = 21,
    PLANNER_DIVIDE = 22,
    PLANNER_EXPONENTIATE = 23,
    PLANNER_MULTIPLY = 24,
    PLANNER_REMAINDER = 25,
    PLANNER_SUBTRACT = 26,
    PLANNER_LIKE = 27
};

/* The kinds of nodes. */
enum {
    PLANNER_SCAN = 1,
    PLANNER_VALUES = 2,
    PLANNER_JOIN = 3,
    PLANNER_FILTER = 4,
    PLANNER_AGGREGATE = 5,
    PLANNER_PROJECT = 6,
    PLANNER_ORDER = 7,
    PLANNER_OFFSET = 8,
    PLANNER_LIMIT = 9,
    PLANNER_REMAP = 10
};

#ifdef __cplusplus
}
#endif

#endif
