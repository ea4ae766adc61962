/*
 * Plans a statement over a catalog and prints the plan, or the refusal, as docs/PLAN.md has it:
 *
 *     cc -std=c99 -Iinclude examples/plan.c dist/libplanner.a -lm -o plan
 *     ./plan examples/heap.catalog examples/p1.statement
 *
 * Exit status: 0 planned, 1 refused, 2 a file cannot be read.
 */
#include <inttypes.h>
#include <stdio.h>

#include "planner.h"

/* A text of one byte more than the most is refused (3), so that no more need be read. */
#define MOST_BYTES 65537

struct text {
    uint8_t bytes[MOST_BYTES];
    size_t length;
};

static struct text catalog, statement;
static uint32_t area[PLANNER_LEAST_AREA];

static const char *const statements[] = {"", "select", "create", "drop", "delete", "insert", "update"};
static const char *const cells[] = {"",      "null", "bool", "int", "float", "text", "col", "",    "not", "fact",
                                    "ident", "neg",  "sqrt", "",    "is",    "is",   "and", "or",  "eq",  "gt",
                                    "lt",    "add",  "div",  "pow", "mul",   "rem",  "sub", "like"};
static const char *const nodes[] = {"",        "scan",  "values", "join",  "filter", "aggregate",
                                    "project", "order", "offset", "limit", "remap"};
static const char *const aggregates[] = {"", "avg", "count", "max", "min", "sum"};
static const char *const types[] = {"", "bool", "int", "float", "text"};

static int read_text(const char *name, struct text *text)
{
    FILE *file = fopen(name, "rb");
    int failed;
    if (file == NULL) {
        perror(name);
        return 0;
    }
    text->length = fread(text->bytes, 1, MOST_BYTES, file);
    failed = ferror(file);
    if (failed)
        perror(name);
    fclose(file);
    return !failed;
}

/* A field that is a number. */
static void put(uint32_t number)
{
    printf("\t%" PRIu32, number);
}

/* A field that is a name or a text, from its address and length. */
static void put_bytes(const uint32_t *place)
{
    const uint8_t *bytes = place[0] < PLANNER_STATEMENT_ADDRESS
                               ? catalog.bytes + place[0]
                               : statement.bytes + (place[0] - PLANNER_STATEMENT_ADDRESS);
    putchar('\t');
    fwrite(bytes, 1, place[1], stdout);
}

/* `as` and the alias, where there is one. */
static void put_alias(const uint32_t *place)
{
    if (place[1] != 0) {
        printf("\tas");
        put_bytes(place);
    }
}

/* One less than the number, where it is not 0. */
static void put_optional(uint32_t number)
{
    if (number != 0)
        put(number - 1);
}

static uint64_t long_of(const uint32_t *halves)
{
    return (uint64_t)halves[1] << 32 | halves[0];
}

/* What stands behind the kind of a constant. */
static void put_constant(const uint32_t *cell)
{
    switch (cell[0]) {
    case PLANNER_BOOL:
        printf("\t%c", cell[1] ? 't' : 'f');
        break;
    case PLANNER_INT:
        printf("\t%" PRId64, (int64_t)long_of(cell + 1));
        break;
    case PLANNER_FLOAT:
        printf("\t%016" PRIx64, long_of(cell + 1));
        break;
    case PLANNER_TEXT:
        put_bytes(cell + 1);
        break;
    default:
        break;
    }
}

static void print_cell(uint32_t number, const uint32_t *cell)
{
    uint32_t kind = cell[0];
    printf("cell\t%" PRIu32 "\t%s", number, cells[kind]);
    if (kind < PLANNER_COLUMN)
        put_constant(cell);
    else
        put(cell[1]);
    if (kind == PLANNER_IS_NULL)
        printf("\tnull");
    if (kind == PLANNER_IS_NAN)
        printf("\tfloat\t%016" PRIx64, long_of(cell + 2));
    if (kind >= PLANNER_AND)
        put(cell[2]);
    putchar('\n');
}

/* The fields of a node behind its kind; `n` are its numbers, up to `end`. */
static void put_node(uint32_t kind, const uint32_t *n, const uint32_t *end)
{
    const uint32_t *groups;
    switch (kind) {
    case PLANNER_SCAN:
        put_bytes(n);
        put_alias(n + 3);
        put_optional(n[2]);
        return;
    case PLANNER_VALUES:
        while (n < end) {
            const uint32_t *row = n + 1 + n[0];
            printf("\trow\t%" PRIu32, n[0]);
            for (n++; n < row; n++)
                put(*n);
        }
        return;
    case PLANNER_JOIN:
        put(n[0]);
        put(n[1]);
        printf("\t%s", n[2] ? "outer" : "inner");
        put_optional(n[3]);
        return;
    default:
        break;
    }
    put(*n++); /* the source */
    switch (kind) {
    case PLANNER_FILTER:
        put(n[0]);
        break;
    case PLANNER_AGGREGATE:
        groups = n + 1 + n[0];
        for (n++; n < groups; n++)
            put(*n);
        for (; n < end; n += 2) {
            printf("\t%s", aggregates[n[0]]);
            put(n[1]);
        }
        break;
    case PLANNER_PROJECT:
        for (; n < end; n += 3) {
            put(n[0]);
            put_alias(n + 1);
        }
        break;
    case PLANNER_ORDER:
        for (; n < end; n += 2) {
            put(n[0]);
            printf("\t%s", n[1] ? "desc" : "asc");
        }
        break;
    case PLANNER_OFFSET:
    case PLANNER_LIMIT:
        printf("\t%" PRIu64, long_of(n));
        break;
    default: /* PLANNER_REMAP */
        for (; n < end; n++) {
            if (*n != 0)
                put(*n - 1);
            else
                printf("\t-");
        }
        break;
    }
}

/* A new table's columns, each with its default on the next line. */
static void print_columns(const uint32_t *column, uint32_t count)
{
    for (; count > 0; count--, column += 12) {
        printf("column");
        put_bytes(column);
        printf("\t%s\t%s\t%s\t%s", types[column[2]], column[3] ? "null" : "notnull", column[4] ? "unique" : "-",
               column[5] ? "index" : "-");
        if (column[7] != 0)
            put_bytes(column + 6);
        printf("\n%s", column[8] ? cells[column[8]] : "nodefault");
        put_constant(column + 8);
        putchar('\n');
    }
}

static void print_pairs(const char *word, const uint32_t *pair, uint32_t count)
{
    for (; count > 0; count--, pair += 2)
        printf("%s\t%" PRIu32 "\t%" PRIu32 "\n", word, pair[0], pair[1]);
}

/* The statement's own lines. */
static void print_own(uint32_t kind, const uint32_t *own)
{
    uint32_t source = area[PLANNER_AT_NODES] - 1;
    if (kind == PLANNER_SELECT)
        return;
    printf("%s", statements[kind]);
    put_bytes(own);
    switch (kind) {
    case PLANNER_CREATE:
        put(own[2]);
        putchar('\n');
        print_columns(own + 4, own[3]);
        break;
    case PLANNER_DROP:
        printf("\t%s\n", own[2] ? "yes" : "no");
        break;
    case PLANNER_INSERT:
        put(source);
        putchar('\n');
        if (own[2] != 0) {
            printf("columns\t%" PRIu32 "\n", own[2] - 1);
            print_pairs("map", own + 3, own[2] - 1);
        }
        break;
    default: /* PLANNER_DELETE, PLANNER_UPDATE */
        put(own[2]);
        put(source);
        putchar('\n');
        if (kind == PLANNER_UPDATE)
            print_pairs("set", own + 4, own[3]);
        break;
    }
}

static void print_plan(void)
{
    uint32_t kind = area[PLANNER_AT_KIND], number;
    const uint32_t *at = area + PLANNER_HEADER;
    printf("plan\t%s\t%" PRIu32 "\t%" PRIu32 "\n", statements[kind], area[PLANNER_AT_NODES], area[PLANNER_AT_CELLS]);
    for (number = 0; number < area[PLANNER_AT_CELLS]; number++, at += 4)
        print_cell(number, at);
    for (number = 0; number < area[PLANNER_AT_NODES]; number++, at += 2 + at[1]) {
        printf("node\t%" PRIu32 "\t%s", number, nodes[at[0]]);
        put_node(at[0], at + 2, at + 2 + at[1]);
        putchar('\n');
    }
    print_own(kind, area + area[PLANNER_AT_OWN]);
}

int main(int count, char **arguments)
{
    struct planner_outcome outcome;
    if (count != 3) {
        fprintf(stderr, "usage: plan CATALOG STATEMENT\n");
        return 2;
    }
    if (planner_layout() != PLANNER_LAYOUT || planner_area_length() != PLANNER_LEAST_AREA) {
        fprintf(stderr, "plan: the library is not the one that planner.h describes\n");
        return 2;
    }
    if (!read_text(arguments[1], &catalog) || !read_text(arguments[2], &statement))
        return 2;
    outcome = planner_plan(catalog.bytes, catalog.length, statement.bytes, statement.length, area, PLANNER_LEAST_AREA);
    if (outcome.number != 0) {
        printf("refused\t%" PRIu32 "\t%s\t%" PRIu32 "\n", outcome.number,
               outcome.text == PLANNER_CATALOG ? "catalog" : "statement", outcome.line);
        return 1;
    }
    print_plan();
    return 0;
}
