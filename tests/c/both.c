/* What both.h promises. */
#include "both.h"
#include "spans.h"
#include "sums.h"

#include <inttypes.h>
#include <stdio.h>
#include <stdlib.h>
#include <string.h>

#define MOST_LIST 8192
#define KINDS 9
#define REFUSALS 29
#define JUNK 0x5A5A5A5A5A5A5A5Au

/* One call in so many goes by way of the struct. Tests that ask all eleven calls on a register in turn give each of them its turn by this. */
#define IN_STRUCT 7

uint64_t both_calls;
const char *both_about = "";

/* Outcomes: the kinds of answer but REFUSED at their numbers, then the refusals. */
static uint64_t came[CALLS][KINDS + REFUSALS];

/* Whether the last call went by way of the struct, and how often each did. */
static bool by_struct;
static uint64_t in_struct[CALLS];

const char *const both_names[CALLS] = {"locate",     "well_formed",        "found",          "split",      "merge",             "assign", "assign_counted",
                                       "assign_fix", "assign_fix_counted", "assign_missing", "assign_all", "assign_all_counted"};

const char *const both_columns[COLUMNS] = {"outline x", "outline y", "store x", "store y"};

static const char *const kind_names[KINDS] = {"refused", "done", "vertex", "edge", "off", "border", "one", "none", "several"};

#define KIND(kind) (UINT64_C(1) << (LAUNCHRAMP_##kind))
#define REFUSAL(number) (UINT64_C(1) << (KINDS + (number)))
#define SORTED (KIND(BORDER) | KIND(ONE) | KIND(NONE) | KIND(SEVERAL) | REFUSAL(1) | REFUSAL(2) | REFUSAL(5))

/* What launchramp.h says that each call may answer. */
static const uint64_t named[CALLS] = {
    [LOCATE] = KIND(VERTEX) | KIND(EDGE) | KIND(OFF) | REFUSAL(4) | REFUSAL(5),
    [WELL_FORMED] = KIND(DONE) | REFUSAL(1),
    [FOUND] = KIND(DONE) | REFUSAL(1) | REFUSAL(3) | REFUSAL(4) | REFUSAL(5),
    [SPLIT] = KIND(DONE) | REFUSAL(1) | REFUSAL(2) | REFUSAL(4) | REFUSAL(5) | REFUSAL(6) | REFUSAL(8) | REFUSAL(9) | REFUSAL(11) | REFUSAL(12),
    [MERGE] = KIND(DONE) | REFUSAL(1) | REFUSAL(2) | REFUSAL(6) | REFUSAL(7) | REFUSAL(8) | REFUSAL(9) | REFUSAL(10),
    [ASSIGN] = SORTED,
    [ASSIGN_COUNTED] = SORTED | REFUSAL(14),
    [ASSIGN_FIX] = SORTED | REFUSAL(18),
    [ASSIGN_FIX_COUNTED] = SORTED | REFUSAL(18) | REFUSAL(14),
    [ASSIGN_MISSING] = REFUSAL(1) | REFUSAL(2) | REFUSAL(19),
    [ASSIGN_ALL] = KIND(DONE) | REFUSAL(1) | REFUSAL(2) | REFUSAL(4) | REFUSAL(28),
    [ASSIGN_ALL_COUNTED] = KIND(DONE) | REFUSAL(1) | REFUSAL(2) | REFUSAL(4) | REFUSAL(28),
};

static bool is_batch(enum which which)
{
    return which == ASSIGN_ALL || which == ASSIGN_ALL_COUNTED;
}

static bool is_counted(enum which which)
{
    return which == ASSIGN_COUNTED || which == ASSIGN_FIX_COUNTED || which == ASSIGN_ALL_COUNTED;
}

bool both_same(struct plain_answer one, struct plain_answer other)
{
    return one.kind == other.kind && memcmp(one.values, other.values, sizeof one.values) == 0;
}

static size_t outcome(struct plain_answer answer)
{
    return answer.kind == LAUNCHRAMP_REFUSED ? KINDS + answer.values[0] : answer.kind;
}

/* Prints what came of a call; whether it is what launchramp.h names. */
static bool as_named(size_t c)
{
    bool all = true;
    for (size_t o = 0; o < KINDS + REFUSALS; o++) {
        if (o < KINDS && came[c][o] > 0)
            printf(" %s %" PRIu64, kind_names[o], came[c][o]);
        if (o >= KINDS && came[c][o] > 0)
            printf(" [%zu] %" PRIu64, o - KINDS, came[c][o]);
        if ((came[c][o] > 0) != (named[c] >> o & 1)) {
            printf(" (%s %zu: %s)", o < KINDS ? "kind" : "refusal", o < KINDS ? o : o - KINDS, came[c][o] > 0 ? "NOT NAMED" : "NEVER CAME");
            all = false;
        }
    }
    return all;
}

/* Locating has no register. */
static bool met_in_struct(size_t c)
{
    if (c == LOCATE)
        return true;
    printf("; in a struct %" PRIu64 "%s", in_struct[c], in_struct[c] > 0 ? "" : " (NEVER)");
    return in_struct[c] > 0;
}

bool both_all_reached(void)
{
    bool all = true;
    for (size_t c = 0; c < CALLS; c++) {
        printf("  %-18s", both_names[c]);
        all = as_named(c) && all;
        all = met_in_struct(c) && all;
        printf("\n");
    }
    return all;
}

/* Without the zeros at the end. */
static void print_list(const char *name, const int32_t *list, size_t length)
{
    size_t told = length;
    while (told > 0 && list[told - 1] == 0)
        told--;
    printf("  %s, %zu numbers:", name, length);
    for (size_t i = 0; i < told; i++)
        printf(" %" PRId32, list[i]);
    printf(told < length ? " and zeros\n" : "\n");
}

static void print_counts(const char *name, const uint32_t *list, size_t length)
{
    printf("  %s, %zu numbers:", name, length);
    for (size_t i = 0; i < length; i++)
        printf(" %" PRIu32, list[i]);
    printf("\n");
}

static void print_lists(const char *when, const struct lists *l)
{
    printf(" %s\n", when);
    for (enum column c = OUTLINE_X; c < COLUMNS; c++)
        print_list(both_columns[c], l->column[c], l->column_length[c]);
    print_counts("runs", l->runs, l->runs_length);
}

static void print_answer(const char *who, struct plain_answer answer)
{
    printf("  %s: %s, values", who, answer.kind < KINDS ? kind_names[answer.kind] : "no kind");
    for (size_t k = 0; k < LAUNCHRAMP_VALUES; k++)
        printf(" %" PRIu64, answer.values[k]);
    printf("\n");
}

static void print_call(const struct twice *t, const struct call *call)
{
    printf("launchramp_%s%s", both_names[call->which], by_struct ? "_in" : "");
    if (call->which == SPLIT)
        printf(", d %zu, i %zu, j %zu", call->number[0], call->number[1], call->number[2]);
    if (call->which == MERGE)
        printf(", kept %zu, a %zu, gone %zu, b %zu, k %zu", call->number[0], call->number[1], call->number[2], call->number[3],
               call->number[4]);
    if (call->which == LOCATE || call->which == ASSIGN || call->which == ASSIGN_COUNTED)
        printf(", point %" PRId32 " %" PRId32, call->x, call->y);
    if (call->which == ASSIGN_FIX || call->which == ASSIGN_FIX_COUNTED)
        printf(", fix %.17g (%016" PRIx64 ") %.17g (%016" PRIx64 ")", call->easting, exact_bits(call->easting), call->northing,
               exact_bits(call->northing));
    if (is_batch(call->which))
        printf(", %zu numbers for the answers", call->answers_length);
    printf("\n");
    if (call->which == LOCATE || call->which == FOUND || call->which == SPLIT || is_batch(call->which))
        print_list("list", call->list, call->length);
    if (is_batch(call->which))
        answers_print(call->answers_length);
    if (call->which == LOCATE)
        return;
    print_lists("the lists before", &t->before);
    print_lists("the lists afterwards", &t->lists);
    if (!is_counted(call->which))
        return;
    print_counts("the tally afterwards", t->counts, LAUNCHRAMP_COUNTS);
    print_counts("the tally afterwards in plain C", t->plain_counts, LAUNCHRAMP_COUNTS);
}

static void differ(const struct twice *t, const struct call *call, const char *how, struct plain_answer got, struct plain_answer expected)
{
    printf("%s: call %" PRIu64 " differs, %s: ", both_about, both_calls, how);
    print_call(t, call);
    print_answer("launchramp", got);
    print_answer("plain C", expected);
    exit(1);
}

static struct plain_answer plain_call(struct twice *t, const struct call *c)
{
    const size_t *number = c->number;
    const struct plain_answer well_formed = {LAUNCHRAMP_DONE, {0}}, not_well_formed = {LAUNCHRAMP_REFUSED, {NOT_WELL_FORMED}};
    if (c->which == LOCATE)
        return plain_locate(c->list, c->length, c->x, c->y);
    if (t->damaged)
        return not_well_formed;
    switch (c->which) {
    case FOUND:
        return plain_found(&t->rows, c->list, c->length);
    case SPLIT:
        return plain_split(&t->rows, number[0], number[1], number[2], c->list, c->length);
    case MERGE:
        return plain_merge(&t->rows, number[0], number[1], number[2], number[3], number[4]);
    case ASSIGN:
        return plain_assign(&t->rows, c->x, c->y);
    case ASSIGN_COUNTED:
        return plain_count(t->plain_counts, plain_assign(&t->rows, c->x, c->y));
    case ASSIGN_FIX:
        return plain_assign_fix(&t->rows, c->easting, c->northing);
    case ASSIGN_FIX_COUNTED:
        return plain_count(t->plain_counts, plain_assign_fix(&t->rows, c->easting, c->northing));
    case ASSIGN_MISSING:
        return plain_assign_missing(&t->rows);
    case ASSIGN_ALL:
        return plain_assign_all(&t->rows, c->list, c->length, answers_expected.numbers, c->answers_length);
    case ASSIGN_ALL_COUNTED:
        return plain_assign_all_counted(&t->rows, c->list, c->length, answers_expected.numbers, c->answers_length, t->plain_counts);
    default:
        return well_formed;
    }
}

/* The arguments that every call on a register begins with. */
#define COLUMN(l, c) (l)->column[c], (l)->column_length[c]
#define LENT(l) COLUMN(l, OUTLINE_X), COLUMN(l, OUTLINE_Y), COLUMN(l, STORE_X), COLUMN(l, STORE_Y), (l)->runs, (l)->runs_length

static uint32_t told_well_formed(bool well_formed, uint64_t *values)
{
    memset(values, 0, LAUNCHRAMP_VALUES * sizeof values[0]);
    values[0] = well_formed ? 0 : NOT_WELL_FORMED;
    return well_formed ? LAUNCHRAMP_DONE : LAUNCHRAMP_REFUSED;
}

static uint32_t call_on_lists(struct twice *t, const struct call *c, uint64_t *values)
{
    struct lists *l = &t->lists;
    const size_t *number = c->number;
    switch (c->which) {
    case FOUND:
        return launchramp_found(LENT(l), c->list, c->length, values);
    case SPLIT:
        return launchramp_split(LENT(l), number[0], number[1], number[2], c->list, c->length, values);
    case MERGE:
        return launchramp_merge(LENT(l), number[0], number[1], number[2], number[3], number[4], values);
    case ASSIGN:
        return launchramp_assign(LENT(l), c->x, c->y, values);
    case ASSIGN_COUNTED:
        return launchramp_assign_counted(LENT(l), c->x, c->y, t->counts, values);
    case ASSIGN_FIX:
        return launchramp_assign_fix(LENT(l), c->easting, c->northing, values);
    case ASSIGN_FIX_COUNTED:
        return launchramp_assign_fix_counted(LENT(l), c->easting, c->northing, t->counts, values);
    case ASSIGN_MISSING:
        return launchramp_assign_missing(LENT(l), values);
    case ASSIGN_ALL:
        return launchramp_assign_all(LENT(l), c->list, c->length, answers_got.numbers, c->answers_length, values);
    case ASSIGN_ALL_COUNTED:
        return launchramp_assign_all_counted(LENT(l), c->list, c->length, answers_got.numbers, c->answers_length, t->counts, values);
    default:
        return told_well_formed(launchramp_well_formed(LENT(l)), values);
    }
}

static uint32_t call_on_struct(struct twice *t, launchramp_register *r, const struct call *c, uint64_t *values)
{
    const size_t *number = c->number;
    switch (c->which) {
    case FOUND:
        return launchramp_found_in(r, c->list, c->length, values);
    case SPLIT:
        return launchramp_split_in(r, number[0], number[1], number[2], c->list, c->length, values);
    case MERGE:
        return launchramp_merge_in(r, number[0], number[1], number[2], number[3], number[4], values);
    case ASSIGN:
        return launchramp_assign_in(r, c->x, c->y, values);
    case ASSIGN_COUNTED:
        return launchramp_assign_counted_in(r, c->x, c->y, t->counts, values);
    case ASSIGN_FIX:
        return launchramp_assign_fix_in(r, c->easting, c->northing, values);
    case ASSIGN_FIX_COUNTED:
        return launchramp_assign_fix_counted_in(r, c->easting, c->northing, t->counts, values);
    case ASSIGN_MISSING:
        return launchramp_assign_missing_in(r, values);
    case ASSIGN_ALL:
        return launchramp_assign_all_in(r, c->list, c->length, answers_got.each, c->answers_length / LAUNCHRAMP_ANSWER_LENGTH, values);
    case ASSIGN_ALL_COUNTED:
        return launchramp_assign_all_counted_in(r, c->list, c->length, answers_got.each, c->answers_length / LAUNCHRAMP_ANSWER_LENGTH, t->counts,
                                                values);
    default:
        return told_well_formed(launchramp_well_formed_in(r), values);
    }
}

/* In small pieces: the C library copies large ones by an instruction that takes the kit's emulator a byte at a time. */
static void copy(void *to, const void *from, size_t bytes)
{
    const size_t piece = 1024;
    size_t at = 0;
    for (; at + piece <= bytes; at += piece)
        memcpy((char *)to + at, (const char *)from + at, piece);
    memcpy((char *)to + at, (const char *)from + at, bytes - at);
}

static int32_t *column_in(launchramp_register *r, enum column c)
{
    int32_t *const columns[COLUMNS] = {r->outline_x, r->outline_y, r->store_x, r->store_y};
    return columns[c];
}

static void to_struct(launchramp_register *r, const struct lists *l)
{
    for (enum column c = OUTLINE_X; c < COLUMNS; c++)
        copy(column_in(r, c), l->column[c], sizeof r->outline_x);
    copy(r->runs, l->runs, sizeof r->runs);
}

static void from_struct(struct lists *l, launchramp_register *r)
{
    for (enum column c = OUTLINE_X; c < COLUMNS; c++)
        copy(l->column[c], column_in(r, c), sizeof r->outline_x);
    copy(l->runs, r->runs, sizeof r->runs);
}

static uint32_t library_call(struct twice *t, const struct call *c, uint64_t *values)
{
    static launchramp_register held;
    by_struct = c->which != LOCATE && both_calls % IN_STRUCT == 0 && plain_lengths_right(&t->lists);
    if (c->which == LOCATE)
        return launchramp_locate(c->list, c->length, c->x, c->y, values);
    if (!by_struct)
        return call_on_lists(t, c, values);
    in_struct[c->which]++;
    to_struct(&held, &t->lists);
    uint32_t kind = call_on_struct(t, &held, c, values);
    from_struct(&t->lists, &held);
    return kind;
}

/* From place `from` on. */
static bool same_column(const struct lists *one, const struct lists *other, enum column c, size_t from)
{
    return memcmp(one->column[c] + from, other->column[c] + from, sizeof one->column[c] - from * sizeof one->column[c][0]) == 0;
}

/* Whether an accepted founding, split or merge left what it may: the rings of the rows, in well-formed lists of the same length, and the
 * outline as it was where it is lent for reading. What stands in the free room has no meaning. */
static bool changed_well(const struct twice *t, enum which which)
{
    const struct lists *l = &t->lists, *before = &t->before;
    if (which != FOUND && (!same_column(l, before, OUTLINE_X, 0) || !same_column(l, before, OUTLINE_Y, 0)))
        return false;
    for (enum column c = OUTLINE_X; c < COLUMNS; c++)
        if (!same_column(l, before, c, LAUNCHRAMP_COLUMN_LENGTH))
            return false;
    if (memcmp(l->runs + LAUNCHRAMP_RUNS_LENGTH, before->runs + LAUNCHRAMP_RUNS_LENGTH, LISTS_SPARE * sizeof l->runs[0]) != 0)
        return false;
    return plain_well_formed(l) && plain_same(&t->rows, l);
}

static void compare_lists(struct twice *t, const struct call *call, struct plain_answer got, struct plain_answer expected)
{
    bool changes = call->which == FOUND || call->which == SPLIT || call->which == MERGE;
    if (changes && got.kind == LAUNCHRAMP_DONE) {
        if (!changed_well(t, call->which))
            differ(t, call, "the lists afterwards", got, expected);
        if (t->by_calls && !sums_hold(&t->lists))
            differ(t, call, "the sum of the winding numbers afterwards", got, expected);
        both_remember(t);
    } else if (memcmp(&t->lists, &t->before, sizeof t->lists) != 0) {
        differ(t, call, "a list was changed", got, expected);
    }
    if (memcmp(t->counts, t->plain_counts, sizeof t->counts) != 0)
        differ(t, call, "the tally afterwards", got, expected);
}

/* Whether a batch has the answer to its point i that a call for that point alone gives, with the counts as they are by then. */
static bool as_assigned(const struct lists *l, const struct call *call, size_t i, uint32_t *counts)
{
    const launchramp_answer *answer = &answers_got.each[i];
    const int32_t x = call->list[2 * i], y = call->list[2 * i + 1];
    uint64_t values[LAUNCHRAMP_VALUES];
    uint32_t kind = is_counted(call->which) ? launchramp_assign_counted(LENT(l), x, y, counts, values) : launchramp_assign(LENT(l), x, y, values);
    return kind == answer->kind && memcmp(values, answer->values, sizeof values) == 0;
}

/* `counts` is the tally before the call. */
static void compare_answers(const struct twice *t, const struct call *call, struct plain_answer got, struct plain_answer expected, uint32_t *counts)
{
    const size_t many = got.kind == LAUNCHRAMP_DONE ? call->length / 2 : 0;
    if (!answers_same(call->answers_length))
        differ(t, call, "the list of answers", got, expected);
    for (size_t i = 0; i < many; i++)
        if (!as_assigned(&t->lists, call, i, counts))
            differ(t, call, "from the answer to one of the points alone", got, expected);
    if (memcmp(counts, t->counts, sizeof t->counts) != 0)
        differ(t, call, "from the tally of the points one by one", got, expected);
    answers_count(call->length, call->answers_length, &got, is_counted(call->which));
}

struct plain_answer both_ask(struct twice *t, const struct call *call)
{
    static int32_t lent[MOST_LIST];
    uint64_t values[LAUNCHRAMP_VALUES + 1];
    uint32_t counts[LAUNCHRAMP_COUNTS + LISTS_SPARE];
    size_t bytes = call->length * sizeof lent[0];
    if (is_batch(call->which)) {
        answers_lend(call->answers_length);
        memcpy(counts, t->counts, sizeof counts);
    }
    struct plain_answer expected = plain_call(t, call), got;
    both_calls++;
    memcpy(lent, call->list, bytes);
    for (size_t k = 0; k <= LAUNCHRAMP_VALUES; k++)
        values[k] = JUNK;
    got.kind = library_call(t, call, values);
    memcpy(got.values, values, sizeof got.values);
    if (!both_same(got, expected) || values[LAUNCHRAMP_VALUES] != JUNK)
        differ(t, call, "the answer", got, expected);
    if (memcmp(lent, call->list, bytes) != 0)
        differ(t, call, "the lent list was changed", got, expected);
    if (call->which != LOCATE)
        compare_lists(t, call, got, expected);
    if (is_batch(call->which))
        compare_answers(t, call, got, expected, counts);
    came[call->which][outcome(got)]++;
    spans_count(t, call, &got);
    return got;
}

void both_ask_alike(struct twice *t, const struct call *one, const struct call *other)
{
    struct plain_answer first = both_ask(t, one), second = both_ask(t, other);
    if (!both_same(first, second))
        differ(t, other, "from the answer to the call before", second, first);
}

void both_copy(struct lists *to, const struct lists *from)
{
    copy(to, from, sizeof *to);
}

void both_remember(struct twice *t)
{
    both_copy(&t->before, &t->lists);
}

void both_reread(struct twice *t)
{
    t->damaged = !plain_well_formed(&t->lists);
    if (!t->damaged)
        plain_read(&t->rows, &t->lists);
    t->by_calls = false;
    both_remember(t);
}

void both_retally(struct twice *t)
{
    memcpy(t->plain_counts, t->counts, sizeof t->counts);
}
