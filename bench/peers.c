/* peers MATRIX FACTOR THREADS ROUNDS: what SuiteSparse:GraphBLAS takes for the jobs of bench/peers.py, which compiles it.
 *
 * MATRIX and FACTOR are texts of the Matrix Market, `integer general`; the products are of FACTOR, all else is of MATRIX, as are
 * those by a column and by a line of words, which are made here as bench/peers.py makes them. A line a measurement: form, operators (user or builtin; or short or long, also the user's own), names of the result (same or new), the least
 * milliseconds of a round, the number of the result's entries, and a sum over them all, for comparing results. The first line has the
 * version of the library. */
#if __has_include(<GraphBLAS.h>)
#include <GraphBLAS.h>
#else
#include <suitesparse/GraphBLAS.h>
#endif
#include <inttypes.h>
#include <malloc.h>
#include <stdio.h>
#include <stdlib.h>
#include <time.h>

#define OK(call) check((call), __LINE__)

enum form {
    APPLY, APPLY_INDEX, SELECT, UNION, UNION_TURNED, BOTH, BOTH_TURNED, REDUCE, PRODUCT, PRODUCT_MIN_PLUS, PRODUCT_MASKED, APPLY_MASKED,
    COLUMN, COLUMN_MIN_PLUS, COLUMN_HALF, COLUMN_MASKED, LINE, FORMS
};

static const char *const form_names[FORMS] = {
    "apply", "apply-index", "select", "union", "union-turned", "both", "both-turned", "reduce", "product", "product-min-plus",
    "product-masked", "apply-masked", "column", "column-min-plus", "column-half", "column-masked", "line"};

struct operators {
    const char *name;
    GrB_UnaryOp increment; /* none of the library's own: there it is its sum with 1 */
    GrB_IndexUnaryOp row, lower;
    GrB_BinaryOp plus, times;
    GrB_Monoid sum;
    GrB_Semiring plus_times, min_plus;
};

/* Functions of the user's own for one set of operators. */
struct functions {
    const char *name;
    GxB_unary_function increment;
    GxB_index_unary_function row, lower;
    GxB_binary_function plus, times, lesser; /* plus is associative and commutative, with this zero; lesser may lack */
    int64_t zero;
};

/* The result of a job: a matrix, but a vector of `reduce` and of a product by a column or a line. */
struct result {
    GrB_Matrix matrix;
    GrB_Vector vector;
};

static GrB_Matrix whole, turned, factor;
static GrB_Vector full, half, passing; /* a word for each row, for about half of the rows, and for another half */

static void check(GrB_Info info, int line)
{
    if (info != GrB_SUCCESS) {
        fprintf(stderr, "peers.c, line %d: GrB_Info %d\n", line, (int)info);
        exit(1);
    }
}

/* Operators of the user's own. Sums and products wrap, as the library's own do. */
#define INT(pointer) (*(const int64_t *)(pointer))
#define WORD(pointer) (*(const uint64_t *)(pointer))
static void increment(void *z, const void *x) { *(uint64_t *)z = WORD(x) + 1; }
static void plus(void *z, const void *x, const void *y) { *(uint64_t *)z = WORD(x) + WORD(y); }
static void times(void *z, const void *x, const void *y) { *(uint64_t *)z = WORD(x) * WORD(y); }
static void lesser(void *z, const void *x, const void *y) { *(int64_t *)z = INT(x) < INT(y) ? INT(x) : INT(y); }
static void row(void *z, const void *x, GrB_Index i, GrB_Index j, const void *thunk)
{
    (void)x, (void)j;
    *(int64_t *)z = (int64_t)(i + WORD(thunk));
}
static void lower(void *z, const void *x, GrB_Index i, GrB_Index j, const void *thunk)
{
    (void)x;
    *(bool *)z = (int64_t)j <= (int64_t)(i + WORD(thunk));
}

/* What the program doesn't know by its code, of up to five BPF instructions and of ten: bench/peers.py has the same as code. */
static void plus_short(void *z, const void *x, const void *y) { *(uint64_t *)z = WORD(x) + WORD(y) + 5; }
static void times_short(void *z, const void *x, const void *y) { *(uint64_t *)z = WORD(x) * WORD(y) ^ 85; }
static void increment_long(void *z, const void *x)
{
    uint64_t word = WORD(x);
    *(uint64_t *)z = ((((((word + 1) ^ 85) << 1) - word) ^ 51) + word) >> 3 ^ word;
}
static void row_long(void *z, const void *x, GrB_Index i, GrB_Index j, const void *thunk)
{
    *(uint64_t *)z = ((((((i + WORD(thunk)) ^ j) << 1) + WORD(x)) ^ 51) - i) >> 2 ^ j;
}
static void lower_long(void *z, const void *x, GrB_Index i, GrB_Index j, const void *thunk)
{
    *(bool *)z = (int64_t)j <= (int64_t)(i + WORD(thunk) + (((WORD(x) ^ 5) * 3 & 7) ^ 1));
}
static void plus_long(void *z, const void *x, const void *y)
{
    *(uint64_t *)z = (((WORD(x) ^ 85) + 51) + ((WORD(y) ^ 85) + 51) - 51) ^ 85;
}
static void times_long(void *z, const void *x, const void *y)
{
    uint64_t left = WORD(x), right = WORD(y);
    *(uint64_t *)z = (((((left * right ^ 85) + left) << 1) ^ right) - left) >> 3 ^ right;
}

static const struct functions own[] = {
    {"user", increment, row, lower, plus, times, lesser, 0},
    {"short", increment, row, lower, plus_short, times_short, NULL, -5},
    {"long", increment_long, row_long, lower_long, plus_long, times_long, NULL, -51 ^ 85},
};

static struct operators user_operators(const struct functions *by)
{
    struct operators made = {.name = by->name};
    OK(GrB_UnaryOp_new(&made.increment, by->increment, GrB_INT64, GrB_INT64));
    OK(GrB_IndexUnaryOp_new(&made.row, by->row, GrB_INT64, GrB_INT64, GrB_INT64));
    OK(GrB_IndexUnaryOp_new(&made.lower, by->lower, GrB_BOOL, GrB_INT64, GrB_INT64));
    OK(GrB_BinaryOp_new(&made.plus, by->plus, GrB_INT64, GrB_INT64, GrB_INT64));
    OK(GrB_BinaryOp_new(&made.times, by->times, GrB_INT64, GrB_INT64, GrB_INT64));
    OK(GrB_Monoid_new_INT64(&made.sum, made.plus, by->zero));
    OK(GrB_Semiring_new(&made.plus_times, made.sum, made.times));
    if (by->lesser) {
        GrB_BinaryOp min;
        GrB_Monoid least;
        OK(GrB_BinaryOp_new(&min, by->lesser, GrB_INT64, GrB_INT64, GrB_INT64));
        OK(GrB_Monoid_new_INT64(&least, min, INT64_MAX));
        OK(GrB_Semiring_new(&made.min_plus, least, made.plus));
    }
    return made;
}

static struct operators builtin_operators(void)
{
    return (struct operators){"builtin", NULL, GrB_ROWINDEX_INT64, GrB_TRIL, GrB_PLUS_INT64, GrB_TIMES_INT64, GrB_PLUS_MONOID_INT64,
                              GrB_PLUS_TIMES_SEMIRING_INT64, GrB_MIN_PLUS_SEMIRING_INT64};
}

static GrB_Matrix read_matrix(const char *path)
{
    FILE *file = fopen(path, "r");
    GrB_Index rows, columns, count;
    if (!file || fscanf(file, "%*[^\n] %" SCNu64 " %" SCNu64 " %" SCNu64, &rows, &columns, &count) != 3) {
        fprintf(stderr, "peers: %s is no matrix\n", path);
        exit(1);
    }
    GrB_Index *i = malloc(count * sizeof *i + 1), *j = malloc(count * sizeof *j + 1);
    int64_t *x = malloc(count * sizeof *x + 1);
    for (GrB_Index at = 0; at < count; at++) {
        if (fscanf(file, "%" SCNu64 " %" SCNu64 " %" SCNd64, &i[at], &j[at], &x[at]) != 3) {
            fprintf(stderr, "peers: %s lacks entries\n", path);
            exit(1);
        }
        i[at]--, j[at]--;
    }
    fclose(file);
    GrB_Matrix made;
    OK(GrB_Matrix_new(&made, GrB_INT64, rows, columns));
    OK(GrB_Matrix_build_INT64(made, i, j, x, count, GrB_PLUS_INT64));
    OK(GrB_Matrix_wait(made, GrB_MATERIALIZE));
    free(i), free(j), free(x);
    return made;
}

/* A vector with a word at each place of which a bit of a multiple is set, or at all where there is none. bench/peers.py makes the same. */
static GrB_Vector made_words(GrB_Index size, uint64_t multiple)
{
    GrB_Vector made;
    OK(GrB_Vector_new(&made, GrB_INT64, size));
    for (GrB_Index at = 0; at < size; at++)
        if (!multiple || (at * multiple >> 9 & 1))
            OK(GrB_Vector_setElement_INT64(made, (int64_t)(at * 7919 % 2003) - 1000, at));
    OK(GrB_Vector_wait(made, GrB_MATERIALIZE));
    return made;
}

/* Whether the result of a form is a vector. */
static int is_flat(enum form form)
{
    return form == REDUCE || form >= COLUMN;
}

/* Writes the product by a column or a line into a vector. */
static void compute_flat(enum form form, const struct operators *with, GrB_Vector out)
{
    switch (form) {
    case COLUMN_MIN_PLUS: OK(GrB_mxv(out, NULL, NULL, with->min_plus, whole, full, NULL)); break;
    case COLUMN_HALF: OK(GrB_mxv(out, NULL, NULL, with->plus_times, whole, half, NULL)); break;
    case COLUMN_MASKED: OK(GrB_mxv(out, passing, NULL, with->plus_times, whole, full, GrB_DESC_RS)); break;
    case LINE: OK(GrB_vxm(out, NULL, NULL, with->plus_times, full, whole, NULL)); break;
    default: OK(GrB_mxv(out, NULL, NULL, with->plus_times, whole, full, NULL)); break;
    }
}

/* Writes what a form computes into a result, which is made where there is none. */
static void compute(enum form form, const struct operators *with, struct result *to)
{
    GrB_Matrix operand = form == PRODUCT || form == PRODUCT_MIN_PLUS || form == PRODUCT_MASKED ? factor : whole;
    GrB_Index rows, columns;
    OK(GrB_Matrix_nrows(&rows, operand));
    OK(GrB_Matrix_ncols(&columns, operand));
    if (is_flat(form) && !to->vector)
        OK(GrB_Vector_new(&to->vector, GrB_INT64, rows));
    if (!is_flat(form) && !to->matrix)
        OK(GrB_Matrix_new(&to->matrix, GrB_INT64, rows, columns));
    GrB_Matrix out = to->matrix, mask = form == APPLY_MASKED ? turned : form == PRODUCT_MASKED ? factor : NULL;
    GrB_Descriptor how = mask ? GrB_DESC_RS : NULL;
    switch (form) {
    case APPLY: case APPLY_MASKED:
        OK(with->increment ? GrB_Matrix_apply(out, mask, NULL, with->increment, whole, how)
                           : GrB_Matrix_apply_BinaryOp2nd_INT64(out, mask, NULL, with->plus, whole, 1, how));
        break;
    case APPLY_INDEX: OK(GrB_Matrix_apply_IndexOp_INT64(out, mask, NULL, with->row, whole, 5, how)); break;
    case SELECT: OK(GrB_Matrix_select_INT64(out, mask, NULL, with->lower, whole, 0, how)); break;
    case UNION: OK(GrB_Matrix_eWiseAdd_BinaryOp(out, mask, NULL, with->plus, whole, whole, how)); break;
    case UNION_TURNED: OK(GrB_Matrix_eWiseAdd_BinaryOp(out, mask, NULL, with->plus, whole, turned, how)); break;
    case BOTH: OK(GrB_Matrix_eWiseMult_BinaryOp(out, mask, NULL, with->times, whole, whole, how)); break;
    case BOTH_TURNED: OK(GrB_Matrix_eWiseMult_BinaryOp(out, mask, NULL, with->times, whole, turned, how)); break;
    case REDUCE: OK(GrB_Matrix_reduce_Monoid(to->vector, NULL, NULL, with->sum, whole, how)); break;
    case COLUMN: case COLUMN_MIN_PLUS: case COLUMN_HALF: case COLUMN_MASKED: case LINE: compute_flat(form, with, to->vector); break;
    case PRODUCT_MIN_PLUS: OK(GrB_mxm(out, mask, NULL, with->min_plus, factor, factor, how)); break;
    default: OK(GrB_mxm(out, mask, NULL, with->plus_times, factor, factor, how)); break;
    }
    OK(is_flat(form) ? GrB_Vector_wait(to->vector, GrB_MATERIALIZE) : GrB_Matrix_wait(out, GrB_MATERIALIZE));
}

/* Prints the number of a result's entries and the sum of (row P + column Q + 1) (2 value + 1) over them, modulo 2^64. A vector is a
 * column, but the product of a line is one. */
static void print_sum(enum form form, const struct result *of)
{
    GrB_Index count;
    OK(of->vector ? GrB_Vector_nvals(&count, of->vector) : GrB_Matrix_nvals(&count, of->matrix));
    GrB_Index *i = malloc(count * sizeof *i + 1), *j = calloc(count + 1, sizeof *j);
    int64_t *x = malloc(count * sizeof *x + 1);
    OK(of->vector ? GrB_Vector_extractTuples_INT64(i, x, &count, of->vector) : GrB_Matrix_extractTuples_INT64(i, j, x, &count, of->matrix));
    uint64_t sum = 0;
    if (form == LINE) {
        GrB_Index *columns = i;
        i = j, j = columns;
    }
    for (GrB_Index at = 0; at < count; at++)
        sum += (i[at] * 0x9e3779b97f4a7c15 + j[at] * 0xc2b2ae3d27d4eb4f + 1) * (2 * (uint64_t)x[at] + 1);
    free(i), free(j), free(x);
    printf(" %" PRIu64 " %" PRIu64 "\n", (uint64_t)count, sum);
}

static double milliseconds(void)
{
    struct timespec at;
    clock_gettime(CLOCK_MONOTONIC, &at);
    return at.tv_sec * 1e3 + at.tv_nsec / 1e6;
}

/* Measures a form. Under new names each round has a result of its own, and all are kept to the end. */
static void measure(enum form form, const struct operators *with, int new_names, int rounds)
{
    struct result *results = calloc((size_t)rounds, sizeof *results), *last = results;
    double least = 0;
    for (int round = 0; round < rounds; round++) {
        last = &results[new_names ? round : 0];
        double began = milliseconds();
        compute(form, with, last);
        double taken = milliseconds() - began;
        least = round == 0 || taken < least ? taken : least;
    }
    printf("%s %s %s %.6f", form_names[form], with->name, new_names ? "new" : "same", least);
    print_sum(form, last);
    for (int round = 0; round < rounds; round++) {
        OK(GrB_Matrix_free(&results[round].matrix));
        OK(GrB_Vector_free(&results[round].vector));
    }
    free(results);
    malloc_trim(0); /* so that no form is given memory that one before it has touched */
}

int main(int count, char **words)
{
    int threads = count == 5 ? atoi(words[3]) : 0, rounds = count == 5 ? atoi(words[4]) : 0, version[3];
    if (threads < 1 || rounds < 1) {
        fprintf(stderr, "usage: peers MATRIX FACTOR THREADS ROUNDS\n");
        return 2;
    }
    OK(GrB_init(GrB_NONBLOCKING));
    OK(GxB_Global_Option_set(GxB_GLOBAL_NTHREADS, threads));
    OK(GxB_Global_Option_get(GxB_LIBRARY_VERSION, version));
    printf("SuiteSparse:GraphBLAS %d.%d.%d\n", version[0], version[1], version[2]);
    GrB_Index rows, columns;
    whole = read_matrix(words[1]), factor = read_matrix(words[2]);
    OK(GrB_Matrix_nrows(&rows, whole));
    OK(GrB_Matrix_ncols(&columns, whole));
    OK(GrB_Matrix_new(&turned, GrB_INT64, columns, rows));
    OK(GrB_transpose(turned, NULL, NULL, whole, NULL));
    OK(GrB_Matrix_wait(turned, GrB_MATERIALIZE));
    full = made_words(rows, 0), half = made_words(rows, 2654435761), passing = made_words(rows, 40503 * 65537u);
    const struct operators with[] = {user_operators(&own[0]), builtin_operators()};
    for (int form = 0; form < FORMS; form++)
        for (int which = 0; which < 4; which++)
            measure((enum form)form, &with[which / 2], which % 2, rounds);
    const enum form others[] = {APPLY, APPLY_INDEX, SELECT, UNION, BOTH, REDUCE, PRODUCT, COLUMN};
    for (int set = 1; set < 3; set++) {
        const struct operators these = user_operators(&own[set]);
        for (size_t at = 0; at < sizeof others / sizeof *others; at++)
            measure(others[at], &these, 0, rounds);
    }
    OK(GrB_finalize());
    return 0;
}
