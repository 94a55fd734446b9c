/* MPI_MINLOC and MPI_MAXLOC (MPI 3.1, 5.9.4), sums and products of complex numbers (5.9.2): by each reduction. */
#include "test.h"

#include <complex.h>

struct place {
    double value;
    int index;
};

/* The value of a member at a place: some are equal. */
static int value_of(int member, int at) { return (int)(mixed((unsigned)member, (unsigned)at, 3) % 5); }

/* The member that has the greatest, or the least, value: the first one. */
static int best(bool is_greatest, int last, int at) {
    int found = 0;
    for (int member = 1; member <= last; member++) {
        int one = value_of(found, at), other = value_of(member, at);
        if (is_greatest ? other > one : other < one) found = member;
    }
    return found;
}

#define CHECK_PAIRS(type, value_type, index_type)                                                                      \
    do {                                                                                                               \
        struct {                                                                                                       \
            value_type value;                                                                                          \
            index_type index;                                                                                          \
        } own[COUNT], got[COUNT];                                                                                      \
        memset(own, 0, sizeof own);                                                                                    \
        for (int at = 0; at < COUNT; at++) {                                                                           \
            own[at].value = (value_type)value_of(test_rank, at);                                                       \
            own[at].index = (index_type)test_rank;                                                                     \
        }                                                                                                              \
        for (int is_greatest = 0; is_greatest <= 1; is_greatest++) {                                                   \
            MPI_Allreduce(own, got, COUNT, type, is_greatest ? MPI_MAXLOC : MPI_MINLOC, MPI_COMM_WORLD);               \
            for (int at = 0; at < COUNT; at++) {                                                                       \
                int wanted = best(is_greatest, test_size - 1, at);                                                     \
                CHECK(got[at].index == (index_type)wanted && got[at].value == (value_type)value_of(wanted, at));       \
            }                                                                                                          \
        }                                                                                                              \
    } while (0)

enum { COUNT = 40 };

static void first_pairs(void) {
    CHECK_PAIRS(MPI_FLOAT_INT, float, int);
    CHECK_PAIRS(MPI_DOUBLE_INT, double, int);
    CHECK_PAIRS(MPI_LONG_INT, long, int);
    CHECK_PAIRS(MPI_2INT, int, int);
}

static void other_pairs(void) {
    CHECK_PAIRS(MPI_SHORT_INT, short, int);
    CHECK_PAIRS(MPI_LONG_DOUBLE_INT, long double, int);
    CHECK_PAIRS(MPI_2REAL, float, float);
    CHECK_PAIRS(MPI_2DOUBLE_PRECISION, double, double);
}

static void other_reductions(void) {
    struct place own = {value_of(test_rank, 0), test_rank}, got = {-1, -1};
    MPI_Reduce(&own, &got, 1, MPI_DOUBLE_INT, MPI_MAXLOC, test_size - 1, MPI_COMM_WORLD);
    CHECK(test_rank != test_size - 1 || got.index == best(true, test_size - 1, 0));
    MPI_Scan(&own, &got, 1, MPI_DOUBLE_INT, MPI_MINLOC, MPI_COMM_WORLD);
    CHECK(got.index == best(false, test_rank, 0));
    CHECK(class_of(MPI_Allreduce(&own, &got, 1, MPI_DOUBLE, MPI_MAXLOC, MPI_COMM_SELF)) == MPI_ERR_OP);
    CHECK(class_of(MPI_Allreduce(&own, &got, 1, MPI_DOUBLE_INT, MPI_MAX, MPI_COMM_SELF)) == MPI_ERR_OP);
}

#define CHECK_COMPLEX(type, part)                                                                                      \
    do {                                                                                                               \
        static part complex own; /* its bytes without a value are 0 */                                                 \
        part complex sum = 0, product = 1, got = 0;                                                                    \
        own = (part)(test_rank + 1) + (part)(test_rank - 2) * I;                                                       \
        for (int member = 0; member < test_size; member++) {                                                           \
            sum += (part)(member + 1) + (part)(member - 2) * I;                                                        \
            product *= (part)(member + 1) + (part)(member - 2) * I;                                                    \
        }                                                                                                              \
        MPI_Allreduce(&own, &got, 1, type, MPI_SUM, MPI_COMM_WORLD);                                                   \
        CHECK(got == sum);                                                                                             \
        MPI_Allreduce(&own, &got, 1, type, MPI_PROD, MPI_COMM_WORLD);                                                  \
        CHECK(got == product);                                                                                         \
        CHECK(class_of(MPI_Allreduce(&own, &got, 1, type, MPI_MAX, MPI_COMM_SELF)) == MPI_ERR_OP);                     \
    } while (0)

int main(int argc, char **argv) {
    test_begin(&argc, &argv);
    MPI_Comm_set_errhandler(MPI_COMM_SELF, MPI_ERRORS_RETURN);
    first_pairs();
    other_pairs();
    other_reductions();
    CHECK_COMPLEX(MPI_C_FLOAT_COMPLEX, float);
    CHECK_COMPLEX(MPI_C_DOUBLE_COMPLEX, double);
    CHECK_COMPLEX(MPI_C_LONG_DOUBLE_COMPLEX, long double);
    return test_end();
}
