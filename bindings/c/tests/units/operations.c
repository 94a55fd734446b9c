/* Which operation is defined on which types (MPI 3.1, 5.9.2), in full. */
#include "../../src/operations.h"
#include "unit.h"

/* A row for each operation: integers, characters, floating-point, logical, bytes, addresses, complex, pairs, others. */
static const char *const table[] = {
    [ENGINE_MAX] = "i.f..a...",  [ENGINE_MIN] = "i.f..a...", [ENGINE_SUM] = "i.f..ac..",  [ENGINE_PROD] = "i.f..ac..",
    [ENGINE_LAND] = "i..l.....", [ENGINE_LOR] = "i..l.....", [ENGINE_LXOR] = "i..l.....", [ENGINE_BAND] = "i...ba...",
    [ENGINE_BOR] = "i...ba...",  [ENGINE_BXOR] = "i...ba..."};

int main(void) {
    static const MPI_Op handles[] = {MPI_OP_NULL, MPI_MAX,  MPI_MIN,  MPI_SUM, MPI_PROD, MPI_LAND,
                                     MPI_LOR,     MPI_LXOR, MPI_BAND, MPI_BOR, MPI_BXOR};
    for (int operation = ENGINE_MAX; operation <= ENGINE_BXOR; operation++) {
        CHECK(operation_of(handles[operation]) == operation);
        for (int family = FAMILY_INTEGER; family <= FAMILY_OTHER; family++)
            CHECK(is_defined_on((enum engine_operation)operation, (enum family)family) ==
                  (table[operation][family] != '.'));
    }
    CHECK(operation_of(MPI_OP_NULL) == 0);
    CHECK(operation_of((MPI_Op)(intptr_t)((intptr_t)MPI_BXOR + 1)) == 0);
    CHECK(operation_of((MPI_Op)MPI_COMM_WORLD) == 0);
    CHECK(strcmp(operation_name(ENGINE_SUM), "MPI_SUM") == 0 && strcmp(operation_name(ENGINE_BXOR), "MPI_BXOR") == 0);
    return unit_end();
}
