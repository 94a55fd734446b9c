/* The predefined operations of reductions: see operations.h. */
#include "operations.h"

#include "table.h"

int operation_of(MPI_Op op) {
    int64_t number = (intptr_t)op - HANDLE(KIND_OPERATION, 0);
    return number >= ENGINE_MAX && number <= ENGINE_BXOR ? (int)number : 0;
}

const char *operation_name(enum engine_operation operation) {
    static const char *const names[] = {
        [ENGINE_MAX] = "MPI_MAX",   [ENGINE_MIN] = "MPI_MIN",   [ENGINE_SUM] = "MPI_SUM",   [ENGINE_PROD] = "MPI_PROD",
        [ENGINE_LAND] = "MPI_LAND", [ENGINE_LOR] = "MPI_LOR",   [ENGINE_LXOR] = "MPI_LXOR", [ENGINE_BAND] = "MPI_BAND",
        [ENGINE_BOR] = "MPI_BOR",   [ENGINE_BXOR] = "MPI_BXOR",
    };
    return names[operation];
}

bool is_defined_on(enum engine_operation operation, enum family family) {
    switch (operation) {
    case ENGINE_MAX:
    case ENGINE_MIN:
        return family == FAMILY_INTEGER || family == FAMILY_FLOATING || family == FAMILY_ADDRESS;
    case ENGINE_SUM:
    case ENGINE_PROD:
        return family == FAMILY_INTEGER || family == FAMILY_FLOATING || family == FAMILY_ADDRESS ||
               family == FAMILY_COMPLEX;
    case ENGINE_LAND:
    case ENGINE_LOR:
    case ENGINE_LXOR:
        return family == FAMILY_INTEGER || family == FAMILY_LOGICAL;
    case ENGINE_BAND:
    case ENGINE_BOR:
    case ENGINE_BXOR:
        return family == FAMILY_INTEGER || family == FAMILY_BYTE || family == FAMILY_ADDRESS;
    }
    return false;
}
