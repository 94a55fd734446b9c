/* Copies of names: whole where they fit, cut where they don't. */
#include "../../src/names.h"
#include "unit.h"

int main(void) {
    char into[MPI_MAX_OBJECT_NAME + 1], longer[2 * MPI_MAX_OBJECT_NAME];
    into[MPI_MAX_OBJECT_NAME] = '#';
    CHECK(copy_name(into, "") == 0 && into[0] == '\0');
    CHECK(copy_name(into, "a name") == 6 && strcmp(into, "a name") == 0);
    memset(longer, 'x', sizeof longer);
    CHECK(copy_name(into, longer) == MPI_MAX_OBJECT_NAME - 1);
    CHECK(memcmp(into, longer, MPI_MAX_OBJECT_NAME - 1) == 0 && into[MPI_MAX_OBJECT_NAME - 1] == '\0');
    CHECK(into[MPI_MAX_OBJECT_NAME] == '#');
    longer[MPI_MAX_OBJECT_NAME - 1] = '\0';
    CHECK(copy_name(into, longer) == MPI_MAX_OBJECT_NAME - 1 && strcmp(into, longer) == 0);
    return unit_end();
}
