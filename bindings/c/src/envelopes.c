/* How a type was made (MPI 3.1, 4.1.13). */
#include "errors.h"
#include "internal.h"
#include "type_makers.h"

#include <string.h>

int MPI_Type_get_envelope(MPI_Datatype datatype, int *num_integers, int *num_addresses, int *num_datatypes,
                          int *combiner) {
    NOTE_CALLER();
    const char *call = "MPI_Type_get_envelope";
    struct datatype *own;
    int class = check_any_type(call, datatype, &own);
    if (class == MPI_SUCCESS) class = check_result(MPI_COMM_WORLD, call, num_integers, "num_integers");
    if (class == MPI_SUCCESS) class = check_result(MPI_COMM_WORLD, call, num_addresses, "num_addresses");
    if (class == MPI_SUCCESS) class = check_result(MPI_COMM_WORLD, call, num_datatypes, "num_datatypes");
    if (class == MPI_SUCCESS) class = check_result(MPI_COMM_WORLD, call, combiner, "combiner");
    if (class != MPI_SUCCESS) return class;
    static const struct envelope named = {.combiner = MPI_COMBINER_NAMED};
    const struct envelope *of = own->envelope != NULL ? own->envelope : &named;
    *num_integers = of->integer_count;
    *num_addresses = of->address_count;
    *num_datatypes = of->type_count;
    *combiner = of->combiner;
    return MPI_SUCCESS;
}

/* That a list of the program has room for all entries. */
static int check_room(const char *call, const char *max_name, int max, const char *name, const void *list, int count) {
    if (max < count) return raise_on(MPI_COMM_WORLD, call, MPI_ERR_ARG, "%s is %d, of %d", max_name, max, count);
    return check_list(call, name, list, count);
}

/* Handles of the types that a type was made of: all, or none where there is no memory. */
static int hand_out_types(const char *call, const struct envelope *of, MPI_Datatype *types) {
    for (int i = 0; i < of->type_count; i++) {
        types[i] = add_handle(of->types[i]);
        if (types[i] != MPI_DATATYPE_NULL) continue;
        while (i-- > 0)
            if (!of->types[i]->is_predefined) MPI_Type_free(&types[i]);
        return raise_on(MPI_COMM_WORLD, call, MPI_ERR_NO_MEM, "no memory for the handle of a type");
    }
    return MPI_SUCCESS;
}

int MPI_Type_get_contents(MPI_Datatype datatype, int max_integers, int max_addresses, int max_datatypes,
                          int array_of_integers[], MPI_Aint array_of_addresses[], MPI_Datatype array_of_datatypes[]) {
    NOTE_CALLER();
    const char *call = "MPI_Type_get_contents";
    struct datatype *own;
    int class = check_any_type(call, datatype, &own);
    if (class != MPI_SUCCESS) return class;
    const struct envelope *of = own->envelope;
    if (of == NULL)
        return raise_on(MPI_COMM_WORLD, call, MPI_ERR_TYPE, "%s is predefined: it was made of none", own->of);
    class = check_room(call, "max_integers", max_integers, "array_of_integers", array_of_integers, of->integer_count);
    if (class == MPI_SUCCESS)
        class = check_room(call, "max_addresses", max_addresses, "array_of_addresses", array_of_addresses,
                           of->address_count);
    if (class == MPI_SUCCESS)
        class =
            check_room(call, "max_datatypes", max_datatypes, "array_of_datatypes", array_of_datatypes, of->type_count);
    if (class == MPI_SUCCESS) class = hand_out_types(call, of, array_of_datatypes);
    if (class != MPI_SUCCESS) return class;
    if (of->integer_count != 0)
        memcpy(array_of_integers, of->integers, (size_t)of->integer_count * sizeof *of->integers);
    if (of->address_count != 0)
        memcpy(array_of_addresses, of->addresses, (size_t)of->address_count * sizeof *of->addresses);
    return MPI_SUCCESS;
}
