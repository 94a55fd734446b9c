/* Packing in external32 (MPI 3.1, 4.3 and 13.5.2). The calls have no communicator: errors are those of MPI_COMM_WORLD.
 */
#include "errors.h"
#include "external_numbers.h"
#include "internal.h"
#include "types.h"

#include <stdlib.h>
#include <string.h>

/* Where data are: in external32, and in a row as they go in messages. */
struct place {
    unsigned char *external, *row;
};

/* Writes or reads so many items of a signature, and goes behind them. */
static void convert(const struct signature *signature, size_t count, bool is_written, struct place *at) {
    for (size_t item = 0; item < count; item++) {
        for (const struct signature_part *part = signature->parts; part != signature->parts + signature->count;
             part++) {
            const struct basic_type *type = part->element;
            if (part->body != NULL) {
                convert(part->body, part->count, is_written, at);
                continue;
            }
            if (is_written) write_external(type, part->count, at->row, at->external);
            else read_external(type, part->count, at->external, at->row);
            at->external += part->count * type->numbers * type->external;
            at->row += part->count * type->size;
        }
    }
}

/* Checks the representation and the items, and counts the bytes that they have in external32. */
static int check_external(const char *call, const char *datarep, int count, MPI_Datatype datatype,
                          struct datatype **type, MPI_Aint *length) {
    size_t bytes = 0;
    check_running(call);
    int class = check_result(MPI_COMM_WORLD, call, datarep, "datarep");
    if (class == MPI_SUCCESS && strcmp(datarep, "external32") != 0)
        class = raise_on(MPI_COMM_WORLD, call, MPI_ERR_ARG, "datarep is \"%.40s\": there is \"external32\"", datarep);
    if (class == MPI_SUCCESS) class = check_count(MPI_COMM_WORLD, call, count);
    if (class == MPI_SUCCESS) class = check_type(MPI_COMM_WORLD, call, datatype, type);
    if (class != MPI_SUCCESS) return class;
    if ((*type)->signature != NULL) bytes = (*type)->signature->external;
    if (count > 0 && bytes > (size_t)PTRDIFF_MAX / (size_t)count)
        return raise_on(MPI_COMM_WORLD, call, MPI_ERR_COUNT, "a count of %d: the items have 2^63 bytes or more", count);
    *length = (MPI_Aint)(bytes * (size_t)count);
    return MPI_SUCCESS;
}

int MPI_Pack_external_size(const char datarep[], int incount, MPI_Datatype datatype, MPI_Aint *size) {
    NOTE_CALLER();
    struct datatype *type;
    MPI_Aint length;
    int class = check_external("MPI_Pack_external_size", datarep, incount, datatype, &type, &length);
    if (class == MPI_SUCCESS) class = check_result(MPI_COMM_WORLD, "MPI_Pack_external_size", size, "size");
    if (class == MPI_SUCCESS) *size = length;
    return class;
}

/* Checks where they stand in the packed data; its name and that of their size are the arguments'. */
static int check_row(const char *call, const void *row, const char *row_name, MPI_Aint size, const char *size_name,
                     const MPI_Aint *position, MPI_Aint length) {
    int class = check_result(MPI_COMM_WORLD, call, position, "position");
    if (class != MPI_SUCCESS) return class;
    if (size < 0) return raise_on(MPI_COMM_WORLD, call, MPI_ERR_ARG, "%s is %td", size_name, size);
    if (*position < 0 || *position > size)
        return raise_on(MPI_COMM_WORLD, call, MPI_ERR_ARG, "position is %td, not from 0 to %s, %td", *position,
                        size_name, size);
    if (length > size - *position)
        return raise_on(MPI_COMM_WORLD, call, MPI_ERR_TRUNCATE,
                        "%td bytes from position %td on are more than %s, %td, has", length, *position, size_name,
                        size);
    if (row != NULL || length == 0) return MPI_SUCCESS;
    return raise_on(MPI_COMM_WORLD, call, MPI_ERR_BUFFER, "%s is NULL, for %td bytes", row_name, length);
}

int MPI_Pack_external(const char datarep[], const void *inbuf, int incount, MPI_Datatype datatype, void *outbuf,
                      MPI_Aint outsize, MPI_Aint *position) {
    NOTE_CALLER();
    const char *call = "MPI_Pack_external";
    struct datatype *type;
    MPI_Aint length;
    void *room;
    int class = check_external(call, datarep, incount, datatype, &type, &length);
    if (class == MPI_SUCCESS) class = check_buffer(MPI_COMM_WORLD, call, inbuf, incount, type);
    if (class == MPI_SUCCESS) class = check_row(call, outbuf, "outbuf", outsize, "outsize", position, length);
    if (class != MPI_SUCCESS || length == 0) return class;
    const void *row = data_row(&type->layout, inbuf, (size_t)incount, &room);
    if (row == NULL) return raise_on(MPI_COMM_WORLD, call, MPI_ERR_NO_MEM, "no memory for %d items", incount);
    struct place at = {.external = (unsigned char *)outbuf + *position, .row = (unsigned char *)row};
    convert(type->signature, (size_t)incount, true, &at);
    free(room);
    *position += length;
    return MPI_SUCCESS;
}

int MPI_Unpack_external(const char datarep[], const void *inbuf, MPI_Aint insize, MPI_Aint *position, void *outbuf,
                        int outcount, MPI_Datatype datatype) {
    NOTE_CALLER();
    const char *call = "MPI_Unpack_external";
    struct datatype *type;
    MPI_Aint length;
    int class = check_external(call, datarep, outcount, datatype, &type, &length);
    if (class == MPI_SUCCESS) class = check_buffer(MPI_COMM_WORLD, call, outbuf, outcount, type);
    if (class == MPI_SUCCESS) class = check_row(call, inbuf, "inbuf", insize, "insize", position, length);
    if (class != MPI_SUCCESS || length == 0) return class;
    size_t size = data_size(&type->layout, (size_t)outcount);
    unsigned char *row = size == SIZE_MAX ? NULL : malloc(size);
    if (row == NULL) return raise_on(MPI_COMM_WORLD, call, MPI_ERR_NO_MEM, "no memory for %d items", outcount);
    struct place at = {.external = (unsigned char *)inbuf + *position, .row = row};
    convert(type->signature, (size_t)outcount, false, &at);
    unpack(&type->layout, row, size, outbuf);
    free(row);
    *position += length;
    return MPI_SUCCESS;
}
