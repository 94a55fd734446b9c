/* Packing (MPI 3.1, 4.2): data are packed as they go in messages, byte behind byte. */
#include "errors.h"
#include "internal.h"
#include "types.h"

#include <limits.h>

/* What a call packs or unpacks, once it is checked: so many bytes of data, from or into byte `position` of `row`. */
struct packing {
    struct datatype *type;
    size_t length;
};

/* Checks items, and counts their bytes. */
static int check_items(MPI_Comm comm, const char *call, int count, MPI_Datatype datatype, struct packing *found) {
    struct communicator *own;
    check_running(call);
    int class = check_comm(comm, call, &own);
    if (class == MPI_SUCCESS) class = check_count(comm, call, count);
    if (class == MPI_SUCCESS) class = check_type(comm, call, datatype, &found->type);
    if (class == MPI_SUCCESS) found->length = data_size(&found->type->layout, (size_t)count);
    return class;
}

/* Checks where they stand in packed data of so many bytes; their names are the arguments'. */
static int check_row(MPI_Comm comm, const char *call, const void *row, const char *row_name, int size,
                     const char *size_name, const int *position, size_t length) {
    int class = check_result(comm, call, position, "position");
    if (class != MPI_SUCCESS) return class;
    if (size < 0) return raise_on(comm, call, MPI_ERR_ARG, "%s is %d", size_name, size);
    if (*position < 0 || *position > size)
        return raise_on(comm, call, MPI_ERR_ARG, "position is %d, not from 0 to %s, %d", *position, size_name, size);
    if (length > (size_t)(size - *position))
        return raise_on(comm, call, MPI_ERR_TRUNCATE, "%zu bytes from position %d on are more than %s, %d, has", length,
                        *position, size_name, size);
    if (row != NULL || length == 0) return MPI_SUCCESS;
    return raise_on(comm, call, MPI_ERR_BUFFER, "%s is NULL, for %zu bytes", row_name, length);
}

int MPI_Pack(const void *inbuf, int incount, MPI_Datatype datatype, void *outbuf, int outsize, int *position,
             MPI_Comm comm) {
    NOTE_CALLER();
    const char *call = "MPI_Pack";
    struct packing it;
    int class = check_items(comm, call, incount, datatype, &it);
    if (class == MPI_SUCCESS) class = check_buffer(comm, call, inbuf, incount, it.type);
    if (class == MPI_SUCCESS) class = check_row(comm, call, outbuf, "outbuf", outsize, "outsize", position, it.length);
    if (class != MPI_SUCCESS || it.length == 0) return class;
    pack(&it.type->layout, inbuf, (size_t)incount, (unsigned char *)outbuf + *position);
    *position += (int)it.length;
    return MPI_SUCCESS;
}

int MPI_Unpack(const void *inbuf, int insize, int *position, void *outbuf, int outcount, MPI_Datatype datatype,
               MPI_Comm comm) {
    NOTE_CALLER();
    const char *call = "MPI_Unpack";
    struct packing it;
    int class = check_items(comm, call, outcount, datatype, &it);
    if (class == MPI_SUCCESS) class = check_buffer(comm, call, outbuf, outcount, it.type);
    if (class == MPI_SUCCESS) class = check_row(comm, call, inbuf, "inbuf", insize, "insize", position, it.length);
    if (class != MPI_SUCCESS || it.length == 0) return class;
    unpack(&it.type->layout, (const unsigned char *)inbuf + *position, it.length, outbuf);
    *position += (int)it.length;
    return MPI_SUCCESS;
}

int MPI_Pack_size(int incount, MPI_Datatype datatype, MPI_Comm comm, int *size) {
    NOTE_CALLER();
    const char *call = "MPI_Pack_size";
    struct packing it;
    int class = check_items(comm, call, incount, datatype, &it);
    if (class == MPI_SUCCESS) class = check_result(comm, call, size, "size");
    if (class == MPI_SUCCESS) *size = it.length > INT_MAX ? MPI_UNDEFINED : (int)it.length;
    return class;
}
