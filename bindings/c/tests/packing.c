/* Packing (MPI 3.1, 4.2): piece by piece into one buffer, sent as packed data, and unpacked in other pieces. */
#include "test.h"

enum { ROOM = 4000 };

/* What is packed in parts is there at its positions; what isn't reached stays. */
static void check_parts(void) {
    MPI_Datatype column, item;
    double matrix[6][5], back[6][5];
    char text[3] = "ab", other[3] = "";
    unsigned char packed[ROOM];
    int position = 7, size = -1, sizes = 0;
    MPI_Type_vector(6, 1, 5, MPI_DOUBLE, &column);
    MPI_Type_create_struct(2, (int[]){1, 2}, (MPI_Aint[]){0, 8}, (MPI_Datatype[]){MPI_INT, MPI_SHORT}, &item);
    MPI_Type_commit(&column);
    MPI_Type_commit(&item);
    fill(matrix, sizeof matrix, 4);
    memset(packed, 0x99, sizeof packed);
    memset(back, 0, sizeof back);
    MPI_Pack(text, 3, MPI_CHAR, packed, ROOM, &position, MPI_COMM_WORLD);
    MPI_Pack(&matrix[0][2], 1, column, packed, ROOM, &position, MPI_COMM_WORLD);
    MPI_Pack(matrix, 4, item, packed, ROOM, &position, MPI_COMM_WORLD);
    MPI_Pack_size(3, MPI_CHAR, MPI_COMM_WORLD, &size);
    sizes += size;
    MPI_Pack_size(1, column, MPI_COMM_WORLD, &size);
    sizes += size;
    MPI_Pack_size(4, item, MPI_COMM_WORLD, &size);
    sizes += size;
    CHECK(position > 7 && position - 7 <= sizes);
    CHECK(is_all(packed, 7, 0x99) && is_all(packed + position, (size_t)(ROOM - position), 0x99));
    int end = position;
    position = 7;
    MPI_Unpack(packed, end, &position, other, 3, MPI_CHAR, MPI_COMM_WORLD);
    CHECK(strcmp(other, "ab") == 0);
    MPI_Unpack(packed, end, &position, &back[0][1], 1, column, MPI_COMM_WORLD);
    for (int i = 0; i < 6; i++) CHECK(memcmp(&back[i][1], &matrix[i][2], 8) == 0);
    CHECK(is_all(&back[0][2], 32, 0) && is_all(back, 8, 0));
    MPI_Unpack(packed, end, &position, back, 4, item, MPI_COMM_WORLD);
    CHECK(position == end);
    for (int i = 0; i < 4; i++) {
        const char *one = (const char *)matrix + 12 * i, *two = (const char *)back + 12 * i;
        CHECK(memcmp(one, two, 4) == 0 && memcmp(one + 8, two + 8, 4) == 0);
    }
    MPI_Type_free(&column);
    MPI_Type_free(&item);
}

/* Packed data go as MPI_PACKED, and their length is a count of these. */
static void check_sent(void) {
    int next = (test_rank + 1) % test_size, before = (test_rank + test_size - 1) % test_size, position = 0, count = -1;
    int number = 100 + test_rank, got = 0, how_many = -1;
    double many[9], came[9] = {0};
    char out[ROOM], in[ROOM];
    MPI_Status status;
    for (int i = 0; i < 9; i++) many[i] = i + test_rank / 8.0;
    MPI_Pack(&number, 1, MPI_INT, out, ROOM, &position, MPI_COMM_WORLD);
    MPI_Pack(many, 9, MPI_DOUBLE, out, ROOM, &position, MPI_COMM_WORLD);
    MPI_Sendrecv(out, position, MPI_PACKED, next, 5, in, ROOM, MPI_PACKED, before, 5, MPI_COMM_WORLD, &status);
    MPI_Get_count(&status, MPI_PACKED, &count);
    CHECK(count == position);
    how_many = position;
    position = 0;
    MPI_Unpack(in, count, &position, &got, 1, MPI_INT, MPI_COMM_WORLD);
    MPI_Unpack(in, count, &position, came, 9, MPI_DOUBLE, MPI_COMM_WORLD);
    CHECK(position == how_many && got == 100 + before);
    for (int i = 0; i < 9; i++) CHECK(came[i] == i + before / 8.0);
}

/* Nothing is packed as nothing. */
static void check_nothing(void) {
    int position = 3, size = -1, none = 0;
    char row[3] = "";
    MPI_Pack(&none, 0, MPI_INT, row, 3, &position, MPI_COMM_SELF);
    MPI_Unpack(row, 3, &position, &none, 0, MPI_INT, MPI_COMM_SELF);
    MPI_Pack_size(0, MPI_DOUBLE, MPI_COMM_SELF, &size);
    CHECK(position == 3 && size >= 0);
}

/* Many items of two structs, one within the other, and as much as there is of them. */
static void check_many(void) {
    enum { ITEMS = 200 };
    MPI_Datatype inner, outer, sized;
    static unsigned char from[ITEMS * 48], back[ITEMS * 48], packed[ITEMS * 48];
    int position = 0;
    MPI_Type_create_struct(2, (int[]){1, 1}, (MPI_Aint[]){8, 1}, (MPI_Datatype[]){MPI_INT, MPI_CHAR}, &inner);
    MPI_Type_create_struct(3, (int[]){1, 2, 1}, (MPI_Aint[]){0, 8, 40}, (MPI_Datatype[]){MPI_INT, inner, MPI_DOUBLE},
                           &outer);
    MPI_Type_create_resized(outer, 0, 48, &sized);
    MPI_Type_commit(&sized);
    fill(from, sizeof from, 6);
    memset(back, 0, sizeof back);
    MPI_Pack(from, ITEMS, sized, packed, sizeof packed, &position, MPI_COMM_SELF);
    CHECK(position == ITEMS * 22);
    position = 0;
    MPI_Unpack(packed, ITEMS * 22, &position, back, ITEMS, sized, MPI_COMM_SELF);
    for (int i = 0; i < ITEMS; i++) {
        /* An inner item has its int at 8, its char at 1; its extent is 12. */
        const int places[] = {0, 1, 2, 3, 16, 17, 18, 19, 9, 28, 29, 30, 31, 21, 40, 41, 42, 43, 44, 45, 46, 47};
        unsigned char wanted[48] = {0};
        for (int at = 0; at < 22; at++) {
            wanted[places[at]] = from[48 * i + places[at]];
            CHECK(packed[22 * i + at] == from[48 * i + places[at]]);
        }
        CHECK(memcmp(back + 48 * i, wanted, 48) == 0);
    }
    MPI_Type_free(&inner);
    MPI_Type_free(&outer);
    MPI_Type_free(&sized);
}

int main(int argc, char **argv) {
    test_begin(&argc, &argv);
    check_parts();
    check_sent();
    check_nothing();
    check_many();
    return test_end();
}
