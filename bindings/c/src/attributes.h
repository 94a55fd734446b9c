/* Attributes (MPI 3.1, 6.7): values that a program keeps with a communicator or a type under keys of its own. */
#ifndef KOMBAZILY_ATTRIBUTES_H
#define KOMBAZILY_ATTRIBUTES_H

#include "mpi.h"

#include <stdbool.h>

/* What values are kept with: exactly one of them. */
struct owner {
    MPI_Comm comm;
    MPI_Datatype type;
};

/* A key: its functions, and whether it is for communicators or types. It stays as long as a value is kept under it. */
struct keyval {
    bool is_of_types;
    int number; /* as the program has it */
    int uses;   /* by the program, until it frees it, and by values */
    bool is_freed;
    bool takes_numbers; /* its functions are of Fortran, which have values as numbers (17.2.7) */
    void *extra_state;
    union {
        struct {
            MPI_Comm_copy_attr_function *copy;
            MPI_Comm_delete_attr_function *delete;
        } comm;
        struct {
            MPI_Type_copy_attr_function *copy;
            MPI_Type_delete_attr_function *delete;
        } type;
    } functions;
};

/* A value. The last one that was set under a new key stands first. */
struct attribute {
    struct keyval *keyval;
    void *value;
    MPI_Aint number; /* of a value that Fortran set: `value` is its address (17.2.7) */
    bool is_number;
    bool is_leaving; /* its delete function is being called: nobody finds it any more */
    struct attribute *next;
};

/* Makes a key: 0, or the class of an error, of which it has told the handler. */
int add_keyval(const char *call, const struct keyval *keyval, int *number);
/* The key of a number, for communicators or for types; the check tells the handler where there is none. */
int check_keyval(const char *call, int number, bool is_of_types, struct keyval **found);
/* That the program hasn't freed it. */
int check_settable(MPI_Comm comm, const char *call, const struct keyval *keyval);
/* The program frees a key: its values stay, and by its number they can be read and deleted. */
int free_keyval(const char *call, int *number, bool is_of_types);

/* The value under a key, or NULL. */
struct attribute *attribute_of(struct attribute *list, const struct keyval *keyval);

/* For Fortran (17.2.7): the functions of this key have values as numbers; the value under a key of the program's, or
 * NULL; a value that was just set is a number; a value as a number, which is an address where C set it. The last two
 * take NULL for none. */
void take_numbers(int number);
struct attribute *find_attribute(struct attribute *list, int number);
void keep_number(struct attribute *attribute);
MPI_Aint value_as_number(const struct attribute *attribute);
/* The values that are kept with a type. */
struct attribute *values_of_type(MPI_Datatype type);

/* Each of these answers 0, or what a function of the program's answered, which makes the call fail. */
/* Sets a value; the one that was there is deleted first. -1: there is no memory. */
int set_attribute(struct owner owner, struct attribute **list, struct keyval *keyval, void *value);
/* Deletes a value: by its function, and then from the list. */
int delete_attribute(struct owner owner, struct attribute **list, struct attribute *attribute);
/* Deletes all values, the last one that was set first. Those behind one whose function fails stay. */
int delete_attributes(struct owner owner, struct attribute **list);
/* Copies values, by their functions; where one fails, those that were copied are deleted again. -1: no memory. */
int copy_attributes(struct owner from, struct attribute *list, struct owner to, struct attribute **copies);

/* Tells of a function that failed, by what the calls above answered. */
int raise_attribute(MPI_Comm comm, const char *call, int answer);

/* The values of a type: MPI_Type_dup copies them to the new type, and MPI_Type_free deletes them first. 0, or the class
 * of an error, of which it has told the handler: then the call fails, and the type stays. */
int copy_type_values(MPI_Datatype from, const char *call, MPI_Datatype to);
int delete_type_values(MPI_Datatype type, const char *call);
void close_type_values(void);

/* The same of communicators, of which MPI_COMM_SELF loses its values first of all in MPI_Finalize (8.7.1). */
int copy_values(MPI_Comm from, const char *call, MPI_Comm to);
int delete_values(MPI_Comm comm, const char *call);

/* Gives a list back, without calling anything; and all keys. */
void forget_attributes(struct attribute **list);
void close_keyvals(void);

#endif
