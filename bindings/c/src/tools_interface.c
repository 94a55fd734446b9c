/* The interface for tools (MPI 3.1, 14.3): there are no control variables, no performance variables, no categories and
 * no enumerations. So each index, name and handle is one that isn't there, and each call says so by its code. None
 * tells an error handler (14.3.9), and all may be made before MPI_Init and behind MPI_Finalize (14.3.4). */
#include "internal.h"

#include <pthread.h>
#include <stdlib.h>

/* How often the interface was begun, and wasn't ended. */
static int uses;
static pthread_mutex_t lock_of_uses = PTHREAD_MUTEX_INITIALIZER;

/* Its sessions: nothing belongs to one. */
struct kombazily_performance_session {
    struct kombazily_performance_session *next;
};
static struct kombazily_performance_session *sessions;

/* Whether the interface is begun: all calls have the lock while they look. */
static bool is_begun(void) {
    pthread_mutex_lock(&lock_of_uses);
    const bool is_so = uses > 0;
    pthread_mutex_unlock(&lock_of_uses);
    return is_so;
}

/* The answer of a call that names what isn't there. */
static int absent(int code) { return is_begun() ? code : MPI_T_ERR_NOT_INITIALIZED; }

/* Answers a number. */
static int put_number(int *into, int number) {
    if (!is_begun()) return MPI_T_ERR_NOT_INITIALIZED;
    if (into == NULL) return MPI_T_ERR_INVALID;
    *into = number;
    return MPI_SUCCESS;
}

/* ---- beginning and end (14.3.4) ---- */

int MPI_T_init_thread(int required, int *provided) {
    pthread_mutex_lock(&lock_of_uses);
    uses++;
    pthread_mutex_unlock(&lock_of_uses);
    if (provided != NULL) *provided = required < MPI_THREAD_MULTIPLE ? required : MPI_THREAD_MULTIPLE;
    return MPI_SUCCESS;
}

int MPI_T_finalize(void) {
    pthread_mutex_lock(&lock_of_uses);
    const bool was_begun = uses > 0;
    if (was_begun) uses--;
    while (uses == 0 && sessions != NULL) {
        struct kombazily_performance_session *gone = sessions;
        sessions = gone->next;
        free(gone);
    }
    pthread_mutex_unlock(&lock_of_uses);
    return was_begun ? MPI_SUCCESS : MPI_T_ERR_NOT_INITIALIZED;
}

/* ---- sessions (14.3.7) ---- */

int MPI_T_pvar_session_create(MPI_T_pvar_session *session) {
    if (!is_begun()) return MPI_T_ERR_NOT_INITIALIZED;
    if (session == NULL) return MPI_T_ERR_INVALID;
    struct kombazily_performance_session *made = malloc(sizeof *made);
    if (made == NULL) return MPI_T_ERR_OUT_OF_SESSIONS;
    pthread_mutex_lock(&lock_of_uses);
    made->next = sessions;
    sessions = made;
    pthread_mutex_unlock(&lock_of_uses);
    *session = made;
    return MPI_SUCCESS;
}

/* Whether there is such a session; takes it out, if it is told so. */
static bool find_session(MPI_T_pvar_session session, bool takes_out) {
    pthread_mutex_lock(&lock_of_uses);
    struct kombazily_performance_session **at = &sessions;
    while (*at != NULL && *at != session) at = &(*at)->next;
    const bool is_there = *at != NULL;
    if (is_there && takes_out) *at = session->next;
    pthread_mutex_unlock(&lock_of_uses);
    return is_there;
}

int MPI_T_pvar_session_free(MPI_T_pvar_session *session) {
    if (!is_begun()) return MPI_T_ERR_NOT_INITIALIZED;
    if (session == NULL || !find_session(*session, true)) return MPI_T_ERR_INVALID_SESSION;
    free(*session);
    *session = MPI_T_PVAR_SESSION_NULL;
    return MPI_SUCCESS;
}

/* The answer of a call that names a session and what isn't there in it. */
static int absent_in(MPI_T_pvar_session session, int code) {
    return absent(find_session(session, false) ? code : MPI_T_ERR_INVALID_SESSION);
}

/* The same of a handle; all handles of a session are none, and can be started, stopped and reset. */
static int absent_handle(MPI_T_pvar_session session, MPI_T_pvar_handle handle) {
    return absent_in(session, handle == MPI_T_PVAR_ALL_HANDLES ? MPI_SUCCESS : MPI_T_ERR_INVALID_HANDLE);
}

/* ---- what there is ---- */

int MPI_T_cvar_get_num(int *num_cvar) { return put_number(num_cvar, 0); }
int MPI_T_pvar_get_num(int *num_pvar) { return put_number(num_pvar, 0); }
int MPI_T_category_get_num(int *num_cat) { return put_number(num_cat, 0); }
int MPI_T_category_changed(int *update_number) { return put_number(update_number, 0); }

int MPI_T_pvar_start(MPI_T_pvar_session session, MPI_T_pvar_handle handle) { return absent_handle(session, handle); }
int MPI_T_pvar_stop(MPI_T_pvar_session session, MPI_T_pvar_handle handle) { return absent_handle(session, handle); }
int MPI_T_pvar_reset(MPI_T_pvar_session session, MPI_T_pvar_handle handle) { return absent_handle(session, handle); }

/* ---- what isn't ---- */

#pragma GCC diagnostic ignored "-Wunused-parameter"

int MPI_T_category_get_categories(int cat_index, int len, int indices[]) { return absent(MPI_T_ERR_INVALID_INDEX); }

int MPI_T_category_get_cvars(int cat_index, int len, int indices[]) { return absent(MPI_T_ERR_INVALID_INDEX); }

int MPI_T_category_get_index(const char *name, int *cat_index) { return absent(MPI_T_ERR_INVALID_NAME); }

int MPI_T_category_get_info(int cat_index, char *name, int *name_len, char *desc, int *desc_len, int *num_cvars,
                            int *num_pvars, int *num_categories) {
    return absent(MPI_T_ERR_INVALID_INDEX);
}

int MPI_T_category_get_pvars(int cat_index, int len, int indices[]) { return absent(MPI_T_ERR_INVALID_INDEX); }

int MPI_T_cvar_get_index(const char *name, int *cvar_index) { return absent(MPI_T_ERR_INVALID_NAME); }

int MPI_T_cvar_get_info(int cvar_index, char *name, int *name_len, int *verbosity, MPI_Datatype *datatype,
                        MPI_T_enum *enumtype, char *desc, int *desc_len, int *bind, int *scope) {
    return absent(MPI_T_ERR_INVALID_INDEX);
}

int MPI_T_cvar_handle_alloc(int cvar_index, void *obj_handle, MPI_T_cvar_handle *handle, int *count) {
    return absent(MPI_T_ERR_INVALID_INDEX);
}

int MPI_T_cvar_handle_free(MPI_T_cvar_handle *handle) { return absent(MPI_T_ERR_INVALID_HANDLE); }

int MPI_T_cvar_read(MPI_T_cvar_handle handle, void *buf) { return absent(MPI_T_ERR_INVALID_HANDLE); }

int MPI_T_cvar_write(MPI_T_cvar_handle handle, const void *buf) { return absent(MPI_T_ERR_INVALID_HANDLE); }

int MPI_T_enum_get_info(MPI_T_enum enumtype, int *num, char *name, int *name_len) {
    return absent(MPI_T_ERR_INVALID_HANDLE);
}

int MPI_T_enum_get_item(MPI_T_enum enumtype, int indx, int *value, char *name, int *name_len) {
    return absent(MPI_T_ERR_INVALID_HANDLE);
}

int MPI_T_pvar_get_index(const char *name, int var_class, int *pvar_index) { return absent(MPI_T_ERR_INVALID_NAME); }

int MPI_T_pvar_get_info(int pvar_index, char *name, int *name_len, int *verbosity, int *var_class,
                        MPI_Datatype *datatype, MPI_T_enum *enumtype, char *desc, int *desc_len, int *bind,
                        int *readonly, int *continuous, int *atomic) {
    return absent(MPI_T_ERR_INVALID_INDEX);
}

int MPI_T_pvar_handle_alloc(MPI_T_pvar_session session, int pvar_index, void *obj_handle, MPI_T_pvar_handle *handle,
                            int *count) {
    return absent_in(session, MPI_T_ERR_INVALID_INDEX);
}

int MPI_T_pvar_handle_free(MPI_T_pvar_session session, MPI_T_pvar_handle *handle) {
    return absent_in(session, MPI_T_ERR_INVALID_HANDLE);
}

int MPI_T_pvar_read(MPI_T_pvar_session session, MPI_T_pvar_handle handle, void *buf) {
    return absent_in(session, MPI_T_ERR_INVALID_HANDLE);
}

int MPI_T_pvar_readreset(MPI_T_pvar_session session, MPI_T_pvar_handle handle, void *buf) {
    return absent_in(session, MPI_T_ERR_INVALID_HANDLE);
}

int MPI_T_pvar_write(MPI_T_pvar_session session, MPI_T_pvar_handle handle, const void *buf) {
    return absent_in(session, MPI_T_ERR_INVALID_HANDLE);
}
