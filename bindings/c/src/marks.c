/* What the marks of a job's ranks mean: see marks.h. */
#include "marks.h"

#include <string.h>

static const char turns[] = "wxy";

char mark_of_look(unsigned look) { return turns[look % 3]; }

bool is_waiting(char mark) { return mark != '\0' && strchr(turns, mark) != NULL; }

bool has_port(char mark) { return mark != '\0' && mark != MARK_ENDED; }

int first_marked(const char *marks, int size, char mark) {
    const char *found = memchr(marks, mark, (size_t)size);
    return found == NULL ? -1 : (int)(found - marks);
}

bool have_all_come(const char *marks, int size) { return first_marked(marks, size, '\0') < 0; }

bool have_all_ports(const char *marks, int size) {
    return have_all_come(marks, size) && first_marked(marks, size, MARK_ENDED) < 0;
}
