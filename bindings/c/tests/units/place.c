/* Tests src/place.c: a process's place in words and in the environment. */
#include "../../src/place.h"
#include "unit.h"

/* An environment of so many names and values. */
static const char *const *environment;
static char *read_variable(const char *name) {
    for (const char *const *it = environment; *it != NULL; it += 2)
        if (strcmp(*it, name) == 0) return (char *)it[1];
    return NULL;
}

static struct place place;
static const char *fault;

static enum place_source in_environment(const char *const *pairs) {
    environment = pairs;
    place = (struct place){0};
    fault = NULL;
    return place_in_environment(read_variable, &place, &fault);
}

static void test_numbers(void) {
    uint64_t number = 5;
    CHECK(read_number("0", 0, &number) && number == 0);
    CHECK(read_number("18446744073709551615", UINT64_MAX, &number) && number == UINT64_MAX);
    CHECK(!read_number("18446744073709551616", UINT64_MAX, &number));
    CHECK(!read_number("99999999999999999999", UINT64_MAX, &number));
    CHECK(!read_number("8", 7, &number));
    CHECK(!read_number("", 7, &number) && !read_number("-1", 7, &number) && !read_number(" 1", 7, &number));
    CHECK(!read_number("1x", 7, &number) && !read_number("+1", 7, &number));
}

#define OF_TWO "KOMBAZILY_SIZE", "2", "KOMBAZILY_INCARNATION", "3", "KOMBAZILY_JOB", "77", "KOMBAZILY_PORT", "4000"

static void test_environment(void) {
    CHECK(in_environment((const char *const[]){"HOME", "/", NULL}) == PLACE_NONE);
    CHECK(in_environment((const char *const[]){"KOMBAZILY_RANK", "1", OF_TWO, NULL}) == PLACE_TOLD);
    CHECK(place.rank == 1 && place.size == 2 && place.incarnation == 3 && place.job == 77 && place.port == 4000);
    CHECK(place.patience == 0);
    CHECK(in_environment((const char *const[]){"KOMBAZILY_RANK", "1", OF_TWO, "KOMBAZILY_PATIENCE", "9", NULL}) ==
          PLACE_TOLD);
    CHECK(place.patience == 9);
    CHECK(in_environment((const char *const[]){OF_TWO, NULL}) == PLACE_FAULTY && fault != NULL);
    CHECK(in_environment((const char *const[]){"KOMBAZILY_RANK", "2", OF_TWO, NULL}) == PLACE_FAULTY);
    CHECK(in_environment((const char *const[]){"KOMBAZILY_RANK", "x", OF_TWO, NULL}) == PLACE_FAULTY);
    CHECK(strcmp(fault, "KOMBAZILY_RANK") == 0);
    CHECK(in_environment((const char *const[]){"KOMBAZILY_RANK", "1", OF_TWO, "KOMBAZILY_PATIENCE", "0", NULL}) ==
          PLACE_FAULTY);
    CHECK(in_environment((const char *const[]){"KOMBAZILY_PATIENCE", "10", NULL}) == PLACE_NONE);
    CHECK(in_environment((const char *const[]){"KOMBAZILY_RANK", "0", "KOMBAZILY_SIZE", "2", "KOMBAZILY_INCARNATION",
                                               "0", "KOMBAZILY_JOB", "1", "KOMBAZILY_PORT", "65535", NULL}) ==
          PLACE_FAULTY);
}

static enum place_source in_words(int count, char *const *words, int *taken) {
    place = (struct place){0};
    fault = NULL;
    return place_in_words(count, words, &place, taken, &fault);
}

#define TEN "--rank", "1", "--size", "2", "--inc", "3", "--job", "77", "--port", "4001"

static void test_words(void) {
    int taken;
    CHECK(in_words(11, (char *const[]){"prog", TEN}, &taken) == PLACE_TOLD && taken == 10);
    CHECK(place.rank == 1 && place.size == 2 && place.incarnation == 3 && place.job == 77 && place.port == 4000);
    CHECK(in_words(14, (char *const[]){"prog", TEN, "--patience", "5", "own"}, &taken) == PLACE_TOLD && taken == 12);
    CHECK(place.patience == 5);
    CHECK(in_words(12, (char *const[]){"prog", TEN, "--rank"}, &taken) == PLACE_TOLD && taken == 10);
    CHECK(in_words(1, (char *const[]){"prog"}, &taken) == PLACE_NONE && taken == 0);
    CHECK(in_words(0, (char *const[]){NULL}, &taken) == PLACE_NONE && taken == 0);
    /* Words of the program's own stay. */
    CHECK(in_words(3, (char *const[]){"prog", "--rank", "1"}, &taken) == PLACE_NONE && taken == 0);
    CHECK(in_words(3, (char *const[]){"prog", "--rank", "high"}, &taken) == PLACE_NONE && taken == 0);
    CHECK(in_words(12, (char *const[]){"prog", "own", TEN}, &taken) == PLACE_NONE && taken == 0);
    CHECK(in_words(11, (char *const[]){"prog", "--rank", "1", "--size", "0", "--inc", "0", "--job", "1", "--port", "9"},
                   &taken) == PLACE_FAULTY);
    CHECK(in_words(11, (char *const[]){"prog", "--rank", "2", "--size", "2", "--inc", "0", "--job", "1", "--port", "9"},
                   &taken) == PLACE_FAULTY);
    CHECK(in_words(11, (char *const[]){"prog", "--rank", "1", "--size", "2", "--inc", "0", "--job", "1", "--port", "1"},
                   &taken) == PLACE_FAULTY);
}

int main(void) {
    test_numbers();
    test_environment();
    test_words();
    return unit_end();
}
