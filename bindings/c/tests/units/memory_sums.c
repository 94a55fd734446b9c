/* Sums of memory: what differs shows, and what is gone is no fault. */
#define _GNU_SOURCE
#include "../../src/memory_sums.h"
#include "unit.h"

#include <sys/mman.h>
#include <unistd.h>

enum { LONG = 300000 };

static void test_words(void) {
    unsigned char bytes[100] = {0};
    const uint64_t sum = sum_bytes(0, bytes, sizeof bytes);
    CHECK(sum_bytes(0, bytes, sizeof bytes) == sum && sum_bytes(1, bytes, sizeof bytes) != sum);
    for (size_t at = 0; at < sizeof bytes; at++) {
        for (int bit = 0; bit < 8; bit++) {
            bytes[at] = (unsigned char)(1 << bit);
            CHECK(sum_bytes(0, bytes, sizeof bytes) != sum);
        }
        bytes[at] = 0;
    }
    bytes[3] = 1;
    const uint64_t low = sum_bytes(0, bytes, sizeof bytes);
    bytes[3] = 0, bytes[11] = 1;
    CHECK(sum_bytes(0, bytes, sizeof bytes) != low);
    CHECK(sum_bytes(7, bytes, 0) == 7);
}

/* Three rows of a memory, of which the bytes beside them may be whatever they are. */
static void test_rows(unsigned char *memory) {
    struct byte_run list[] = {{(uintptr_t)memory, LONG / 2, 1, 0}, {(uintptr_t)memory + LONG / 2 + 1, 3, 1000, 10}};
    const struct byte_rows rows = {list, 2, 2, 0, 0};
    uint64_t sum, again;
    CHECK(sum_memory(&rows, &sum) == MEMORY_SUMMED);
    memory[LONG / 2] ^= 1, memory[LONG / 2 + 4] ^= 1;
    CHECK(sum_memory(&rows, &again) == MEMORY_SUMMED && again == sum);
    for (size_t at = 0; at < LONG / 2; at += 9999) {
        memory[at] ^= 1;
        CHECK(sum_memory(&rows, &again) == MEMORY_SUMMED && again != sum);
        memory[at] ^= 1;
    }
    memory[LONG / 2 + 1 + 999 * 10 + 2] ^= 1;
    CHECK(sum_memory(&rows, &again) == MEMORY_SUMMED && again != sum);
}

static void test_gone(unsigned char *memory) {
    struct byte_run list[] = {{(uintptr_t)memory, LONG, 1, 0}};
    const struct byte_rows rows = {list, 1, 1, 0, 0}, none = {0};
    uint64_t sum;
    const size_t page = (size_t)sysconf(_SC_PAGESIZE);
    CHECK(sum_memory(&none, &sum) == MEMORY_SUMMED);
    CHECK(sum_memory(&rows, &sum) == MEMORY_SUMMED);
    CHECK(mprotect(memory + 4 * page, page, PROT_NONE) == 0 && sum_memory(&rows, &sum) == MEMORY_GONE);
    CHECK(mprotect(memory + 4 * page, page, PROT_READ) == 0 && sum_memory(&rows, &sum) == MEMORY_SUMMED);
    CHECK(munmap(memory, LONG) == 0 && sum_memory(&rows, &sum) == MEMORY_GONE);
    list[0] = (struct byte_run){0, 1, 1, 0};
    CHECK(sum_memory(&rows, &sum) == MEMORY_GONE);
}

int main(void) {
    unsigned char *memory = mmap(NULL, LONG, PROT_READ | PROT_WRITE, MAP_PRIVATE | MAP_ANONYMOUS, -1, 0);
    if (memory == MAP_FAILED) return 1;
    test_words();
    test_rows(memory);
    test_gone(memory);
    return unit_end();
}
