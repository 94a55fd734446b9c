/* Places of calls: addresses in the program's own file, from the innermost one. See record.h. */
#define _GNU_SOURCE
#include "record.h"

#include <execinfo.h>
#include <link.h>
#include <stdint.h>
#include <string.h>

enum { MOST_FRAMES = 12, MOST_PLACES = 1 << 14 };

/* The parts of the program's own file in memory. */
static struct { uintptr_t base, from, to; } program_file;

/* The places that are known, each where its sum says, or behind it. */
static struct known {
    uintptr_t frames[MOST_FRAMES];
    int count, number;
} known[MOST_PLACES];
static int known_count;

static int note_program(struct dl_phdr_info *info, size_t size, void *nothing) {
    (void)size, (void)nothing;
    program_file.base = info->dlpi_addr;
    program_file.from = UINTPTR_MAX;
    for (int i = 0; i < info->dlpi_phnum; i++) {
        const ElfW(Phdr) *part = &info->dlpi_phdr[i];
        uintptr_t from = info->dlpi_addr + part->p_vaddr;
        if (part->p_type != PT_LOAD) continue;
        if (from < program_file.from) program_file.from = from;
        if (from + part->p_memsz > program_file.to) program_file.to = from + part->p_memsz;
    }
    return 1; /* the program itself comes first */
}

static int frames_of_call(uintptr_t frames[MOST_FRAMES]) {
    enum { WITHIN = 8 };
    void *all[MOST_FRAMES + WITHIN];
    int count = 0, found = backtrace(all, MOST_FRAMES + WITHIN);
    if (program_file.to == 0) dl_iterate_phdr(note_program, NULL);
    for (int i = 0; i < found && count < MOST_FRAMES; i++) {
        uintptr_t at = (uintptr_t)all[i];
        if (at >= program_file.from && at < program_file.to) frames[count++] = at - program_file.base;
    }
    return count;
}

static size_t sum_of(const uintptr_t *frames, int count) {
    uint64_t sum = UINT64_C(14695981039346656037);
    for (int i = 0; i < count; i++) sum = (sum ^ frames[i]) * UINT64_C(1099511628211);
    return (size_t)(sum >> 20) % MOST_PLACES;
}

static void write_place(struct known *it, const uintptr_t *frames, int count) {
    memcpy(it->frames, frames, (size_t)count * sizeof *frames);
    it->count = count;
    it->number = ++known_count;
    put("place %d", it->number);
    for (int i = 0; i < count; i++) put(" %zx", (size_t)frames[i]);
    end_line();
}

int place_of_call(void) {
    uintptr_t frames[MOST_FRAMES];
    int count = frames_of_call(frames);
    size_t at = sum_of(frames, count);
    for (; known[at].number != 0; at = (at + 1) % MOST_PLACES)
        if (known[at].count == count && memcmp(known[at].frames, frames, (size_t)count * sizeof *frames) == 0)
            return known[at].number;
    if (known_count == MOST_PLACES - 1) return 0;
    write_place(&known[at], frames, count);
    return known[at].number;
}
