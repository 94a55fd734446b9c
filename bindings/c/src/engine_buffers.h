/* Whether buffers share bytes: a function of its arguments alone, which the static library `libc_exports.a` exports.
 * Decided and proved there (the crate shared_bytes): exactly where some byte is in both. That the record is the
 * library's is told by engine_records.c. */
#ifndef KOMBAZILY_ENGINE_BUFFERS_H
#define KOMBAZILY_ENGINE_BUFFERS_H

#include <stddef.h>
#include <stdint.h>

/* `count` rows of `length` bytes, the first one at the address `at`, each further one `stride` bytes behind the one
 * before it. */
struct byte_run {
    uint64_t at;
    uint64_t length;
    uint64_t count;
    uint64_t stride;
};

/* Whether one of some runs shares a byte with one of others: 1, it does; 0, none does; 96, one of them doesn't end
 * within 64 bits. */
uint32_t kombazily_share_bytes(const struct byte_run *ones, size_t count, const struct byte_run *others,
                               size_t other_count);

#endif
