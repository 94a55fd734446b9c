/* Ranks that are never heard: see silence.h. */
#include "silence.h"

static bool is_rank(int rank) { return rank >= 0 && rank < MOST_RANKS; }

void note_sent(struct silence *known, int rank, uint64_t now) {
    if (is_rank(rank) && known->sent[rank] == 0) known->sent[rank] = now;
}

void note_came(struct silence *known, int rank) {
    if (is_rank(rank)) known->has_come[rank] = true;
}

/* Whether so many milliseconds have passed since then. */
static bool is_long_ago(uint64_t then, uint64_t now) {
    return now >= then && now - then >= (uint64_t)LONG_SILENCE * 1000000;
}

int first_silent(const struct silence *known, const struct addresses *job, int own, uint64_t begun, uint64_t now) {
    if (!is_long_ago(begun, now)) return -1;
    for (int rank = 0; rank < job->size; rank++) {
        bool is_far = job->of_rank[rank] != job->of_rank[own];
        if (is_far && !known->has_come[rank] && known->sent[rank] != 0 && is_long_ago(known->sent[rank], now))
            return rank;
    }
    return -1;
}
