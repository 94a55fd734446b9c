/* The picture of a run on the page: see page.h. */
#include "page.h"

#include <stdlib.h>
#include <string.h>

enum { COLUMN = 150, ROW = 24, TOP = 40, LEFT = 80, MOST_ITEMS = 300 };

static int column(int rank) { return LEFT + rank * COLUMN; }
static int row(int place) { return TOP + 14 + place * ROW; }

/* The line of source of an item, as `ring.c:14`. */
static void say_line(const struct picture_item *it, char *into, size_t room) {
    struct source_line line;
    into[0] = '\0';
    if (source_lines(it->place.frames, it->place.count, &line, 1) == 1)
        snprintf(into, room, "%.60s:%d", line.name, line.line);
}

/* Where the receive of a message stands behind this place, or -1. */
static int receive_of(const struct result *it, int from, int count, int message) {
    for (int i = from; i < count; i++)
        if (it->items[i].kind == ITEM_RECEIVE && it->items[i].message == message) return i;
    return -1;
}

static void put_arrow(FILE *into, const struct result *it, int at, int count) {
    const struct picture_item *send = &it->items[at];
    int to = receive_of(it, at, count, send->message);
    int x = column(send->rank), y = row(at), end_x = column(send->other), end_y = to < 0 ? y + ROW / 2 : row(to);
    if (to < 0) end_x = x + (end_x > x ? COLUMN / 3 : end_x < x ? -COLUMN / 3 : COLUMN / 6);
    fprintf(into,
            "<line x1=\"%d\" y1=\"%d\" x2=\"%d\" y2=\"%d\" stroke=\"%s\" stroke-width=\"1.6\"%s "
            "marker-end=\"url(#%s)\"><title>rank %d to rank %d, tag %d%s</title></line>\n",
            x, y, end_x, end_y, to < 0 ? "#b42318" : "#35618e", to < 0 ? " stroke-dasharray=\"4 3\"" : "",
            to < 0 ? "end" : "tip", send->rank, send->other, send->tag, to < 0 ? ": not received" : "");
}

static void put_item(FILE *into, const struct picture_item *it, int at) {
    char line[80];
    int x = column(it->rank), y = row(at);
    say_line(it, line, sizeof line);
    if (it->kind == ITEM_ENTER) {
        fprintf(
            into,
            "<rect x=\"%d\" y=\"%d\" width=\"18\" height=\"6\" fill=\"#7a5195\"><title>a collective</title></rect>\n",
            x - 9, y - 3);
        return;
    }
    fprintf(into,
            "<circle cx=\"%d\" cy=\"%d\" r=\"4\" fill=\"%s\"/><text x=\"%d\" y=\"%d\" fill=\"#4b5258\">%s%s</text>\n",
            x, y, it->is_any ? "#b26a00" : "#1c2024", x + 8, y - 5, line, it->is_any ? " (any)" : "");
}

static bool is_wait(const struct finding *it) { return it->kind == WAITS || it->kind == ASKS_FOR_EVER; }

/* Where ranks wait in vain. */
static void put_waits(FILE *into, const struct result *it, int at) {
    for (int i = 0; i < it->finding_count; i++) {
        const struct finding *own = &it->findings[i];
        struct source_line line;
        if (it->ending != DEADLOCK || !is_wait(own) || own->rank < 0 || own->rank >= set.size) continue;
        int x = column(own->rank), y = row(at);
        fprintf(into, "<rect x=\"%d\" y=\"%d\" width=\"14\" height=\"14\" fill=\"#b42318\"/>", x - 7, y - 7);
        if (own->place_count > 0 && source_lines(own->places[0].frames, own->places[0].count, &line, 1) == 1)
            fprintf(into, "<text x=\"%d\" y=\"%d\" fill=\"#b42318\">waits: %s:%d</text>\n", x + 11, y + 4, line.name,
                    line.line);
    }
}

/* What a rank of a cycle waits for: what its finding says behind the place of its call. */
static void say_what(const struct result *it, int rank, char *into, size_t room) {
    into[0] = '\0';
    for (int i = 0; i < it->finding_count; i++) {
        const struct finding *own = &it->findings[i];
        const char *place = strstr(own->text, "%0 ");
        if (own->rank != rank) continue;
        if (strstr(own->text, " is in MPI_Finalize ") != NULL) snprintf(into, room, "for all to be in MPI_Finalize");
        if (place == NULL || !is_wait(own)) continue;
        snprintf(into, room, "%s", place + 3);
        char *bracket = strstr(into, " (");
        if (bracket != NULL) *bracket = '\0';
    }
}

/* Who waits for whom in a cycle, and for what: an arrow each, one below the other. */
static void put_cycle(FILE *into, const struct result *it, int at) {
    for (int i = 0; i < it->cycle_length; i++) {
        int rank = it->cycle[i], other = it->cycle[(i + 1) % it->cycle_length];
        int from = column(rank), to = column(other), y = row(at + i) + ROW + 4;
        char what[240];
        say_what(it, rank, what, sizeof what);
        fprintf(into,
                "<line x1=\"%d\" y1=\"%d\" x2=\"%d\" y2=\"%d\" stroke=\"#b42318\" stroke-width=\"1.6\" "
                "stroke-dasharray=\"9 4\" marker-end=\"url(#wait)\"><title>rank %d waits for rank %d</title></line>"
                "<text x=\"%d\" y=\"%d\" fill=\"#b42318\">%s</text>\n",
                from, y, to, y, rank, other, (from < to ? from : to) + 8, y - 6, what);
    }
}

void put_arrowheads(FILE *into) {
    fputs("<svg width=\"0\" height=\"0\" style=\"position:absolute\" aria-hidden=\"true\"><defs>"
          "<marker id=\"tip\" markerWidth=\"8\" markerHeight=\"8\" refX=\"7\" refY=\"4\" orient=\"auto\">"
          "<path d=\"M0,0 L8,4 L0,8 z\" fill=\"#35618e\"/></marker>"
          "<marker id=\"end\" markerWidth=\"8\" markerHeight=\"8\" refX=\"7\" refY=\"4\" orient=\"auto\">"
          "<path d=\"M0,0 L8,4 L0,8 z\" fill=\"#b42318\"/></marker>"
          "<marker id=\"wait\" markerWidth=\"9\" markerHeight=\"9\" refX=\"8\" refY=\"4.5\" orient=\"auto\">"
          "<path d=\"M1,1 L8,4.5 L1,8\" fill=\"none\" stroke=\"#b42318\"/></marker></defs></svg>\n",
          into);
}

static void put_lives(FILE *into, int height) {
    for (int rank = 0; rank < set.size; rank++) {
        fprintf(into, "<text x=\"%d\" y=\"20\" text-anchor=\"middle\" font-weight=\"600\">rank %d</text>", column(rank),
                rank);
        fprintf(into, "<line x1=\"%d\" y1=\"30\" x2=\"%d\" y2=\"%d\" stroke=\"#c4c9d0\"/>\n", column(rank),
                column(rank), height - 8);
    }
}

static void put_legend(FILE *into, const struct result *it) {
    fputs("<p class=\"small\">Time goes downwards; '(any)': a receive of any source; a short broken arrow: nobody "
          "received it; a bar: a collective was entered; a square: the rank waits in vain",
          into);
    if (it->cycle_length > 0)
        fputs("; broken arrows with an open head, at the end: a cycle, who waits for whom in it and for what", into);
    fputs(".</p></details>\n", into);
}

void put_picture(FILE *into, const struct result *it) {
    int count = it->item_count < MOST_ITEMS ? it->item_count : MOST_ITEMS, is_cycle = it->cycle_length > 0;
    int width = LEFT + set.size * COLUMN + is_cycle * COLUMN / 2, height = row(count + it->cycle_length) + 30;
    if (count == 0 && it->ending != DEADLOCK) return;
    fprintf(into,
            "<details%s><summary>Messages%s</summary>\n<svg viewBox=\"0 0 %d %d\" width=\"%d\" height=\"%d\" "
            "role=\"img\" aria-label=\"messages of the run\">\n",
            it->weight > 0 || result_count > 1 ? " open" : "",
            it->item_count > MOST_ITEMS ? ": the first 300 of their ends" : "", width, height, width, height);
    put_lives(into, height);
    for (int i = 0; i < count; i++)
        if (it->items[i].kind == ITEM_SEND) put_arrow(into, it, i, count);
    for (int i = 0; i < count; i++) put_item(into, &it->items[i], i);
    put_waits(into, it, count);
    put_cycle(into, it, count);
    fputs("</svg>\n", into);
    put_legend(into, it);
}
