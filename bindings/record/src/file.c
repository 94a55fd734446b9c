/* Lines of the record, in memory that is the file's: it outlives the process, whatever ends that. See record.h. */
#define _GNU_SOURCE
#include "record.h"

#include <fcntl.h>
#include <pthread.h>
#include <stdarg.h>
#include <stdio.h>
#include <stdlib.h>
#include <string.h>
#include <sys/mman.h>
#include <sys/stat.h>
#include <unistd.h>

enum { PIECE = 1 << 20 };

bool is_recording;

static struct {
    int file;
    char *piece; /* the part of the file that is written now */
    size_t length;
} record = {-1, NULL, 0};
static pthread_mutex_t lock = PTHREAD_MUTEX_INITIALIZER;

/* The line that is made. */
static _Thread_local struct {
    char *text;
    size_t length, room;
} line;

bool open_record(const char *folder, int rank) {
    char name[4096];
    mkdir(folder, 0777);
    snprintf(name, sizeof name, "%s/rank.%d", folder, rank);
    record.file = open(name, O_RDWR | O_CREAT | O_TRUNC | O_CLOEXEC, 0666);
    if (record.file < 0) perror(name);
    is_recording = record.file >= 0;
    return is_recording;
}

/* Room for one more byte: false, there is none, and the record ends. */
static bool has_room(void) {
    if (record.length % PIECE != 0 && record.piece != NULL) return true;
    if (record.piece != NULL) munmap(record.piece, PIECE);
    record.piece = NULL;
    if (ftruncate(record.file, (off_t)(record.length + PIECE)) == 0)
        record.piece = mmap(NULL, PIECE, PROT_READ | PROT_WRITE, MAP_SHARED, record.file, (off_t)record.length);
    if (record.piece == MAP_FAILED) record.piece = NULL;
    if (record.piece == NULL) perror("kombazily: the record can't be written on");
    is_recording = record.piece != NULL;
    return is_recording;
}

static void write_bytes(const char *from, size_t length) {
    while (length > 0 && has_room()) {
        size_t at = record.length % PIECE, room = PIECE - at, some = length < room ? length : room;
        memcpy(record.piece + at, from, some);
        record.length += some;
        from += some, length -= some;
    }
}

static void add(const char *form, va_list words) {
    va_list again;
    va_copy(again, words);
    int length = vsnprintf(line.text + line.length, line.room - line.length, form, words);
    if (length >= 0 && line.length + (size_t)length + 2 > line.room) {
        line.room = 2 * (line.length + (size_t)length) + 256;
        line.text = realloc(line.text, line.room);
        if (line.text == NULL) abort();
        vsnprintf(line.text + line.length, line.room - line.length, form, again);
    }
    line.length += length > 0 ? (size_t)length : 0;
    va_end(again);
}

void put(const char *form, ...) {
    va_list words;
    va_start(words, form);
    add(form, words);
    va_end(words);
}

void end_line(void) {
    put("\n");
    pthread_mutex_lock(&lock);
    if (is_recording) write_bytes(line.text, line.length);
    pthread_mutex_unlock(&lock);
    line.length = 0;
}

void write_line(const char *form, ...) {
    va_list words;
    va_start(words, form);
    add(form, words);
    va_end(words);
    end_line();
}

/* Behind its last line the file has zeros until it is closed. */
void close_record(void) {
    if (!is_recording) return;
    is_recording = false;
    if (ftruncate(record.file, (off_t)record.length) != 0) perror("kombazily: the record");
}
