/* Lines of a program's source: see where.h. */
#define _GNU_SOURCE
#include "where.h"

#include <link.h>
#include <poll.h>
#include <signal.h>
#include <spawn.h>
#include <stdbool.h>
#include <stdint.h>
#include <stdio.h>
#include <string.h>
#include <sys/wait.h>
#include <unistd.h>

extern char **environ;

/* So many milliseconds the command has: whoever ends the process doesn't wait for long. */
enum { MOMENT = 500, LONGEST_ANSWER = 400 };

/* A place in a file that is loaded: the file, and the address in it. */
struct place_in_file {
    uintptr_t address;
    const char *file;
    uintptr_t offset;
};

/* Looks whether the address lies in this file. The program itself is told without a name. */
static int look_into(struct dl_phdr_info *info, size_t size, void *wanted) {
    struct place_in_file *it = wanted;
    (void)size;
    for (int i = 0; i < info->dlpi_phnum; i++) {
        const ElfW(Phdr) *part = &info->dlpi_phdr[i];
        uintptr_t from = info->dlpi_addr + part->p_vaddr;
        if (part->p_type != PT_LOAD || it->address - from >= part->p_memsz) continue;
        it->file = info->dlpi_name == NULL || info->dlpi_name[0] == '\0' ? "/proc/self/exe" : info->dlpi_name;
        it->offset = it->address - info->dlpi_addr;
        return 1;
    }
    return 0;
}

/* Starts addr2line, which writes to this descriptor: whether it could. */
static bool start(const struct place_in_file *it, int output, pid_t *child) {
    char offset[32], file[64] = "";
    posix_spawn_file_actions_t actions;
    snprintf(offset, sizeof offset, "%#zx", (size_t)it->offset);
    /* In the child /proc/self is another process. */
    if (strcmp(it->file, "/proc/self/exe") == 0) snprintf(file, sizeof file, "/proc/%ld/exe", (long)getpid());
    char *words[] = {"addr2line", "-s", "-e", file[0] != '\0' ? file : (char *)it->file, offset, NULL};
    if (posix_spawn_file_actions_init(&actions) != 0) return false;
    bool is_ready = posix_spawn_file_actions_adddup2(&actions, output, STDOUT_FILENO) == 0 &&
                    posix_spawn_file_actions_addopen(&actions, STDERR_FILENO, "/dev/null", 1, 0) == 0;
    bool is_started = is_ready && posix_spawnp(child, words[0], &actions, NULL, words, environ) == 0;
    posix_spawn_file_actions_destroy(&actions);
    return is_started;
}

/* What comes from the descriptor within the moment, up to the end of its first line. */
static bool read_line(int input, char *into, size_t room) {
    struct pollfd came = {.fd = input, .events = POLLIN};
    ssize_t length = poll(&came, 1, MOMENT) > 0 ? read(input, into, room - 1) : 0;
    into[length > 0 ? length : 0] = '\0';
    char *end = strchr(into, '\n');
    if (end == NULL) return false;
    *end = '\0';
    return true;
}

void put_source_line(const void *return_address, char *into, size_t room) {
    /* The call itself stands in front of the address that it returns to. */
    struct place_in_file it = {.address = (uintptr_t)return_address - 1};
    int ends[2];
    pid_t child;
    char answer[LONGEST_ANSWER];
    into[0] = '\0';
    if (return_address == NULL || dl_iterate_phdr(look_into, &it) == 0 || pipe(ends) != 0) return;
    bool is_started = start(&it, ends[1], &child);
    close(ends[1]);
    bool is_told = is_started && read_line(ends[0], answer, sizeof answer);
    close(ends[0]);
    if (is_started && !is_told) kill(child, SIGKILL);
    if (is_started) waitpid(child, NULL, 0);
    /* `ring.c:14`, perhaps with more behind it; a question mark stands for what isn't known. */
    if (!is_told || strchr(answer, '?') != NULL) return;
    answer[strcspn(answer, " ")] = '\0';
    snprintf(into, room, " (%s)", answer);
}
