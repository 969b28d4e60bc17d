/* Attacks a folder of a trace while a program writes it. Loaded in front of the program's C library (LD_PRELOAD) it waits for a write to a
   file, by number ATTACK_AT, the first one 1, and does what ATTACK says. `links` and `pipes` put links to ATTACK_VICTIM, or pipes, into the
   folder ATTACK_FOLDER after that write, under the names of the files that a trace has. `replace` moves the folder away, with `.moved`
   after its name, and puts an empty one in its place. `full` lets that write take half of its bytes, and fails all later ones; `stuck`
   fails to cut a file too; `gap` takes half of it and fails the two after it. `room` removes ATTACK_VICTIM after that write, whether it was
   taken or not. ATTACK_TOLD names a file that is made then. `grows` waits for no write: each file that is opened to be changed gets one
   byte more before it is.

   As a program, `attack FOLDER VICTIM` waits for FOLDER/metadata, puts links there, and prints how many. */
#define _GNU_SOURCE
#include <errno.h>
#include <fcntl.h>
#include <stdarg.h>
#include <stdio.h>
#include <stdlib.h>
#include <string.h>
#include <sys/stat.h>
#include <sys/syscall.h>
#include <unistd.h>

enum { FILES = 4, PATH = 4096 };

static unsigned long writes;
static int full;

static const char *word(const char *name) {
    const char *text = getenv(name);
    return text ? text : "";
}

static int attacks(const char *how) {
    return strcmp(word("ATTACK"), how) == 0;
}

/* Puts a link or a pipe there, if the name is free. */
static int planted(const char *path, const char *victim) {
    return (victim ? symlink(victim, path) : mkfifo(path, 0666)) == 0;
}

/* Puts a link or a pipe under each free name of a CPU's file, in a trace as taken and in one by time, and says how many. */
static int plant(const char *folder, const char *victim) {
    char path[PATH];
    int count = 0;
    for (int i = 0; i < FILES; i++) {
        snprintf(path, sizeof path, "%s/cpu_%d", folder, i);
        count += planted(path, victim);
        snprintf(path, sizeof path, "%s/cpu_%d_0", folder, i);
        count += planted(path, victim);
    }
    return count;
}

/* Moves the folder away, and puts another in its place. */
static int replace(const char *folder) {
    char path[PATH];
    snprintf(path, sizeof path, "%s.moved", folder);
    return rename(folder, path) || mkdir(folder, 0777);
}

static int is_of_a_file(int file) {
    struct stat told;
    return file > 2 && fstat(file, &told) == 0 && S_ISREG(told.st_mode);
}

static void attack(void) {
    const char *folder = word("ATTACK_FOLDER");
    close(creat(word("ATTACK_TOLD"), 0666));
    if (attacks("links")) plant(folder, word("ATTACK_VICTIM"));
    if (attacks("pipes")) plant(folder, 0);
    if (attacks("replace") && replace(folder)) abort();
    full = attacks("full") || attacks("stuck");
}

/* Answers that there is no space left. */
static ssize_t refuse(void) {
    errno = ENOSPC;
    return -1;
}

/* Writes, and removes the victim then. */
static ssize_t write_and_make_room(int file, const void *bytes, size_t count) {
    ssize_t taken = syscall(SYS_write, file, bytes, count);
    int why = errno;
    unlink(word("ATTACK_VICTIM"));
    errno = why;
    return taken;
}

ssize_t write(int file, const void *bytes, size_t count) {
    unsigned long at = strtoul(word("ATTACK_AT"), 0, 10);
    if (!is_of_a_file(file)) return syscall(SYS_write, file, bytes, count);
    if (full) return refuse();
    writes++;
    if (attacks("gap") && writes > at && writes <= at + 2) return refuse();
    if (writes != at) return syscall(SYS_write, file, bytes, count);
    attack();
    if (attacks("room")) return write_and_make_room(file, bytes, count);
    return syscall(SYS_write, file, bytes, full || attacks("gap") ? count / 2 : count);
}

/* Puts a byte after a file. */
static void grow(const char *path) {
    int file = (int)syscall(SYS_openat, AT_FDCWD, path, O_WRONLY | O_APPEND);
    syscall(SYS_write, file, "", 1);
    syscall(SYS_close, file);
}

int open(const char *path, int how, ...) {
    va_list more;
    va_start(more, how);
    mode_t mode = how & O_CREAT ? va_arg(more, mode_t) : 0;
    va_end(more);
    if (attacks("grows") && (how & O_ACCMODE) == O_WRONLY && !(how & O_CREAT)) grow(path);
    return (int)syscall(SYS_openat, AT_FDCWD, path, how, mode);
}

int ftruncate(int file, off_t size) {
    if (full && attacks("stuck")) {
        errno = EIO;
        return -1;
    }
    return (int)syscall(SYS_ftruncate, file, size);
}

int main(int count, char **words) {
    char path[PATH];
    struct stat told;
    if (count != 3) return 2;
    snprintf(path, sizeof path, "%s/metadata", words[1]);
    while (stat(path, &told) != 0) continue;
    printf("%d\n", plant(words[1], words[2]));
    return 0;
}
