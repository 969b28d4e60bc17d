/* survive_file.c: the file of a tracer's memory: its name beside the trace's folder, its lock, whether a process has it, and what becomes of those that earlier runs left. */
#include "survive.h"

#include <dirent.h>
#include <errno.h>
#include <fcntl.h>
#include <limits.h>
#include <sys/stat.h>
#include <sys/syscall.h>
#include <unistd.h>

/* Not `FOLDER.memory`: with a bound the trace's folders are FOLDER.0 and so on, and whoever reads FOLDER.* means these. */
#define ENDING "-memory"
enum { FIRST_OWN = 3, RENAME_ONTO_NOTHING = 1 };

/* ---- Descriptors. ---- */

/* The descriptor, or a copy above those of the standard streams, which may have been closed. */
static int above_streams(int file) {
    int copy, code;
    if (file < 0 || file >= FIRST_OWN) return file;
    copy = fcntl(file, F_DUPFD_CLOEXEC, FIRST_OWN);
    code = errno;
    close(file);
    errno = code;
    return copy;
}

bool memory_file_is_ours(int file, uint64_t device, uint64_t inode) {
    struct stat is;
    return file >= 0 && fstat(file, &is) == 0 && is.st_dev == device && is.st_ino == inode;
}

/* A number that is another file's since isn't closed. */
static void close_ours(int *file, uint64_t device, uint64_t inode) {
    struct stat is;
    if (*file >= 0 && (fstat(*file, &is) != 0 || (is.st_dev == device && is.st_ino == inode))) close(*file);
    *file = -1;
}

void memory_file_close(memory_file *file) {
    close_ours(&file->at, file->device, file->inode);
    close_ours(&file->parent, file->parent_device, file->parent_inode);
}

/* ---- Who has the file. ---- */

bool memory_file_lock(int file) {
    struct flock whole = { .l_type = F_WRLCK, .l_whence = SEEK_SET };
    return fcntl(file, F_SETLK, &whole) == 0;
}

/* The first line of a file of the system's, without its end. */
static bool read_line(const char *path, char *line, size_t size) {
    const int file = open(path, O_RDONLY | O_CLOEXEC);
    ssize_t count = file < 0 ? -1 : read(file, line, size - 1);
    if (file >= 0) close(file);
    line[count > 0 ? count : 0] = 0;
    line[strcspn(line, "\n")] = 0;
    return count > 0;
}

/* When a process began; 0: there is none, or it has ended. The name comes before, in brackets, and may have any bytes. */
static uint64_t began(uint32_t pid) {
    enum { STATE = 3, BEGAN = 22 };
    char path[64], line[1024];
    const char *at;
    snprintf(path, sizeof path, "/proc/%u/stat", pid);
    if (!read_line(path, line, sizeof line) || (at = strrchr(line, ')')) == NULL || at[1] != ' ') return 0;
    at += 2;
    if (*at == 'Z' || *at == 'X') return 0;
    for (int field = STATE; field < BEGAN && at != NULL; field++) at = strchr(at + 1, ' ');
    return at == NULL ? 0 : strtoull(at, NULL, 10);
}

saved_process memory_file_process(uint32_t pid) {
    saved_process is = { .began = began(pid) };
    if (!read_line("/proc/sys/kernel/random/boot_id", is.boot, sizeof is.boot)) is.began = 0;
    return is;
}

bool memory_file_is_alive(const saved_head *head, uint64_t device, uint64_t inode) {
    const saved_process now = memory_file_process(head->pid);
    return head->device == device && head->inode == inode && now.began != 0 && now.began == head->process.began && strncmp(now.boot, head->process.boot, sizeof now.boot) == 0;
}

/* A program that closes all its descriptors loses the lock, and goes on. */
static bool is_used(int file, const struct stat *is) {
    saved_head *head;
    bool is_alive = false;
    if (!memory_file_lock(file)) return true;
    head = malloc(sizeof *head);
    if (head != NULL && pread(file, head, sizeof *head, 0) == (ssize_t)sizeof *head && head->magic == SURVIVE_MAGIC && head->version == SURVIVE_VERSION)
        is_alive = memory_file_is_alive(head, is->st_dev, is->st_ino);
    free(head);
    return is_alive;
}

/* Whether a tracer of this process has the file, whose lock the process would lose by opening and closing it once more; the caller has the tracers' lock. */
static bool is_of_this_process(const struct stat *is) {
    for (uint32_t slot = 0; slot < DSPEC_MAX_TRACERS; slot++) {
        const body *tracer = tracer_at(slot);
        if (tracer != NULL && tracer->saved != NULL && tracer->file.at >= 0 && tracer->file.device == is->st_dev && tracer->file.inode == is->st_ino) return true;
    }
    return false;
}

bool memory_file_is_this_process(const char *path) {
    struct stat is;
    bool found;
    tracers_lock();
    found = lstat(path, &is) == 0 && is_of_this_process(&is);
    tracers_unlock();
    return found;
}

/* ---- Its name. ---- */

/* Opens the folder, and notes which one it is: 0 or the errno. */
static int open_parent(memory_file *file, const char *path) {
    const int folder = above_streams(open(path, O_RDONLY | O_DIRECTORY | O_CLOEXEC));
    struct stat is;
    if (folder < 0) return errno;
    if (fstat(folder, &is) != 0) {
        const int code = errno;
        close(folder);
        return code;
    }
    file->parent = folder;
    file->parent_device = is.st_dev;
    file->parent_inode = is.st_ino;
    return 0;
}

int memory_file_place(memory_file *file, const char *folder, char whole[4096]) {
    const size_t length = strlen(folder);
    char given[4096], parent[PATH_MAX];
    size_t end = length, name;
    *file = (memory_file){ .at = -1, .parent = -1 };
    if (length == 0) return ENOENT;
    if (length >= sizeof given) return ENAMETOOLONG;
    while (end > 1 && folder[end - 1] == '/') end--;
    for (name = end; name > 0 && folder[name - 1] != '/';) name--;
    if (end - name > 240) return ENAMETOOLONG;
    snprintf(given, sizeof given, "%.*s", (int)name, folder);
    if (realpath(name == 0 ? "." : given, parent) == NULL) return errno;
    if (snprintf(whole, 4096, "%s/%.*s", strcmp(parent, "/") == 0 ? "" : parent, (int)(end - name), folder + name) >= 4096) return ENAMETOOLONG;
    snprintf(file->name, sizeof file->name, "%.*s" ENDING, (int)(end - name), folder + name);
    return open_parent(file, parent);
}

/* ---- What earlier runs left. ---- */

static void name_aside(const memory_file *file, uint32_t number, char name[304]) { snprintf(name, 304, "%s-%u", file->name, number); }

/* The number of a name that was put aside; 0: it is none. */
static uint32_t number_of(const memory_file *file, const char *name) {
    const size_t length = strlen(file->name);
    const char *digits = name + length + 1;
    if (strncmp(name, file->name, length) != 0 || name[length] != '-' || digits[0] < '1' || digits[0] > '9') return 0;
    return strlen(digits) <= 9 && strspn(digits, "0123456789") == strlen(digits) ? (uint32_t)strtoul(digits, NULL, 10) : 0;
}

/* Of the files that were put aside. */
typedef struct earlier {
    uint32_t count, newest, oldest, oldest_salvaged; /* numbers; 0: none */
} earlier;

/* Whether it is a file of this user's; and whether it was salvaged. */
static bool is_earlier(const memory_file *memory, const char *name, bool *is_salvaged) {
    const int file = openat(memory->parent, name, O_RDONLY | O_NOFOLLOW | O_NONBLOCK | O_CLOEXEC);
    uint64_t salvaged = 0;
    struct stat is;
    const bool is_file = file >= 0 && fstat(file, &is) == 0 && S_ISREG(is.st_mode) && is.st_uid == geteuid();
    *is_salvaged = is_file && pread(file, &salvaged, sizeof salvaged, offsetof(saved_head, salvaged)) == (ssize_t)sizeof salvaged && salvaged != 0;
    if (file >= 0) close(file);
    return is_file;
}

static void note_earlier(earlier *all, uint32_t number, bool is_salvaged) {
    all->count++;
    if (number > all->newest) all->newest = number;
    if (all->oldest == 0 || number < all->oldest) all->oldest = number;
    if (is_salvaged && (all->oldest_salvaged == 0 || number < all->oldest_salvaged)) all->oldest_salvaged = number;
}

static earlier find_earlier(const memory_file *file) {
    earlier all = { 0 };
    const int again = openat(file->parent, ".", O_RDONLY | O_DIRECTORY | O_CLOEXEC);
    DIR *names = again < 0 ? NULL : fdopendir(again);
    if (names == NULL && again >= 0) close(again);
    for (struct dirent *entry; names != NULL && (entry = readdir(names)) != NULL;) {
        const uint32_t number = number_of(file, entry->d_name);
        bool is_salvaged;
        if (number != 0 && is_earlier(file, entry->d_name, &is_salvaged)) note_earlier(&all, number, is_salvaged);
    }
    if (names != NULL) closedir(names);
    return all;
}

static bool refuse(const memory_file *file, char *why, size_t size, const char *reason) {
    if (snprintf(why, size, "%s: %s", file->name, reason) < 0) why[0] = 0;
    return false;
}

/* Some file systems can't rename onto nothing, but make a second name. */
static int move_to_free(const memory_file *file, const char *from, const char *to) {
    if (syscall(SYS_renameat2, file->parent, from, file->parent, to, RENAME_ONTO_NOTHING) == 0) return 0;
    if (errno != EINVAL && errno != ENOSYS) return errno;
    return linkat(file->parent, from, file->parent, to, 0) == 0 && unlinkat(file->parent, from, 0) == 0 ? 0 : errno;
}

/* Gives a file that nobody has the next number. */
static bool puts_aside(memory_file *file, char *why, size_t size) {
    char name[304];
    const uint32_t number = find_earlier(file).newest + 1;
    int code;
    name_aside(file, number, name);
    code = move_to_free(file, file->name, name);
    if (code != 0) return refuse(file, why, size, strerror(code));
    file->aside = number;
    if (snprintf(why, size, "%s: a run that didn't stop left it; dspec-salvage reads it", name) < 0) why[0] = 0;
    return true;
}

bool memory_file_frees_name(memory_file *memory, char *why, size_t size) {
    struct stat is;
    bool is_free;
    int file;
    if (fstatat(memory->parent, memory->name, &is, AT_SYMLINK_NOFOLLOW) == 0 && is_of_this_process(&is)) return refuse(memory, why, size, "another tracer of this process uses it");
    file = above_streams(openat(memory->parent, memory->name, O_RDWR | O_NOFOLLOW | O_NONBLOCK | O_CLOEXEC));
    if (file < 0 && errno == ENOENT) return true;
    if (file < 0) return refuse(memory, why, size, errno == ELOOP ? "a link has this name" : strerror(errno));
    if (fstat(file, &is) != 0 || !S_ISREG(is.st_mode) || is.st_uid != geteuid()) is_free = refuse(memory, why, size, "what has this name is no file of this user's");
    else if (is_used(file, &is)) is_free = refuse(memory, why, size, "another process uses it");
    else is_free = puts_aside(memory, why, size);
    close(file);
    return is_free;
}

void memory_file_puts_back(memory_file *file) {
    char name[304];
    if (file->aside == 0) return;
    name_aside(file, file->aside, name);
    move_to_free(file, name, file->name);
    file->aside = 0;
}

uint32_t memory_file_prunes(const memory_file *file) {
    uint32_t unread = 0;
    for (earlier all = find_earlier(file); all.count > SURVIVE_MOST_ASIDE; all = find_earlier(file)) {
        char name[304];
        name_aside(file, all.oldest_salvaged != 0 ? all.oldest_salvaged : all.oldest, name);
        if (unlinkat(file->parent, name, 0) != 0) break;
        unread += all.oldest_salvaged == 0;
    }
    return unread;
}

/* ---- Made and taken away. ---- */

held_limit limit_hold(void) {
    held_limit held;
    sigset_t set, pending;
    sigemptyset(&set);
    sigaddset(&set, SIGXFSZ);
    sigpending(&pending);
    held.is_pending = sigismember(&pending, SIGXFSZ) == 1;
    pthread_sigmask(SIG_BLOCK, &set, &held.before);
    return held;
}

void limit_release(const held_limit *held) {
    const struct timespec at_once = { 0, 0 };
    sigset_t set;
    sigemptyset(&set);
    sigaddset(&set, SIGXFSZ);
    if (!held->is_pending)
        while (sigtimedwait(&set, NULL, &at_once) < 0 && errno == EINTR) {}
    pthread_sigmask(SIG_SETMASK, &held->before, NULL);
}

static int reserve(int file, uint64_t size) {
    const held_limit held = limit_hold();
    int code;
    do code = posix_fallocate(file, 0, (off_t)size);
    while (code == EINTR);
    limit_release(&held);
    return code;
}

int memory_file_make(memory_file *memory, uint64_t size) {
    int file = openat(memory->parent, memory->name, O_RDWR | O_CREAT | O_EXCL | O_NOFOLLOW | O_CLOEXEC, 0600), code;
    struct stat is;
    if (file < 0) return errno;
    file = above_streams(file);
    if (file < 0 || fstat(file, &is) != 0) {
        code = errno;
        unlinkat(memory->parent, memory->name, 0);
        if (file >= 0) close(file);
        return code;
    }
    memory->at = file;
    memory->device = is.st_dev;
    memory->inode = is.st_ino;
    memory->is_made = true;
    code = memory_file_lock(file) ? 0 : errno;
    return code != 0 ? code : reserve(file, size);
}

/* Takes a name away where it is the file's; a name that somebody has taken away or given to another file isn't. */
static int unlink_if_ours(const memory_file *file, int parent, const char *name) {
    struct stat is;
    if (fstatat(parent, name, &is, AT_SYMLINK_NOFOLLOW) != 0) return errno;
    if (is.st_dev != file->device || is.st_ino != file->inode) return ENOENT;
    return unlinkat(parent, name, 0) == 0 ? 0 : errno;
}

/* In a frame of its own: a handler of a crash, which has no need of it, may have a small stack. */
__attribute__((noinline)) static int unlink_by_path(const memory_file *file, const char *folder) {
    char path[4400];
    snprintf(path, sizeof path, "%.4095s" ENDING, folder);
    return unlink_if_ours(file, AT_FDCWD, path);
}

int memory_file_unlink(const memory_file *file, const char *folder) {
    int code;
    if (!memory_file_is_ours(file->parent, file->parent_device, file->parent_inode)) return unlink_by_path(file, folder);
    code = unlink_if_ours(file, file->parent, file->name);
    return code == ENOENT ? 0 : code;
}
