/* folder_files.c: the folders and files of a trace: how they are made, written, and let go. */
#include "folder.h"

#include <dirent.h>
#include <errno.h>
#include <fcntl.h>
#include <stdio.h>
#include <stdlib.h>
#include <string.h>
#include <sys/stat.h>
#include <unistd.h>

/* What comes before it is stored before, for a reader of this memory after a kill. */
#define ORDER_STORES() __atomic_signal_fence(__ATOMIC_SEQ_CST)

bool dspec_folder_loses_(dspec_folder *folder, dspec_status status, int code, uint32_t cpu, size_t file, uint64_t records) {
    folder->last.status = status;
    folder->last.code = code;
    folder->last.cpu = cpu;
    folder->last.file = file;
    folder->last.records = records;
    folder->last.why = NULL;
    if (!folder->lost) {
        folder->first = folder->last;
    } else {
        folder->first.records += records;
    }
    folder->lost = true;
    return false;
}

int dspec_folder_above_(int file) {
    int moved, code;
    if (file < 0 || file > STDERR_FILENO) return file;
    moved = fcntl(file, F_DUPFD_CLOEXEC, STDERR_FILENO + 1);
    code = errno;
    close(file);
    errno = code;
    return moved;
}

/* Notes which file a new descriptor is of, and answers the descriptor, or -1 with errno. */
static int mark_file(int file, dspec_folder_mark *mark) {
    struct stat is;
    if (file < 0) return -1;
    if (fstat(file, &is) != 0) {
        const int code = errno;
        close(file);
        errno = code;
        return -1;
    }
    mark->device = is.st_dev;
    mark->inode = is.st_ino;
    return file;
}

/* The descriptor, where it is of the file that was noted; else -1, and errno is EBADF. */
static int our_file(int file, const dspec_folder_mark *mark) {
    struct stat is;
    if (file >= 0 && (fstat(file, &is) == 0 ? is.st_dev == mark->device && is.st_ino == mark->inode : errno != EBADF)) return file;
    errno = EBADF;
    return -1;
}

/* By which the files of a folder are reached. */
int dspec_folder_at_(const dspec_folder_part *part) { return our_file(part->at, &part->mark); }

void dspec_folder_unlatches_(int *at, const dspec_folder_mark *mark) {
    if (our_file(*at, mark) >= 0) close(*at);
    *at = -1;
}

int dspec_folder_write_(int file, const uint8_t *bytes, size_t len) {
    while (len > 0) {
        ssize_t count = write(file, bytes, len);
        if (count < 0 && errno == EINTR) continue;
        if (count < 0) return errno;
        if (count == 0) return EIO;
        bytes += count;
        len -= (size_t)count;
    }
    return 0;
}

int dspec_folder_keeps_(int file, uint64_t size, size_t len) {
    const int keep_size = 1;
    while (fallocate(file, keep_size, (off_t)size, (off_t)len + DSPEC_FOLDER_KEPT) != 0) {
        if (errno == EINTR) continue;
        return errno == ENOSPC || errno == EDQUOT ? errno : 0;
    }
    return 0;
}

/* Closes a new file that can't be used, takes it away, and answers -1 with the errno. */
static int reject(int at, const char *name, int file) {
    const int code = errno;
    if (file >= 0) close(file);
    unlinkat(at, name, 0);
    errno = code;
    return -1;
}

/* Opens a new file of the newest folder for bytes at its end: its descriptor, or -1 with errno. What the program wrote to it while it was one of the first three is cut off. */
static int open_new(dspec_folder *folder, const char *name, dspec_folder_mark *mark) {
    const int at = dspec_folder_at_(dspec_folder_newest_(folder));
    const int opened = openat(at, name, O_WRONLY | O_CREAT | O_EXCL | O_APPEND | O_CLOEXEC, 0666);
    int file;
    if (opened < 0) return -1;
    file = mark_file(dspec_folder_above_(opened), mark);
    return file < 0 || (file != opened && ftruncate(file, 0) != 0) ? reject(at, name, file) : file;
}

void dspec_folder_name_(char name[32], uint32_t cpu, size_t file) {
    snprintf(name, 32, "cpu_%u_%u", (unsigned)cpu, (unsigned)file);
}

int dspec_folder_file_(dspec_folder *folder, uint32_t cpu, size_t file) {
    const dspec_folder_mark mark = { dspec_folder_newest_(folder)->device, folder->inodes[cpu][file] };
    return our_file(folder->files[cpu][file] - 1, &mark);
}

/* It is kept after the CPU's first file, and given back but for the last packet's, since what comes may go to another file. */
bool dspec_folder_has_room_(dspec_folder *folder, uint32_t cpu, size_t len) {
    const int file = dspec_folder_file_(folder, cpu, 0);
    const uint64_t size = folder->sizes[cpu][0];
    if (file < 0) return true;
    if (dspec_folder_keeps_(file, size, len) != 0) return false;
    return ftruncate(file, (off_t)size) != 0 || dspec_folder_keeps_(file, size, 0) == 0;
}

/* Opens a CPU's file, where it isn't open: 0 or the errno. */
static int open_file(dspec_folder *folder, uint32_t cpu, size_t file) {
    dspec_folder_mark mark;
    uint8_t *files = &dspec_folder_newest_(folder)->files[cpu];
    char name[32];
    int opened;
    if (folder->files[cpu][file] != 0) return folder->files[cpu][file] < 0 ? EIO : 0;
    dspec_folder_name_(name, cpu, file);
    opened = open_new(folder, name, &mark);
    if (opened < 0) return errno;
    folder->inodes[cpu][file] = mark.inode;
    dspec_folder_newest_(folder)->device = mark.device;
    folder->files[cpu][file] = opened + 1;
    if (*files <= file) *files = (uint8_t)(file + 1);
    return 0;
}

/* Writes `metadata`: 0 or the errno. */
static int write_metadata(dspec_folder *folder) {
    dspec_folder_mark mark;
    int file = open_new(folder, "metadata", &mark);
    int code = file < 0 ? errno : dspec_folder_write_(file, (const uint8_t *)folder->text, folder->text_size);
    if (file < 0) return code;
    dspec_folder_newest_(folder)->bytes = folder->text_size;
    if (close(file) != 0 && code == 0) code = errno;
    return code;
}

bool dspec_folder_grows_(uint8_t **room, size_t *had, size_t size) {
    uint8_t *more = size > *had ? realloc(*room, size) : *room;
    if (more == NULL) return false;
    *room = more;
    if (size > *had) *had = size;
    return true;
}

int dspec_folder_appends_(dspec_folder *folder, uint32_t cpu, const dspec_packet *packet) {
    int *file = &folder->files[cpu][packet->file];
    uint64_t *size = &folder->sizes[cpu][packet->file];
    int code = open_file(folder, cpu, packet->file);
    if (code == 0 && dspec_folder_file_(folder, cpu, packet->file) < 0) {
        *file = -1;
        code = EBADF;
    }
    if (code == 0 && packet->file == 0 && !folder->ending) code = dspec_folder_keeps_(*file - 1, *size, packet->size);
    if (code != 0) return code;
    folder->writing_cpu = cpu;
    folder->writing_at = *size;
    folder->writing_records = dspec_folder_newest_(folder)->records;
    ORDER_STORES();
    folder->writing = *packet;
    code = dspec_folder_write_(*file - 1, folder->room, packet->size);
    if (code == 0) {
        *size += packet->size;
        dspec_folder_newest_(folder)->bytes += packet->size;
        dspec_folder_newest_(folder)->records += packet->records;
    } else if (ftruncate(*file - 1, (off_t)*size) != 0) {
        close(*file - 1);
        *file = -1;
    } else if (packet->file == 0) {
        dspec_folder_keeps_(*file - 1, *size, 0); /* what was kept was cut off too */
    }
    ORDER_STORES();
    folder->writing.size = 0;
    return code;
}

/* Closes a CPU's file, and gives back the room that was kept after it; a file without a packet is removed. 0 or the errno. */
static int close_file(dspec_folder *folder, uint32_t cpu, size_t file) {
    const bool is_open = folder->files[cpu][file] > 0;
    const int opened = is_open ? dspec_folder_file_(folder, cpu, file) : -1;
    uint64_t size = folder->sizes[cpu][file];
    char name[32];
    int code = 0;
    folder->files[cpu][file] = 0;
    folder->sizes[cpu][file] = 0;
    if (opened < 0) return is_open ? EBADF : 0;
    if (ftruncate(opened, (off_t)size) != 0) code = errno;
    if (close(opened) != 0) code = errno;
    if (size > 0) return code;
    dspec_folder_name_(name, cpu, file);
    unlinkat(dspec_folder_at_(dspec_folder_newest_(folder)), name, 0);
    return 0;
}

/* Opens the first file of each CPU, and keeps room for its last packet: 0 or the errno. */
static int open_first_files(dspec_folder *folder) {
    int code = 0;
    for (uint32_t cpu = 0; code == 0 && cpu < folder->cpus; cpu++) {
        code = open_file(folder, cpu, 0);
        if (code == 0) code = dspec_folder_keeps_(folder->files[cpu][0] - 1, 0, 0);
    }
    return code;
}

void dspec_folder_shuts_(dspec_folder *folder) {
    for (uint32_t cpu = 0; cpu < folder->cpus; cpu++) {
        for (size_t file = 0; file < DSPEC_CTF_MAX_FILES; file++) {
            int code = close_file(folder, cpu, file);
            if (code != 0) dspec_folder_loses_(folder, DSPEC_OK, code, cpu, file, 0);
        }
        dspec_ctf_drop(&folder->ctf[cpu]);
    }
    folder->is_open = false;
}

/* The name of a folder of a bound, in the folder that has them all: the number is after the name of the trace. */
static void name_folder(const dspec_folder *folder, uint64_t number, char name[300]) {
    snprintf(name, 300, "%.270s.%llu", folder->path + folder->name_at, (unsigned long long)number);
}

dspec_identity dspec_folder_identity_(dspec_folder *folder, uint64_t number) {
    static const char begins[] = "uuid = \"", digits[] = "0123456789abcdef";
    dspec_identity identity = folder->identity;
    char *at = strstr(folder->text, begins);
    for (size_t i = 0; i < 6; i++) identity.uuid[15 - i] = (uint8_t)(identity.uuid[15 - i] ^ (number >> 8 * i & 255));
    if (at == NULL) return identity;
    at += sizeof begins - 1;
    for (size_t i = 0; i < 16; i++) {
        at += *at == '-';
        *at++ = digits[identity.uuid[i] >> 4];
        *at++ = digits[identity.uuid[i] & 15];
    }
    return identity;
}

/* Makes a folder, its own one or with a bound the next whose name is free, and opens it: 0 or the errno. With a bound nothing that is there already is followed or written to. */
static int make_folder(dspec_folder *folder, dspec_folder_part *part) {
    const int how = O_RDONLY | O_DIRECTORY | O_CLOEXEC;
    char name[300];
    int code = EEXIST, parent;
    memset(part, 0, sizeof *part);
    if (folder->most_folders == 0) {
        if (mkdir(folder->path, 0777) != 0 && errno != EEXIST) return errno;
        part->at = mark_file(dspec_folder_above_(open(folder->path, how)), &part->mark);
        return part->at < 0 ? errno : 0;
    }
    parent = our_file(folder->parent, &folder->parent_mark);
    for (int tries = 0; tries < 1000 && code == EEXIST; tries++) {
        part->number = folder->number;
        name_folder(folder, part->number, name);
        code = mkdirat(parent, name, 0777) == 0 ? 0 : errno;
        folder->number += code == 0 || code == EEXIST;
    }
    if (code != 0) return code;
    part->at = mark_file(dspec_folder_above_(openat(parent, name, how | O_NOFOLLOW)), &part->mark);
    code = part->at < 0 ? errno : 0;
    if (code != 0) unlinkat(parent, name, AT_REMOVEDIR);
    return code;
}

/* Takes away the files of a folder, and with a bound the folder, where nobody has put anything else into it: 0 or the errno, and then it stays. */
static int empty_folder(dspec_folder *folder, dspec_folder_part *part) {
    char name[32], numbered[300];
    for (uint32_t cpu = 0; cpu < folder->cpus; cpu++) {
        for (size_t file = 0; file < part->files[cpu]; file++) {
            dspec_folder_name_(name, cpu, file);
            if (unlinkat(dspec_folder_at_(part), name, 0) != 0 && errno != ENOENT) return errno;
        }
    }
    if (part->bytes > 0 && unlinkat(dspec_folder_at_(part), "metadata", 0) != 0 && errno != ENOENT) return errno;
    dspec_folder_unlatches_(&part->at, &part->mark);
    name_folder(folder, part->number, numbered);
    if (folder->most_folders > 0) unlinkat(our_file(folder->parent, &folder->parent_mark), numbered, AT_REMOVEDIR);
    return 0;
}

int dspec_folder_forgets_(dspec_folder *folder) {
    dspec_folder_part *part = &folder->parts[folder->oldest];
    int code = empty_folder(folder, part);
    if (code != 0) return code;
    folder->gone++;
    folder->gone_records += part->records;
    folder->oldest = (folder->oldest + 1) % DSPEC_FOLDER_MOST;
    folder->kept--;
    return 0;
}

bool dspec_folder_gives_room_(dspec_folder *folder, int code) {
    return (code == ENOSPC || code == EDQUOT) && folder->most_folders > 0 && folder->kept > 1 && dspec_folder_forgets_(folder) == 0;
}

void dspec_folder_undoes_(dspec_folder *folder) {
    dspec_folder_shuts_(folder);
    empty_folder(folder, dspec_folder_newest_(folder));
    folder->kept--;
}

bool dspec_folder_enters_(dspec_folder *folder, dspec_status *status, int *code) {
    dspec_folder_part *part = &folder->parts[(folder->oldest + folder->kept) % DSPEC_FOLDER_MOST];
    dspec_identity identity;
    *status = DSPEC_OK;
    *code = make_folder(folder, part);
    if (*code != 0) return false;
    folder->kept++;
    identity = dspec_folder_identity_(folder, part->number);
    for (uint32_t cpu = 0; *status == DSPEC_OK && cpu < folder->cpus; cpu++) {
        *status = dspec_ctf_new(folder->schema, &identity, cpu, &folder->ctf[cpu]);
        if (*status == DSPEC_OK) dspec_ctf_miss(&folder->ctf[cpu], folder->untold[cpu]);
    }
    if (*status == DSPEC_OK) *code = write_metadata(folder);
    if (*status == DSPEC_OK && *code == 0) *code = open_first_files(folder);
    folder->is_open = *status == DSPEC_OK && *code == 0;
    if (folder->is_open) memset(folder->untold, 0, sizeof folder->untold);
    else dspec_folder_undoes_(folder);
    return folder->is_open;
}

uint64_t dspec_folder_left_(dspec_folder *folder) {
    const uint64_t last = (uint64_t)folder->cpus * DSPEC_FOLDER_LAST * DSPEC_FOLDER_PACKET;
    uint64_t due, most;
    if (folder->most_folders == 0) return UINT32_MAX;
    due = (folder->is_open ? dspec_folder_newest_(folder)->bytes : folder->text_size) + last;
    most = folder->most_bytes / folder->most_folders;
    return most > due ? (most - due) / DSPEC_FOLDER_PACKET : 0;
}

int dspec_folder_finds_(dspec_folder *folder) {
    const char *slash = strrchr(folder->path, '/'), *digits = "0123456789";
    char where[4096] = ".";
    size_t len;
    DIR *all;
    if (slash != NULL) folder->name_at = (size_t)(slash + 1 - folder->path);
    if (slash != NULL) memcpy(where, folder->path, folder->name_at);
    len = strlen(folder->path + folder->name_at);
    folder->parent = mark_file(dspec_folder_above_(open(where, O_RDONLY | O_DIRECTORY | O_CLOEXEC)), &folder->parent_mark);
    if (folder->parent < 0) return errno;
    if ((all = opendir(where)) == NULL) return errno;
    for (struct dirent *entry; (entry = readdir(all)) != NULL;) {
        const char *number;
        if (strncmp(entry->d_name, folder->path + folder->name_at, len) != 0 || entry->d_name[len] != '.') continue;
        number = entry->d_name + len + 1;
        if (strlen(number) < 1 || strlen(number) > 18 || strspn(number, digits) != strlen(number)) continue;
        if (strtoull(number, NULL, 10) >= folder->number) folder->number = strtoull(number, NULL, 10) + 1;
    }
    closedir(all);
    return 0;
}
