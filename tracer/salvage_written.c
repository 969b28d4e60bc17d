/* salvage_written.c: what the run's own folder has of the batch that it was getting. Of a write that was under way the file tells how far it came. */
#include "salvage.h"

#include <errno.h>
#include <fcntl.h>
#include <sys/stat.h>
#include <unistd.h>

enum { PACKET_HEAD = 68, EVENT_HEAD = 12, CONTENT_AT = 40, LEAST_EVENTS = DSPEC_CTF_FILLED_, MORE_PACKETS = 8 };

static const dspec_folder_part *newest_of(const dspec_folder *folder) { return &folder->parts[(folder->oldest + folder->kept - 1) % DSPEC_FOLDER_MOST]; }

/* The events of a packet: each has its EPID, its stamp and its fields. */
static uint64_t events_of(const dspec_layout *layout, const uint8_t packet[DSPEC_FOLDER_PACKET]) {
    const uint64_t end = dspec_number_at(packet + CONTENT_AT, 8) / 8;
    uint64_t count = 0;
    for (uint64_t at = PACKET_HEAD; at + EVENT_HEAD <= end && end <= DSPEC_FOLDER_PACKET; count++) {
        const uint64_t epid = dspec_number_at(packet + at, 4);
        if (epid == 0 || epid > layout->enablings) break;
        at += EVENT_HEAD;
        for (uint8_t i = 0; i < layout->of[epid - 1].fields; i++) at += layout->of[epid - 1].widths[i];
    }
    return count;
}

/* ---- The folder. ---- */

/* A line of the metadata of the folder of a number, which no other trace has. */
static void line_of(const saved_file *file, uint64_t number, char line[64]) {
    dspec_folder folder = { .identity = file->tracer->folder.identity };
    snprintf(line, 64, "uuid = \"00000000-0000-0000-0000-000000000000\"");
    folder.text = line;
    dspec_folder_identity_(&folder, number);
}

/* Notes why something can't be opened, unless it isn't there. */
static void note_why(int *why) {
    if (errno != ENOENT && errno != ENOTDIR) *why = errno;
}

/* Whether a folder is the run's; another run may have its name since. */
static bool is_of_run(const saved_file *saved, int folder, uint64_t number, int *why) {
    const int file = openat(folder, "metadata", O_RDONLY | O_NOFOLLOW | O_NONBLOCK | O_CLOEXEC);
    char text[4096], line[64];
    const ssize_t count = file < 0 ? -1 : read(file, text, sizeof text);
    if (file < 0) note_why(why);
    else close(file);
    line_of(saved, number, line);
    return count > 0 && memmem(text, (size_t)count, line, strlen(line)) != NULL;
}

/* The folder of a name: its descriptor, or -1 where it isn't the run's. */
static int open_run(const saved_file *file, const char *name, int *why) {
    const uint64_t number = newest_of(&file->tracer->folder)->number;
    char path[8400];
    int folder;
    if (file->head->max_folders == 0) snprintf(path, sizeof path, "%s", name);
    else snprintf(path, sizeof path, "%s.%llu", name, (unsigned long long)number);
    folder = open(path, O_RDONLY | O_DIRECTORY | O_CLOEXEC);
    if (folder < 0) note_why(why);
    if (folder < 0 || is_of_run(file, folder, number, why)) return folder;
    close(folder);
    return -1;
}

/* The run's folder, where it was or beside the memory's file, where both were moved. */
static int find_run(const saved_file *saved, const char *file, int *why) {
    const char *slash = strrchr(file, '/'), *name = strrchr(saved->head->folder, '/') + 1;
    char beside[8300];
    const int folder = open_run(saved, saved->head->folder, why);
    if (folder >= 0) return folder;
    snprintf(beside, sizeof beside, "%.*s%.4095s", slash == NULL ? 0 : (int)(slash + 1 - file), file, name);
    return open_run(saved, beside, why);
}

/* ---- What it has. ---- */

/* Adds the events of the packets that were being written, of which there are so many at the most; false where their file can't be opened. */
static bool add_written(const saved_file *saved, int folder, uint32_t cpu, uint64_t packets, uint64_t *records, int *why) {
    const dspec_packet *under_way = &saved->tracer->folder.writing;
    uint8_t packet[DSPEC_FOLDER_PACKET];
    uint64_t at = saved->tracer->folder.writing_at;
    struct stat is;
    char name[32];
    int file;
    dspec_folder_name_(name, cpu, under_way->file);
    file = openat(folder, name, O_RDONLY | O_NOFOLLOW | O_NONBLOCK | O_CLOEXEC);
    if (file < 0) {
        note_why(why);
        return errno == ENOENT;
    }
    if (packets > under_way->size / sizeof packet) packets = under_way->size / sizeof packet;
    if (fstat(file, &is) == 0 && S_ISREG(is.st_mode))
        for (; packets > 0 && pread(file, packet, sizeof packet, (off_t)at) == (ssize_t)sizeof packet; packets--, at += sizeof packet) *records += events_of(&saved->layout, packet);
    close(file);
    return true;
}

uint64_t written_records(const saved_file *saved, const char *file, const found_batch *batch, uint64_t *unsure, int *why) {
    const dspec_folder *folder = &saved->tracer->folder;
    const uint32_t cpu = batch->batch.cpu;
    uint64_t records;
    bool is_seen;
    int run;
    *unsure = 0;
    if (folder->kept > DSPEC_FOLDER_MOST || folder->oldest >= DSPEC_FOLDER_MOST) return UINT64_MAX;
    records = survive_brought(folder) - batch->before;
    if (folder->writing.size == 0 || folder->writing_cpu != cpu || folder->writing.file >= DSPEC_CTF_MAX_FILES || folder->kept == 0) return records;
    records -= newest_of(folder)->records - folder->writing_records;
    run = find_run(saved, file, why);
    is_seen = run >= 0 && add_written(saved, run, cpu, batch->batch.len / LEAST_EVENTS + MORE_PACKETS, &records, why);
    if (run >= 0) close(run);
    if (!is_seen && records < batch->records) {
        *unsure = batch->records - records < folder->writing.records ? batch->records - records : folder->writing.records;
    }
    return records;
}
