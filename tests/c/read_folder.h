/* A trace's folder, by a reader of the tests' own: the metadata says how many bytes each event has, a file is whole packets, and a packet is whole events (docs/SPECIFICATION.md, Traces). */
#ifndef C_READ_FOLDER_H
#define C_READ_FOLDER_H

#include "dspec.h"

#include <dirent.h>
#include <fcntl.h>
#include <stdio.h>
#include <stdlib.h>
#include <string.h>
#include <unistd.h>

enum { FOLDER_PACKET = 1024, FOLDER_FRONT = 68, FOLDER_EVENT = 12, FOLDER_UUID = 16 };

/* What a folder has. The sum is that of all its bytes but the trace's number, which no other trace has. */
typedef struct read_folder {
    uint32_t known;                       /* events that the metadata tells, */
    size_t bytes[DSPEC_MAX_ENABLINGS + 1]; /* the bytes of each, without its front, */
    uint64_t found[DSPEC_MAX_ENABLINGS + 1]; /* and how many there are */
    uint8_t uuid[FOLDER_UUID];
    uint64_t events, sum;
    const char *why; /* it isn't well; NULL: it is */
} read_folder;

static inline bool folder_needs(read_folder *of, bool is_so, const char *why) {
    if (!is_so && of->why == NULL) of->why = why;
    return is_so;
}

static inline uint64_t folder_number(const uint8_t *at, size_t width) {
    uint64_t number = 0;
    for (size_t i = width; i > 0; i--) number = number << 8 | at[i - 1];
    return number;
}

static inline uint64_t folder_sum(uint64_t sum, const void *bytes, size_t size) {
    for (size_t i = 0; i < size; i++) sum = (sum ^ ((const uint8_t *)bytes)[i]) * UINT64_C(0x100000001b3);
    return sum;
}

/* The whole of a file, which the caller frees; NULL: there is none. */
static inline uint8_t *folder_file(int folder, const char *name, size_t *size) {
    const int file = openat(folder, name, O_RDONLY | O_CLOEXEC);
    const off_t end = file < 0 ? -1 : lseek(file, 0, SEEK_END);
    uint8_t *bytes = end < 0 ? NULL : calloc(1, (size_t)end + 1);
    if (bytes != NULL && pread(file, bytes, (size_t)end, 0) != end) {
        free(bytes);
        bytes = NULL;
    }
    if (file >= 0) close(file);
    *size = bytes == NULL ? 0 : (size_t)end;
    return bytes;
}

/* ---- The metadata. ---- */

/* The bytes of a field, by its line: an integer, a float, an enumeration, whose labels may be any text, or an array of one of the first. */
static inline size_t folder_field(const char *line) {
    const char *size = strstr(line, "size = "), *exponent = strstr(line, "exp_dig = "), *mantissa = strstr(line, "mant_dig = "), *array = strrchr(line, '[');
    const size_t length = strlen(line), count = array != NULL && length > 2 && strcmp(line + length - 2, "];") == 0 ? strtoul(array + 1, NULL, 10) : 1;
    if (strncmp(line, "enum : uint", 11) == 0) return strtoul(line + 11, NULL, 10) / 8;
    if (strncmp(line, "uint", 4) == 0) return strtoul(line + 4, NULL, 10) / 8 * count;
    if (strncmp(line, "integer {", 9) == 0 && size != NULL) return strtoul(size + 7, NULL, 10) / 8 * count;
    return exponent != NULL && mantissa != NULL ? (strtoul(exponent + 10, NULL, 10) + strtoul(mantissa + 11, NULL, 10)) / 8 : 0;
}

static inline void folder_uuid(read_folder *of, char *digits) {
    for (size_t i = 0, at = 0; i < FOLDER_UUID; i++, at += 2) {
        unsigned byte = 0;
        at += digits[at] == '-';
        if (!folder_needs(of, sscanf(digits + at, "%2x", &byte) == 1, "its number is none")) return;
        of->uuid[i] = (uint8_t)byte;
    }
    memset(digits, '0', 36);
}

/* Events are numbered from 1 on, in their order. */
static inline void folder_metadata(read_folder *of, int folder) {
    size_t size;
    char *text = (char *)folder_file(folder, "metadata", &size), *uuid = text != NULL ? strstr(text, "uuid = \"") : NULL;
    bool in_fields = false;
    if (!folder_needs(of, uuid != NULL, "it has no metadata")) {
        free(text);
        return;
    }
    folder_uuid(of, uuid + 8);
    of->sum = folder_sum(of->sum, text, size);
    for (char *line = strtok(text, "\n"); line != NULL; line = strtok(NULL, "\n")) {
        if (strcmp(line, "event {") == 0 && folder_needs(of, of->known < DSPEC_MAX_ENABLINGS, "it has too many events")) of->known++;
        if (of->known > 0 && strcmp(line, "\tfields := struct {") == 0) in_fields = true;
        else if (strcmp(line, "\t};") == 0) in_fields = false;
        else if (in_fields) of->bytes[of->known] += folder_field(line + strspn(line, "\t"));
    }
    free(text);
}

/* ---- Its packets. ---- */

/* One packet of a file, after the stamps and the number missed of those before it. */
static inline void folder_packet(read_folder *of, uint8_t *packet, uint32_t cpu, uint64_t *stamp, uint64_t *missed) {
    const uint64_t end = folder_number(packet + 40, 8) / 8, begins = folder_number(packet + 24, 8), ends = folder_number(packet + 32, 8);
    uint64_t at = FOLDER_FRONT, last = begins;
    folder_needs(of, folder_number(packet, 4) == 0xC1FC1FC1 && memcmp(packet + 4, of->uuid, FOLDER_UUID) == 0 && folder_number(packet + 20, 4) == 0, "a packet isn't the trace's");
    if (!folder_needs(of, end >= FOLDER_FRONT && end <= FOLDER_PACKET && folder_number(packet + 48, 8) == 8 * FOLDER_PACKET, "a packet's sizes are none")) return;
    folder_needs(of, folder_number(packet + 56, 8) >= *missed && folder_number(packet + 64, 4) == cpu, "a packet is another CPU's, or misses less than the one before");
    folder_needs(of, begins >= *stamp && ends >= begins, "a packet's stamps fall");
    *stamp = ends;
    *missed = folder_number(packet + 56, 8);
    while (at + FOLDER_EVENT <= end) {
        const uint64_t event = folder_number(packet + at, 4), made = folder_number(packet + at + 4, 8);
        if (!folder_needs(of, event >= 1 && event <= of->known, "a packet has an event that the metadata doesn't tell")) return;
        folder_needs(of, made >= last && made <= ends && (at > FOLDER_FRONT || made == begins), "an event's stamp isn't in its packet");
        last = made;
        at += FOLDER_EVENT + of->bytes[event];
        of->found[event]++;
        of->events++;
    }
    folder_needs(of, at == end && last == ends, "a packet's last event isn't whole");
    for (; end <= at && at < FOLDER_PACKET; at++) folder_needs(of, packet[at] == 0, "a packet has bytes after its events");
    memset(packet + 4, 0, FOLDER_UUID);
}

static inline void folder_packets(read_folder *of, int folder, const char *name, uint32_t cpu) {
    size_t size;
    uint64_t stamp = 0, missed = 0;
    uint8_t *bytes = folder_file(folder, name, &size);
    if (folder_needs(of, bytes != NULL && size % FOLDER_PACKET == 0, "a file isn't whole packets"))
        for (size_t at = 0; at < size && of->why == NULL; at += FOLDER_PACKET) folder_packet(of, bytes + at, cpu, &stamp, &missed);
    of->sum += folder_sum(folder_sum(UINT64_C(0xcbf29ce484222325), name, strlen(name)), bytes, size); /* the files come in any order */
    free(bytes);
}

/* Reads a folder: what it has. */
static inline read_folder folder_read(const char *path) {
    read_folder of = { .sum = UINT64_C(0xcbf29ce484222325) };
    DIR *names = opendir(path);
    if (!folder_needs(&of, names != NULL, "it isn't there")) return of;
    folder_metadata(&of, dirfd(names));
    for (struct dirent *entry; of.why == NULL && (entry = readdir(names)) != NULL;) {
        unsigned cpu, file;
        if (sscanf(entry->d_name, "cpu_%u_%u", &cpu, &file) == 2) folder_packets(&of, dirfd(names), entry->d_name, cpu);
    }
    closedir(names);
    return of;
}

#endif
