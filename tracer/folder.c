/* folder.c: the calls of dspec_folder.h: a trace in a folder is begun, takes batches, and is ended. */
#include "folder.h"

#include <errno.h>
#include <stdio.h>
#include <stdlib.h>
#include <string.h>

/* Where a packet of the format has its first stamp, its last one, and how many bits it has; and these bits of one without events. */
enum { FIRST_STAMP = 24, LAST_STAMP = 32, CONTENT_BITS = 40, BITS_WITHOUT_EVENTS = 544 };

void dspec_folder_limit(dspec_folder *folder, uint64_t bytes, uint32_t folders) {
    folder->most_bytes = bytes;
    folder->most_folders = folders;
}

void dspec_folder_reserve(dspec_folder *folder, size_t len) { folder->reserved = len; }

/* Takes memory for the packets and the parts of batches, where that is asked for. */
static dspec_status take_rooms(dspec_folder *folder) {
    dspec_status status;
    if (folder->reserved == 0) return DSPEC_OK;
    if (!dspec_folder_grows_(&folder->room, &folder->size, dspec_ctf_room(folder->reserved))) return DSPEC_NO_MEMORY;
    if (folder->most_folders > 0 && !dspec_folder_grows_(&folder->copy, &folder->copy_size, 2 * folder->reserved)) return DSPEC_NO_MEMORY;
    status = dspec_ctf_new(folder->schema, &folder->identity, 0, &folder->reserve);
    return status == DSPEC_OK ? dspec_ctf_reserve(&folder->reserve, folder->reserved) : status;
}

/* Lets go the memory of a trace that has ended, or isn't begun. */
static void let_go(dspec_folder *folder) {
    for (; folder->kept > 0; folder->kept--) dspec_folder_unlatches_(&dspec_folder_newest_(folder)->at, &dspec_folder_newest_(folder)->mark);
    dspec_folder_unlatches_(&folder->parent, &folder->parent_mark);
    dspec_ctf_drop(&folder->reserve);
    free(folder->room);
    free(folder->copy);
    free(folder->text);
    folder->room = folder->copy = NULL;
    folder->text = NULL;
    folder->size = folder->copy_size = 0;
    folder->cpus = 0;
}

bool dspec_folder_fails_(dspec_folder *folder, dspec_status status, int code, const dspec_names *names) {
    size_t at = 0;
    let_go(folder);
    dspec_folder_loses_(folder, status, code, 0, 0, 0);
    if (status == DSPEC_BAD_NAME) folder->last.why = dspec_names_refused(names, &at);
    if (folder->last.why != NULL) folder->last.name = names->texts[at];
    return false;
}

/* Makes the text of `metadata`. */
static dspec_status make_text(dspec_folder *folder, dspec_schema *schema, const dspec_identity *identity, const dspec_names *names) {
    dspec_status status;
    const char *made;
    size_t needed = 4096, at;
    do {
        if (!dspec_folder_grows_(&folder->room, &folder->size, needed)) return DSPEC_NO_MEMORY;
        status = dspec_ctf_metadata(schema, identity, names->texts, names->count, names->kinds, names->kind_count, folder->room, folder->size, &needed);
    } while (status == DSPEC_TOO_SMALL);
    if (status != DSPEC_OK) return status;
    if (dspec_names_refused(names, &at) != NULL) return DSPEC_BAD_NAME;
    made = (const char *)folder->room;
    folder->text_size = dspec_labels_put(names, made, needed, NULL, 0);
    folder->text = calloc(folder->text_size + 1, 1);
    if (folder->text == NULL) return DSPEC_NO_MEMORY;
    dspec_labels_put(names, made, needed, folder->text, folder->text_size);
    return DSPEC_OK;
}

bool dspec_folder_begin(dspec_folder *folder, const char *path, dspec_schema *schema, uint32_t cpus, const dspec_identity *identity, const dspec_names *names) {
    static dspec_names none; /* no names */
    const dspec_text nothing = { "", 0 };
    const uint64_t most_bytes = folder->most_bytes;
    const uint32_t most_folders = folder->most_folders;
    const size_t reserved = folder->reserved;
    dspec_status status;
    int code = 0;
    memset(folder, 0, sizeof *folder);
    dspec_folder_limit(folder, most_bytes, most_folders);
    dspec_folder_reserve(folder, reserved);
    folder->parent = -1;
    if (strlen(path) >= sizeof folder->path) return dspec_folder_loses_(folder, DSPEC_OK, ENAMETOOLONG, 0, 0, 0);
    memcpy(folder->path, path, strlen(path));
    if (cpus == 0 || cpus > DSPEC_MAX_CPUS) return dspec_folder_loses_(folder, DSPEC_BAD_CPUS, 0, 0, 0, 0);
    if (names == NULL) names = &none;
    if (names->over) return dspec_folder_loses_(folder, DSPEC_BAD_NAME_COUNT, 0, 0, 0, 0);
    folder->cpus = cpus;
    folder->schema = schema;
    folder->identity = *identity;
    folder->identity.host = folder->identity.name = nothing; /* they are in the text, and nobody keeps them */
    status = make_text(folder, schema, identity, names);
    if (status == DSPEC_OK) status = take_rooms(folder);
    if (status == DSPEC_OK && most_folders > 0) {
        if (most_folders < 2 || most_folders > DSPEC_FOLDER_MOST || dspec_folder_left_(folder) < 4) status = DSPEC_TOO_SMALL;
        else code = dspec_folder_finds_(folder);
    }
    if (status == DSPEC_OK && code == 0 && dspec_folder_enters_(folder, &status, &code)) return true;
    return dspec_folder_fails_(folder, status, code, names);
}

const char *dspec_folder_why(dspec_folder *folder) {
    const dspec_loss *last = &folder->last;
    if (last->code != 0) return strerror(last->code);
    if (last->why == NULL) return dspec_status_text(last->status);
    snprintf(folder->words, sizeof folder->words, "%.*s: %s", (int)last->name.len, last->name.bytes, last->why);
    return folder->words;
}

/* Gives up what wasn't written of the batch that is open. */
static bool give_up(dspec_folder *folder, dspec_status status, int code, uint32_t cpu, size_t file) {
    uint64_t records = 0;
    dspec_ctf_lose(&folder->ctf[cpu], &records);
    return dspec_folder_loses_(folder, status, code, cpu, file, records);
}

/* A folder's first packet of a CPU, where that tells what was missed, has no stamp of its own: it gets that of the events after it, or when the folder is closed the CPU's last one of the folder
 * before. So tools say when events were missed, and not that it was at the clock's beginning. */
static void date_packets(dspec_folder *folder, uint32_t cpu, const dspec_packet *packet) {
    uint64_t first = 0;
    size_t at;
    for (at = 0; at < packet->size && first == 0; at += DSPEC_FOLDER_PACKET) first = dspec_number_at(folder->room + at + FIRST_STAMP, 8);
    if (first == 0 && folder->ending) first = folder->dated[cpu];
    for (at = 0; at < packet->size; at += DSPEC_FOLDER_PACKET) {
        uint8_t *const one = folder->room + at;
        const uint64_t final = dspec_number_at(one + LAST_STAMP, 8);
        if (final != 0) folder->dated[cpu] = final;
        else if (dspec_number_at(one + CONTENT_BITS, 8) == BITS_WITHOUT_EVENTS)
            for (size_t byte = 0; byte < 8; byte++) one[FIRST_STAMP + byte] = one[LAST_STAMP + byte] = (uint8_t)(first >> 8 * byte);
    }
}

/* Writes the packets of the batch that a CPU has open until none is left, or one has no room below the bound. written: how many records were. */
static bool append_packets(dspec_folder *folder, uint32_t cpu, uint64_t *written, bool *has_room) {
    dspec_packet packet = { 0, 0, 0 };
    for (;; *written += packet.records) {
        dspec_status status = dspec_ctf_put(&folder->ctf[cpu], folder->room, folder->size, &packet);
        int code;
        if (status == DSPEC_NO_PACKET) return true;
        packet.records = status == DSPEC_TOO_SMALL ? 0 : packet.records;
        if (status == DSPEC_TOO_SMALL && dspec_folder_grows_(&folder->room, &folder->size, packet.size)) continue;
        if (status == DSPEC_TOO_SMALL) status = DSPEC_NO_MEMORY;
        if (status != DSPEC_OK) return give_up(folder, status, 0, cpu, 0);
        *has_room = folder->ending || packet.size <= dspec_folder_left_(folder) * DSPEC_FOLDER_PACKET;
        if (!*has_room) return true;
        date_packets(folder, cpu, &packet);
        do code = dspec_folder_appends_(folder, cpu, &packet);
        while (dspec_folder_gives_room_(folder, code));
        if (code != 0) return give_up(folder, DSPEC_OK, code, cpu, packet.file);
    }
}

/* Opens a batch, and writes its packets. */
static bool write_opened(dspec_folder *folder, const dspec_layout *layout, const dspec_batch *batch, uint64_t *written, bool *has_room) {
    dspec_ctf *const ctf = &folder->ctf[batch->cpu];
    const dspec_status status = dspec_ctf_batch(ctf, batch);
    uint64_t records;
    if (status == DSPEC_OK) return append_packets(folder, batch->cpu, written, has_room);
    records = dspec_folder_counts_(layout, batch);
    dspec_ctf_miss(ctf, batch->drops);
    dspec_ctf_miss(ctf, records);
    return dspec_folder_loses_(folder, status, 0, batch->cpu, 0, records);
}

/* A CPU's files have the reserve while a batch is written, since one is written at a time: whether it went from one to the other. */
static bool swap_reserve(dspec_folder *folder, dspec_ctf *ctf) { return folder->reserve.held && dspec_ctf_swap_rooms(&folder->reserve, ctf) == DSPEC_OK; }

/* Writes the packets of a batch until one has no room below the bound: then its CPU has no packets in this folder any more. written: how many records were. */
static bool write_packets(dspec_folder *folder, const dspec_layout *layout, const dspec_batch *batch, uint64_t *written) {
    dspec_ctf *ctf;
    uint64_t rest;
    bool has_room = true, is_lent, is_whole;
    *written = 0;
    if (batch->cpu >= folder->cpus) return dspec_folder_loses_(folder, DSPEC_NO_SUCH_CPU, 0, batch->cpu, 0, dspec_folder_counts_(layout, batch));
    ctf = &folder->ctf[batch->cpu];
    is_lent = swap_reserve(folder, ctf);
    is_whole = write_opened(folder, layout, batch, written, &has_room);
    if (!has_room) dspec_ctf_lose(ctf, &rest); /* the reserve comes back without a batch alone; the next folder gets the rest */
    if (is_lent) swap_reserve(folder, ctf);
    if (!has_room) dspec_ctf_drop(ctf);
    return is_whole;
}

/* Tells what isn't told yet of what CPUs missed, and closes the folder that is being written. */
static void leave(dspec_folder *folder) {
    static dspec_layout no_records; /* all zeros */
    uint64_t written;
    folder->ending = true;
    for (uint32_t cpu = 0; cpu < folder->cpus; cpu++) {
        const dspec_batch none = { folder->room, 0, 0, cpu };
        if (folder->ctf[cpu].held) write_packets(folder, &no_records, &none, &written);
    }
    dspec_folder_shuts_(folder);
    folder->ending = false;
}

/* Closes the folder that is being written, and begins the next: whether there is one. */
static bool turn(dspec_folder *folder, uint32_t cpu) {
    dspec_status status = DSPEC_OK;
    int code;
    if (folder->is_open) leave(folder);
    do {
        code = folder->kept < folder->most_folders ? 0 : dspec_folder_forgets_(folder);
        if (code == 0 && dspec_folder_enters_(folder, &status, &code)) return true;
    } while (dspec_folder_gives_room_(folder, code));
    return dspec_folder_loses_(folder, status, code, cpu, 0, 0);
}

/* Writes a batch below a bound: as it is where it has room, and else in parts, of which each has room where it goes. Its records are read only for parts. */
static bool take_bounded(dspec_folder *folder, const dspec_layout *layout, const dspec_batch *batch) {
    size_t at = 0;
    bool whole = true;
    do {
        const bool is_open = folder->is_open && folder->ctf[batch->cpu].held && dspec_folder_left_(folder) > DSPEC_FOLDER_LAST + 1;
        const size_t from = at;
        uint64_t most, records = 0, written = 0;
        dspec_batch part = *batch;
        if (!is_open && !turn(folder, batch->cpu)) {
            const uint64_t missed = dspec_folder_skips_(layout, batch, &at, UINT64_MAX);
            folder->untold[batch->cpu] += missed + (from == 0 ? batch->drops : 0);
            folder->last.records = missed;
            folder->first.records += missed;
            return false;
        }
        most = (dspec_folder_left_(folder) - DSPEC_FOLDER_LAST - 1) * DSPEC_CTF_FILLED_;
        if (from == 0 && batch->len <= most) at = batch->len;
        else records = dspec_folder_part_of_(folder, layout, batch, &at, most, &part);
        if (records > 0 && part.bytes == NULL) {
            dspec_ctf_miss(&folder->ctf[batch->cpu], records + part.drops);
            whole = dspec_folder_loses_(folder, DSPEC_NO_MEMORY, 0, batch->cpu, 0, records);
            continue;
        }
        whole = write_packets(folder, layout, &part, &written) && whole;
        if (folder->ctf[batch->cpu].held) continue;
        at = from;
        dspec_folder_skips_(layout, batch, &at, written);
    } while (at < batch->len);
    return whole;
}

bool dspec_folder_take(dspec_folder *folder, const dspec_layout *layout, const dspec_batch *batch) {
    uint64_t written;
    if (folder->most_folders > 0 && batch->cpu < folder->cpus) return take_bounded(folder, layout, batch);
    return write_packets(folder, layout, batch, &written);
}

bool dspec_folder_end(dspec_folder *folder) {
    if (folder->is_open) leave(folder);
    let_go(folder);
    return !folder->lost;
}

uint64_t dspec_folder_untold_(const dspec_report *report) {
    uint64_t missed = report->dropped + report->specdropped + report->lost;
    return missed > report->drops ? missed - report->drops : 0;
}

bool dspec_folder_close(dspec_folder *folder, const dspec_layout *layout, dspec_closed *closed) {
    dspec_report report;
    dspec_batch batch;
    if (folder->cpus > 0 && dspec_closed_report(closed, 0, &report) == DSPEC_BAD_HANDLE) {
        memset(&folder->last, 0, sizeof folder->last);
        folder->last.status = DSPEC_BAD_HANDLE;
        return false;
    }
    for (uint32_t cpu = 0; folder->cpus > 0 && dspec_closed_report(closed, cpu, &report) == DSPEC_OK; cpu++) {
        for (int last = 0; last < 2; last++)
            if (dspec_rest(closed, cpu, last == 1, &batch) == DSPEC_OK) dspec_folder_take(folder, layout, &batch);
        if (cpu < folder->cpus) dspec_ctf_miss(&folder->ctf[cpu], dspec_folder_untold_(&report));
    }
    return dspec_folder_end(folder);
}
