/* folder_labels.c: what the numbers of fields are called, in the text of a trace's metadata. */
#include "folder.h"

#include <stdio.h>
#include <string.h>

/* Bytes at the end of others, of which only those are there that have room. */
typedef struct label_text {
    char *bytes;
    size_t size, len;
} label_text;

static void add(label_text *to, const char *bytes, size_t len) {
    if (len > 0 && to->len + len <= to->size) memcpy(to->bytes + to->len, bytes, len);
    to->len += len;
}

/* Adds a field's line of the metadata, with the labels of its numbers. The line is two tabs, its type, a space, its name, a semicolon. */
static void add_field(label_text *to, const char *line, size_t len, const dspec_names *names, size_t at) {
    const size_t rest = names->texts[at].len + 3, count = dspec_names_label_count(names, at);
    char number[32];
    if (count == 0 || len < rest + 2 || memchr(line, '[', len) != NULL || memcmp(line, "\t\tfloating_point", 16) == 0) {
        add(to, line, len);
        return;
    }
    add(to, "\t\tenum : ", 9);
    add(to, line + 2, len - rest - 2);
    add(to, " { ", 3);
    for (size_t i = 0; i < count; i++) {
        const char *label = names->labels[at]->texts[i];
        const int digits = snprintf(number, sizeof number, "\" = %zu, ", i);
        add(to, "\"", 1);
        add(to, label, strlen(label));
        add(to, number, (size_t)digits);
    }
    add(to, "}", 1);
    add(to, line + len - rest, rest);
}

size_t dspec_labels_put(const dspec_names *names, const char *text, size_t len, char *room, size_t size) {
    static const char front[] = "\tfields := struct {\n";
    label_text to = { room, size, 0 };
    size_t at = 0;
    bool within = false;
    for (size_t begin = 0, next; begin < len; begin = next) {
        const char *line = text + begin, *end = memchr(line, '\n', len - begin);
        next = end == NULL ? len : (size_t)(end - text) + 1;
        within = within && line[0] == '\t' && next - begin > 1 && line[1] == '\t';
        if (within && at < names->count) add_field(&to, line, next - begin, names, at++);
        else add(&to, line, next - begin);
        if (next - begin != sizeof front - 1 || memcmp(line, front, sizeof front - 1) != 0) continue;
        within = true;
        at++;
    }
    return to.len;
}
