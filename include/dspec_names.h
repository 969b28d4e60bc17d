/* dspec_names.h: the names of a schema's events and fields, for the metadata of a trace, beside dspec.h. For C11 and C++17. */
#ifndef DSPEC_NAMES_H
#define DSPEC_NAMES_H

#include "dspec.h"

#include <string.h>

#ifdef __cplusplus
extern "C" {
#endif

/* Bytes of the caller's that are a text; no zero is looked for. */
typedef struct dspec_text {
    const char *bytes;
    size_t len;
} dspec_text;

/* What the numbers of a field mean. */
#define DSPEC_KIND_UNSIGNED 0u /* themselves */
#define DSPEC_KIND_SIGNED 1u   /* a signed number of as many bytes as the field has */
#define DSPEC_KIND_FLOAT 2u    /* a float in a field of 4 bytes, a double in one of 8 */
#define DSPEC_KIND_TEXT 3u     /* the first eight bytes of a text (dspec_text.h) */
#define DSPEC_KIND_TEXT_NEXT 4u     /* and its next eight; they have no name of their own */

/* What the numbers 0, 1, .. of a field are called: of each 1 to 255 bytes of printable ASCII without quotes and backslashes. The texts stay the caller's. */
typedef struct dspec_labels {
    const char *const *texts;
    const size_t *count; /* how many they are when the trace begins; NULL: none */
} dspec_labels;

/* The names of events in the order of their EPIDs, after each event's those of its fields; the meaning of the fields' numbers, and their labels. All zeros at
 * first. The texts stay the caller's. `over` says that there was no room for one: a schema has at most 64 events of 8 fields. */
typedef struct dspec_names {
    dspec_text texts[DSPEC_MAX_ENABLINGS * (DSPEC_MAX_FIELDS + 1)];
    bool events[DSPEC_MAX_ENABLINGS * (DSPEC_MAX_FIELDS + 1)]; /* whether the text is an event's */
    const dspec_labels *labels[DSPEC_MAX_ENABLINGS * (DSPEC_MAX_FIELDS + 1)]; /* of a field's name; NULL: it has none */
    uint8_t kinds[DSPEC_MAX_ENABLINGS * DSPEC_MAX_FIELDS];
    size_t count;
    size_t kind_count;
    bool over;
} dspec_names;

DSPEC_INLINE void dspec_names_text(dspec_names *names, const char *text, bool is_event) DSPEC_NOEXCEPT {
    if (names->count == sizeof names->texts / sizeof names->texts[0]) {
        names->over = true;
        return;
    }
    names->texts[names->count].bytes = text;
    names->texts[names->count].len = strlen(text);
    names->events[names->count] = is_event;
    names->count++;
}

/* Adds the next event. */
DSPEC_INLINE void dspec_names_event(dspec_names *names, const char *event) DSPEC_NOEXCEPT { dspec_names_text(names, event, true); }

DSPEC_INLINE void dspec_names_kind(dspec_names *names, uint8_t kind) DSPEC_NOEXCEPT {
    if (names->kind_count == sizeof names->kinds) {
        names->over = true;
        return;
    }
    names->kinds[names->kind_count] = kind;
    names->kind_count++;
}

/* Adds the next field of the event that was added last. */
DSPEC_INLINE void dspec_names_field(dspec_names *names, const char *field, uint8_t kind) DSPEC_NOEXCEPT {
    dspec_names_kind(names, kind);
    dspec_names_text(names, field, false);
}

/* The same of a field of a probe, which has this many bytes: a text that is of several words of the schema's has one name. */
DSPEC_INLINE void dspec_names_wide(dspec_names *names, const char *field, uint8_t kind, size_t bytes) DSPEC_NOEXCEPT {
    dspec_names_field(names, field, kind);
    for (; bytes > 8; bytes -= 8) dspec_names_kind(names, DSPEC_KIND_TEXT_NEXT);
}

/* Says what the numbers of the field that was added last are called; of a float and of a text that isn't told. */
DSPEC_INLINE void dspec_names_labels(dspec_names *names, const dspec_labels *labels) DSPEC_NOEXCEPT {
    if (names->count > 0 && !names->over) names->labels[names->count - 1] = labels;
}

/* How many labels the name at a place has. */
DSPEC_INLINE size_t dspec_names_label_count(const dspec_names *names, size_t at) DSPEC_NOEXCEPT {
    const dspec_labels *labels = names->labels[at];
    return labels == NULL || labels->count == NULL ? 0 : *labels->count;
}

DSPEC_INLINE bool dspec_label_is_shown(const char *label) DSPEC_NOEXCEPT {
    const size_t len = strlen(label);
    for (size_t i = 0; i < len; i++)
        if (label[i] < ' ' || label[i] > '~' || label[i] == '"' || label[i] == '\\') return false;
    return len >= 1 && len <= 255;
}

DSPEC_INLINE bool dspec_text_is(const dspec_text *one, const dspec_text *other) DSPEC_NOEXCEPT {
    return one->len == other->len && memcmp(one->bytes, other->bytes, one->len) == 0;
}

/* Whether the language of a trace's metadata keeps this word for itself. */
DSPEC_INLINE bool dspec_word_is_reserved(const dspec_text *word) DSPEC_NOEXCEPT {
    static const char *const reserved[] = {
        "align", "callsite", "const", "char", "clock", "double", "enum", "env", "event", "floating_point", "float", "integer", "int", "long",
        "short", "signed", "stream", "string", "struct", "trace", "typealias", "typedef", "unsigned", "variant", "void", "_Bool", "_Complex", "_Imaginary",
    };
    for (size_t i = 0; i < sizeof reserved / sizeof reserved[0]; i++)
        if (strlen(reserved[i]) == word->len && memcmp(reserved[i], word->bytes, word->len) == 0) return true;
    return false;
}

DSPEC_INLINE bool dspec_word_is_identifier(const dspec_text *word) DSPEC_NOEXCEPT {
    for (size_t i = 0; i < word->len; i++) {
        char letter = word->bytes[i];
        bool is_letter = (letter >= 'a' && letter <= 'z') || (letter >= 'A' && letter <= 'Z') || letter == '_';
        if (!is_letter && (i == 0 || letter < '0' || letter > '9')) return false;
    }
    return word->len > 0;
}

/* A field's name as readers of the format show it: without the underscore that it begins with. */
DSPEC_INLINE dspec_text dspec_text_shown_(const dspec_text *field) DSPEC_NOEXCEPT {
    const bool is_marked = field->len > 1 && field->bytes[0] == '_';
    const dspec_text shown = { field->bytes + is_marked, field->len - is_marked };
    return shown;
}

/* Why the name at a place isn't allowed, as a static text; NULL where it is. */
DSPEC_INLINE const char *dspec_name_refused(const dspec_names *names, size_t at) DSPEC_NOEXCEPT {
    const dspec_text *name = &names->texts[at];
    if (name->len > 255) return "longer than 255 bytes";
    if (!dspec_word_is_identifier(name)) return "not a letter or an underscore and then letters, digits and underscores";
    if (dspec_word_is_reserved(name)) return "a word that the trace's metadata keeps for itself";
    for (size_t i = 0; i < dspec_names_label_count(names, at); i++)
        if (!dspec_label_is_shown(names->labels[at]->texts[i])) return "a label that isn't 1 to 255 bytes of printable ASCII without quotes and backslashes";
    for (size_t i = at; i > 0; i--) {
        if (names->events[i - 1] == names->events[at] && dspec_text_is(&names->texts[i - 1], name)) return "the name of another event, or of another field of this one";
        if (!names->events[i - 1] && !names->events[at]) {
            const dspec_text one = dspec_text_shown_(name), other = dspec_text_shown_(&names->texts[i - 1]);
            if (dspec_text_is(&one, &other)) return "the name of another field of this one but for the underscore in front, which readers of the format take off";
        }
        if (names->events[i - 1] && !names->events[at]) return NULL;
    }
    return NULL;
}

/* The place of the first name that the metadata of a trace can't have, and why, as a static text; NULL where it can have all. What dspec_ctf_metadata
 * refuses as DSPEC_BAD_NAME is told so. */
DSPEC_INLINE const char *dspec_names_refused(const dspec_names *names, size_t *at) DSPEC_NOEXCEPT {
    for (size_t i = 0; i < names->count; i++) {
        const char *why = dspec_name_refused(names, i);
        if (why == NULL) continue;
        *at = i;
        return why;
    }
    return NULL;
}

#ifdef __cplusplus
}
#endif

#endif
