/* dspec_probe.h: probes with typed fields, for C11, beside dspec.h and dspec_reader.h. C++ has them in dspec.hpp.
 *
 *     DSPEC_PROBE(query, uint64_t, request, uint32_t, micros)
 *
 * at the top of a file declares a probe called query with two fields. It has one to eight fields, each an integer, a bool, a float or a
 * double, of 1, 2, 4 or 8 bytes, or a text (dspec_text.h), which counts as one field for each eight bytes. Then there are:
 *
 *     query_probe q;                                              the probe; all zeros until it is enabled
 *     query_enable(&q, &layout, &schema)                          answers as dspec_layout_enable
 *     query_trace(&q, &cpu, stamp, request, micros)               answers as dspec_put
 *     query_speculate(&q, &cpu, id, stamp, request, micros)       answers as dspec_put_in
 *     query_values v; query_read(&q, &record, &v)                 whether the record is one of q; its values are in v.request, v.micros
 *     query_name(&names)                                          adds its name and those of its fields, for the metadata of a trace
 *
 * The stamp is 0 where records have none. A value is converted to its field's type as an argument of a function is; a negative number
 * and a float keep their bits. A record of a probe that wasn't enabled is DSPEC_BAD_RECORD, and so is one of a session over another schema where the
 * EPID has other fields.
 */
#ifndef DSPEC_PROBE_H
#define DSPEC_PROBE_H

#include "dspec.h"
#include "dspec_labels.h"
#include "dspec_names.h"
#include "dspec_reader.h"
#include "dspec_text.h"

#include <assert.h>
#include <string.h>

/* The bits of a value of this many bytes, at most 8, with zeros above them. The machine is little-endian, as all are that the library is
 * built for. */
static inline uint64_t dspec_bits_of(const void *value, size_t width) {
    uint64_t bits = 0;
    memcpy(&bits, value, width);
    return bits;
}

/* The value of such bits, and of those of a bool, of which any but 0 is true. */
static inline void dspec_value_of(void *value, const uint64_t *bits, size_t width) { memcpy(value, bits, width); }

static inline void dspec_bool_of(void *value, const uint64_t *bits, size_t width) {
    (void)width;
    *(bool *)value = *bits != 0;
}

/* By a type, which isn't evaluated: the first where it is a text's, else the second. */
#define DSPEC_IF_TEXT_(TYPE, TEXT, ELSE)                                                                                                              \
    _Generic(*(TYPE *)0, dspec_text8: TEXT, dspec_text16: TEXT, dspec_text24: TEXT, dspec_text32: TEXT, dspec_text40: TEXT, dspec_text48: TEXT, default: ELSE)

/* Whether a type is a pointer, where the compiler can tell. */
#if defined(__GNUC__)
#define DSPEC_IS_POINTER_(TYPE) (__builtin_classify_type(*(TYPE *)0) == 5)
#else
#define DSPEC_IS_POINTER_(TYPE) _Generic(*(TYPE *)0, char *: 1, const char *: 1, void *: 1, const void *: 1, default: 0)
#endif

/* What a type's numbers mean, as a trace's metadata says it. */
#define DSPEC_KIND_OF(TYPE)                                                                                                                           \
    _Generic(*(TYPE *)0, float: DSPEC_KIND_FLOAT, double: DSPEC_KIND_FLOAT, char: DSPEC_KIND_SIGNED, signed char: DSPEC_KIND_SIGNED, short: DSPEC_KIND_SIGNED, \
        int: DSPEC_KIND_SIGNED, long: DSPEC_KIND_SIGNED, long long: DSPEC_KIND_SIGNED, default: DSPEC_IF_TEXT_(TYPE, DSPEC_KIND_TEXT, DSPEC_KIND_UNSIGNED))

/* The constant part of a probe's packing has to be constant for the compiler too. */
#if defined(__GNUC__)
#define DSPEC_PROBE_PACKED_ __attribute__((always_inline)) static inline
#else
#define DSPEC_PROBE_PACKED_ static inline
#endif

/* How many fields of the schema's a field of a type is. */
#define DSPEC_PROBE_SPREAD_(TYPE) ((sizeof(TYPE) + 7) / 8)

/* Puts a value at a place of a record's words, which are zeros there: where the next begins. */
DSPEC_PROBE_PACKED_ size_t dspec_packed_(uint64_t *words, size_t end, const void *value, size_t size) {
    const size_t width = size < 8 ? size : 8, at = (end + width - 1) / width * width;
    if (size > 8) memcpy(&words[at / 8], value, size);
    else words[at / 8] |= dspec_bits_of(value, size) << 8 * (at % 8);
    return at + size;
}

/* How many bytes each of n fields has, four bits a field, the first lowest. */
static inline uint32_t dspec_signature_of(const uint8_t *widths, size_t n) {
    uint32_t signature = 0;
    for (size_t i = 0; i < n; i++) signature |= (uint32_t)widths[i] << 4 * i;
    return signature;
}

/* Enables a probe whose fields have these widths, and has the claim of its records. */
static inline dspec_status dspec_probe_enable(dspec_layout *layout, dspec_schema *schema, const uint8_t *widths, size_t n, uint32_t *epid, uint32_t *signature) {
    uint8_t fields[DSPEC_MAX_FIELDS];
    const size_t count = dspec_widths_spread(widths, n, fields);
    if (count > DSPEC_MAX_FIELDS) return DSPEC_TOO_MANY_FIELDS;
    *signature = dspec_signature_of(fields, count);
    return dspec_layout_enable(layout, schema, fields, count, epid);
}

/* Not each probe is used in each way. */
#if defined(__GNUC__)
#define DSPEC_PROBE_CALL_ __attribute__((unused)) static inline
#define DSPEC_PROBE_UNUSED_ __attribute__((unused))
#else
#define DSPEC_PROBE_CALL_ static inline
#define DSPEC_PROBE_UNUSED_
#endif

/* One step a field: DSPEC_PROBE_n_(STEP, probe, type, name, ..) is STEP(probe, type, name) STEP(probe, ..) and so on. */
#define DSPEC_PROBE_1_(S, P, T0, N0) S(P, T0, N0)
#define DSPEC_PROBE_2_(S, P, T0, N0, T1, N1) DSPEC_PROBE_1_(S, P, T0, N0) S(P, T1, N1)
#define DSPEC_PROBE_3_(S, P, T0, N0, T1, N1, T2, N2) DSPEC_PROBE_2_(S, P, T0, N0, T1, N1) S(P, T2, N2)
#define DSPEC_PROBE_4_(S, P, T0, N0, T1, N1, T2, N2, T3, N3) DSPEC_PROBE_3_(S, P, T0, N0, T1, N1, T2, N2) S(P, T3, N3)
#define DSPEC_PROBE_5_(S, P, T0, N0, T1, N1, T2, N2, T3, N3, T4, N4) DSPEC_PROBE_4_(S, P, T0, N0, T1, N1, T2, N2, T3, N3) S(P, T4, N4)
#define DSPEC_PROBE_6_(S, P, T0, N0, T1, N1, T2, N2, T3, N3, T4, N4, T5, N5) DSPEC_PROBE_5_(S, P, T0, N0, T1, N1, T2, N2, T3, N3, T4, N4) S(P, T5, N5)
#define DSPEC_PROBE_7_(S, P, T0, N0, T1, N1, T2, N2, T3, N3, T4, N4, T5, N5, T6, N6) \
    DSPEC_PROBE_6_(S, P, T0, N0, T1, N1, T2, N2, T3, N3, T4, N4, T5, N5) S(P, T6, N6)
#define DSPEC_PROBE_8_(S, P, T0, N0, T1, N1, T2, N2, T3, N3, T4, N4, T5, N5, T6, N6, T7, N7) \
    DSPEC_PROBE_7_(S, P, T0, N0, T1, N1, T2, N2, T3, N3, T4, N4, T5, N5, T6, N6) S(P, T7, N7)

/* The step for each number of fields: two words each. */
#define DSPEC_PROBE_PICK_(A1, B1, A2, B2, A3, B3, A4, B4, A5, B5, A6, B6, A7, B7, A8, B8, EACH, ...) EACH
#define DSPEC_PROBE_EACH_(S, P, ...)                                                                                                           \
    DSPEC_PROBE_PICK_(__VA_ARGS__, DSPEC_PROBE_8_, odd_, DSPEC_PROBE_7_, odd_, DSPEC_PROBE_6_, odd_, DSPEC_PROBE_5_, odd_, DSPEC_PROBE_4_, odd_, \
                      DSPEC_PROBE_3_, odd_, DSPEC_PROBE_2_, odd_, DSPEC_PROBE_1_, odd_)                                                        \
    (S, P, __VA_ARGS__)

#define DSPEC_PROBE_FIELD_(PROBE, TYPE, NAME) TYPE NAME;
#define DSPEC_PROBE_ARGUMENT_(PROBE, TYPE, NAME) , TYPE NAME
#define DSPEC_PROBE_WIDTH_(PROBE, TYPE, NAME) sizeof(TYPE),
#define DSPEC_PROBE_COUNT_(PROBE, TYPE, NAME) + DSPEC_PROBE_SPREAD_(TYPE)
/* Each field at its place after the EPID's four bytes. A union with the struct was tried: gcc 12 makes narrow stores of it and one wide load. */
#define DSPEC_PROBE_PACK_(PROBE, TYPE, NAME) dspec_end_ = dspec_packed_(dspec_words_, dspec_end_, &NAME, sizeof NAME);
#define DSPEC_PROBE_BACK_(PROBE, TYPE, NAME)                                                                                                                      \
    _Generic(dspec_values_->NAME, bool: dspec_bool_of, default: dspec_value_of)(&dspec_values_->NAME, &dspec_record_->values[dspec_at_], sizeof(TYPE)); \
    dspec_at_ += DSPEC_PROBE_SPREAD_(TYPE);
#define DSPEC_PROBE_KIND_(PROBE, TYPE, NAME) \
    dspec_names_wide(dspec_names_, #NAME, DSPEC_KIND_OF(TYPE), sizeof(TYPE)); \
    dspec_names_labels(dspec_names_, &dspec_labels_of_##PROBE##_dspec_##NAME);
/* Its labels, where DSPEC_LABELS says them further down; else none. */
#define DSPEC_PROBE_LABELS_(PROBE, TYPE, NAME) DSPEC_PROBE_UNUSED_ static const dspec_labels dspec_labels_of_##PROBE##_dspec_##NAME;
/* Of a struct that is no text, `!` isn't compiled. */
#define DSPEC_PROBE_ASSERT_(PROBE, TYPE, NAME)                                                                                                             \
    static_assert(DSPEC_IF_TEXT_(TYPE, 1, sizeof(TYPE) == 1 || sizeof(TYPE) == 2 || sizeof(TYPE) == 4 || sizeof(TYPE) == 8), "a field has 1, 2, 4 or 8 bytes, or is a text"); \
    static_assert(sizeof(!DSPEC_IF_TEXT_(TYPE, 0, *(TYPE *)0)) > 0, "a field is a number or a text");                                                                        \
    static_assert(!DSPEC_IS_POINTER_(TYPE), "a pointer would be recorded as an address: for a text declare dspec_text32 and record dspec_text32_of(bytes, strlen(bytes)), for an address uintptr_t");

/* What a header over this one declares of each probe; dspec_tracer.h does. */
#ifndef DSPEC_PROBE_MORE_
#define DSPEC_PROBE_MORE_(PROBE, ...)
#endif

/* A declaration that can't be is one line of the compiler. Which form it has: by the number of words, and by whether a name is a macro in parentheses, as errno is. */
#define DSPEC_PROBE_NO_FIELD_(...) static_assert(0, "DSPEC_PROBE(probe, type, field, ..): a probe has one field at least")
#define DSPEC_PROBE_NO_NAME_(...) static_assert(0, "DSPEC_PROBE(probe, type, field, ..): each field is a type and a name")
#define DSPEC_PROBE_TOO_MANY_(...) static_assert(0, "DSPEC_PROBE(probe, type, field, ..): a probe has eight fields at most: move the others to a second probe")
#define DSPEC_PROBE_MACRO_NAME_(...) static_assert(0, "DSPEC_PROBE(probe, type, field, ..): a field's name is a macro, as errno is: give it another name")
#define DSPEC_PROBE_COMMA_(...) ,
#define DSPEC_PROBE_IS_MACRO_(PROBE, TYPE, NAME) DSPEC_PROBE_COMMA_ NAME
#define DSPEC_PROBE_NAMES_FORM_(A1, A2, A3, A4, A5, A6, A7, A8, A9, FORM, ...) FORM
#define DSPEC_PROBE_BY_NAMES_(...)                                                                                                                             \
    DSPEC_PROBE_NAMES_FORM_(__VA_ARGS__, DSPEC_PROBE_MACRO_NAME_, DSPEC_PROBE_MACRO_NAME_, DSPEC_PROBE_MACRO_NAME_, DSPEC_PROBE_MACRO_NAME_, DSPEC_PROBE_MACRO_NAME_, \
                            DSPEC_PROBE_MACRO_NAME_, DSPEC_PROBE_MACRO_NAME_, DSPEC_PROBE_MACRO_NAME_, DSPEC_PROBE_DECLARE_, 0)
#define DSPEC_PROBE_NAMED_(PROBE, ...) DSPEC_PROBE_BY_NAMES_(DSPEC_PROBE_EACH_(DSPEC_PROBE_IS_MACRO_, PROBE, __VA_ARGS__))(PROBE, __VA_ARGS__)
#define DSPEC_PROBE_FORM_(A1, A2, A3, A4, A5, A6, A7, A8, A9, A10, A11, A12, A13, A14, A15, A16, A17, A18, A19, A20, A21, A22, A23, A24, A25, A26, A27, A28, A29, A30, A31, A32, A33, FORM, ...) FORM
#define DSPEC_PROBE(...)                                                                                                                                       \
    DSPEC_PROBE_FORM_(__VA_ARGS__, DSPEC_PROBE_TOO_MANY_, DSPEC_PROBE_TOO_MANY_, DSPEC_PROBE_TOO_MANY_, DSPEC_PROBE_TOO_MANY_, DSPEC_PROBE_TOO_MANY_,           \
                      DSPEC_PROBE_TOO_MANY_, DSPEC_PROBE_TOO_MANY_, DSPEC_PROBE_TOO_MANY_, DSPEC_PROBE_TOO_MANY_, DSPEC_PROBE_TOO_MANY_, DSPEC_PROBE_TOO_MANY_, \
                      DSPEC_PROBE_TOO_MANY_, DSPEC_PROBE_TOO_MANY_, DSPEC_PROBE_TOO_MANY_, DSPEC_PROBE_TOO_MANY_, DSPEC_PROBE_TOO_MANY_, DSPEC_PROBE_NAMED_,   \
                      DSPEC_PROBE_NO_NAME_, DSPEC_PROBE_NAMED_, DSPEC_PROBE_NO_NAME_, DSPEC_PROBE_NAMED_, DSPEC_PROBE_NO_NAME_, DSPEC_PROBE_NAMED_,            \
                      DSPEC_PROBE_NO_NAME_, DSPEC_PROBE_NAMED_, DSPEC_PROBE_NO_NAME_, DSPEC_PROBE_NAMED_, DSPEC_PROBE_NO_NAME_, DSPEC_PROBE_NAMED_,            \
                      DSPEC_PROBE_NO_NAME_, DSPEC_PROBE_NAMED_, DSPEC_PROBE_NO_NAME_, DSPEC_PROBE_NO_FIELD_, 0)                                                \
    (__VA_ARGS__)

#define DSPEC_PROBE_DECLARE_(PROBE, ...)                                                                                                                                            \
    typedef struct PROBE##_probe {                                                                                                                                         \
        uint32_t epid, fields;                                                                                                                                             \
    } PROBE##_probe;                                                                                                                                                       \
    typedef struct PROBE##_values {                                                                                                                                        \
        DSPEC_PROBE_EACH_(DSPEC_PROBE_FIELD_, PROBE, __VA_ARGS__)                                                                                                          \
    } PROBE##_values;                                                                                                                                                      \
    DSPEC_PROBE_EACH_(DSPEC_PROBE_LABELS_, PROBE, __VA_ARGS__)                                                                                                             \
    DSPEC_PROBE_CALL_ dspec_status PROBE##_enable(PROBE##_probe *dspec_probe_, dspec_layout *dspec_layout_, dspec_schema *dspec_schema_) {                                 \
        static const uint8_t dspec_widths_[] = { DSPEC_PROBE_EACH_(DSPEC_PROBE_WIDTH_, PROBE, __VA_ARGS__) };                                                              \
        DSPEC_PROBE_EACH_(DSPEC_PROBE_ASSERT_, PROBE, __VA_ARGS__)                                                                                                         \
        static_assert((0 DSPEC_PROBE_EACH_(DSPEC_PROBE_COUNT_, PROBE, __VA_ARGS__)) <= DSPEC_MAX_FIELDS, "a record has eight fields; a text is one for each eight bytes"); \
        return dspec_probe_enable(dspec_layout_, dspec_schema_, dspec_widths_, sizeof dspec_widths_, &dspec_probe_->epid, &dspec_probe_->fields);                          \
    }                                                                                                                                                                      \
    DSPEC_PROBE_CALL_ dspec_status PROBE##_trace(const PROBE##_probe *dspec_probe_, dspec_cpu *dspec_cpu_, uint64_t dspec_stamp_                                           \
                                             DSPEC_PROBE_EACH_(DSPEC_PROBE_ARGUMENT_, PROBE, __VA_ARGS__)) {                                                               \
        const uint64_t dspec_claim_ = (uint64_t)dspec_probe_->fields << 32 | dspec_probe_->epid;                                                                           \
        uint64_t dspec_words_[9] = { 0 };                                                                                                                                  \
        size_t dspec_end_ = 4;                                                                                                                                             \
        DSPEC_PROBE_EACH_(DSPEC_PROBE_PACK_, PROBE, __VA_ARGS__)                                                                                                           \
        switch ((dspec_end_ + 7) / 8) {                                                                                                                                    \
        case 1: return dspec_put_1(dspec_cpu_, dspec_claim_, dspec_stamp_, dspec_words_[0]);                                                                               \
        case 2: return dspec_put_2(dspec_cpu_, dspec_claim_, dspec_stamp_, dspec_words_[0], dspec_words_[1]);                                                              \
        case 3: return dspec_put_3(dspec_cpu_, dspec_claim_, dspec_stamp_, dspec_words_[0], dspec_words_[1], dspec_words_[2]);                                             \
        default: return dspec_put(dspec_cpu_, dspec_claim_, dspec_stamp_, dspec_words_, (dspec_end_ + 7) / 8);                                                             \
        }                                                                                                                                                                  \
    }                                                                                                                                                                      \
    DSPEC_PROBE_CALL_ dspec_status PROBE##_speculate(const PROBE##_probe *dspec_probe_, dspec_cpu *dspec_cpu_, uint64_t dspec_id_, uint64_t dspec_stamp_                   \
                                             DSPEC_PROBE_EACH_(DSPEC_PROBE_ARGUMENT_, PROBE, __VA_ARGS__)) {                                                               \
        const uint64_t dspec_claim_ = (uint64_t)dspec_probe_->fields << 32 | dspec_probe_->epid;                                                                           \
        uint64_t dspec_words_[9] = { 0 };                                                                                                                                  \
        size_t dspec_end_ = 4;                                                                                                                                             \
        DSPEC_PROBE_EACH_(DSPEC_PROBE_PACK_, PROBE, __VA_ARGS__)                                                                                                           \
        switch ((dspec_end_ + 7) / 8) {                                                                                                                                    \
        case 1: return dspec_put_in_1(dspec_cpu_, dspec_id_, dspec_claim_, dspec_stamp_, dspec_words_[0]);                                                                 \
        case 2: return dspec_put_in_2(dspec_cpu_, dspec_id_, dspec_claim_, dspec_stamp_, dspec_words_[0], dspec_words_[1]);                                                \
        case 3: return dspec_put_in_3(dspec_cpu_, dspec_id_, dspec_claim_, dspec_stamp_, dspec_words_[0], dspec_words_[1], dspec_words_[2]);                               \
        default: return dspec_put_in(dspec_cpu_, dspec_id_, dspec_claim_, dspec_stamp_, dspec_words_, (dspec_end_ + 7) / 8);                                               \
        }                                                                                                                                                                  \
    }                                                                                                                                                                      \
    DSPEC_PROBE_CALL_ bool PROBE##_read(const PROBE##_probe *dspec_probe_, const dspec_record *dspec_record_, PROBE##_values *dspec_values_) {                             \
        size_t dspec_at_ = 0;                                                                                                                                              \
        if (dspec_record_->epid != dspec_probe_->epid) return false;                                                                                                       \
        DSPEC_PROBE_EACH_(DSPEC_PROBE_BACK_, PROBE, __VA_ARGS__)                                                                                                           \
        return true;                                                                                                                                                       \
    }                                                                                                                                                                      \
    DSPEC_PROBE_CALL_ void PROBE##_name(dspec_names *dspec_names_) {                                                                                                       \
        dspec_names_event(dspec_names_, #PROBE);                                                                                                                           \
        DSPEC_PROBE_EACH_(DSPEC_PROBE_KIND_, PROBE, __VA_ARGS__)                                                                                                           \
    }                                                                                                                                                                      \
    DSPEC_PROBE_MORE_(PROBE, __VA_ARGS__)                                                                                                                                  \
    static_assert(sizeof(PROBE##_probe) == 8, "a probe is its EPID and its fields' widths")

#endif
