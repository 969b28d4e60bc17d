/* Names of events and fields: what dspec_names.h tells as not allowed is what the library refuses. `names WORD ..`, all words that the library keeps for the
 * metadata's language. */
#include "dspec_ctf.h"

#include "check.h"

static const dspec_identity identity = { .uuid = { 1 }, .pid = 77, .hertz = 1000, .host = { "here", 4 }, .name = { "server", 6 } };

/* The library's answer to these names of a schema with two events, of two fields and of one. */
static dspec_status answered(const dspec_names *names) {
    static uint8_t room[8192];
    dspec_schema schema = DSPEC_EMPTY;
    uint32_t epid;
    size_t needed = 0;
    dspec_status status;
    MUST(dspec_schema_new(&schema));
    MUST(dspec_schema_stamp(&schema));
    MUST(dspec_schema_enable(&schema, (const uint8_t[]){ 4, 4 }, 2, &epid));
    MUST(dspec_schema_enable(&schema, (const uint8_t[]){ 4 }, 1, &epid));
    status = dspec_ctf_metadata(&schema, &identity, names->texts, names->count, names->kinds, names->kind_count, room, sizeof room, &needed);
    dspec_schema_drop(&schema);
    return status;
}

/* Five names of such a schema, of which this one is refused for this reason; none where the place is 5. */
static void refuses(const char *const five[5], size_t place, const char *why) {
    static dspec_names names;
    size_t at = 5;
    const char *told;
    memset(&names, 0, sizeof names);
    dspec_names_event(&names, five[0]);
    dspec_names_field(&names, five[1], DSPEC_KIND_UNSIGNED);
    dspec_names_field(&names, five[2], DSPEC_KIND_UNSIGNED);
    dspec_names_event(&names, five[3]);
    dspec_names_field(&names, five[4], DSPEC_KIND_UNSIGNED);
    told = dspec_names_refused(&names, &at);
    if (!CHECK(at == place && (place == 5) == (told == NULL) && (told == NULL || strstr(told, why) != NULL))) printf("%s %s %s %s %s\n", five[0], five[1], five[2], five[3], five[4]);
    ANSWERS(answered(&names), place == 5 ? DSPEC_OK : DSPEC_BAD_NAME);
}

/* A word at each place, which is refused for this reason, or isn't where that is NULL. */
static void word(const char *name, const char *why) {
    for (size_t place = 0; place < 5; place++) {
        const char *five[5] = { "one", "first", "second", "other", "first" };
        five[place] = name;
        refuses(five, why == NULL ? 5 : place, why);
    }
}

static void words(int count, char **reserved) {
    char longest[257];
    memset(longest, 'x', sizeof longest);
    longest[256] = 0;
    word(longest, "255");
    longest[255] = 0;
    word(longest, NULL);
    for (int i = 0; i < count; i++) {
        char more[64];
        word(reserved[i], "keeps for itself");
        snprintf(more, sizeof more, "%s_", reserved[i]);
        word(more, NULL);
    }
    word("stamp", NULL);
    word("_9", NULL);
    word("Event", NULL);
    word("", "letter");
    word("9a", "letter");
    word("a b", "letter");
    word("a.b", "letter");
    word("\xc3\xa9", "letter");
}

/* The same name twice, of events, of fields of one event and of two, of an event and a field. */
static void twice(void) {
    refuses((const char *const[]){ "one", "first", "first", "other", "first" }, 2, "another");
    refuses((const char *const[]){ "one", "first", "second", "one", "first" }, 3, "another");
    refuses((const char *const[]){ "one", "first", "second", "other", "second" }, 5, NULL);
    refuses((const char *const[]){ "one", "one", "other", "other", "other" }, 5, NULL);
}

/* What dspec_folder_begin tells, of whose schema the second name is none. */
static void folder_tells(void) {
    static dspec_folder folder;
    static dspec_names names;
    dspec_schema schema = DSPEC_EMPTY;
    uint32_t epid;
    MUST(dspec_schema_new(&schema));
    MUST(dspec_schema_stamp(&schema));
    MUST(dspec_schema_enable(&schema, (const uint8_t[]){ 4 }, 1, &epid));
    dspec_names_event(&names, "step");
    dspec_names_field(&names, "event", DSPEC_KIND_UNSIGNED);
    CHECK(!dspec_folder_begin(&folder, "/no/such/folder", &schema, 1, &identity, &names) && folder.last.status == DSPEC_BAD_NAME);
    CHECK(folder.last.name.len == 5 && memcmp(folder.last.name.bytes, "event", 5) == 0);
    CHECK(strcmp(dspec_folder_why(&folder), "event: a word that the trace's metadata keeps for itself") == 0);
    names.texts[1].bytes = "steps";
    CHECK(!dspec_folder_begin(&folder, "/no/such/folder", &schema, 1, &identity, &names) && folder.last.why == NULL);
    CHECK(strcmp(dspec_folder_why(&folder), "No such file or directory") == 0);
    CHECK(!dspec_folder_begin(&folder, "/no/such/folder", &schema, 0, &identity, &names) && strcmp(dspec_folder_why(&folder), "cpus is not 1 to 64") == 0);
    dspec_schema_drop(&schema);
}

int main(int argc, char **argv) {
    if (argc < 2) return 2;
    words(argc - 1, argv + 1);
    twice();
    folder_tells();
    return check_end();
}
