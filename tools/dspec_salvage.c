/* dspec_salvage.c: the program dspec-salvage: what a tracer had that was killed, as traces (dspec_salvage of dspec_tracer.h). */
#include "dspec_tracer.h"

#include <inttypes.h>
#include <stdio.h>
#include <string.h>

enum { IS_WHOLE = 0, IS_NOT_WHOLE = 1, IS_NO_CALL = 2 };

static const char help[] = "usage: dspec-salvage FILE FOLDER\n"
                           "\n"
                           "Reads FILE, the memory of a tracer that was started with `survive` and was killed: NAME-memory beside the trace's folder NAME, or NAME-memory-1 and so on,\n"
                           "where a later start put it aside. It writes two traces: FOLDER/kept has the records that were kept and aren't in NAME; FOLDER/undecided, where paths were\n"
                           "open, has those. babeltrace2 NAME FOLDER/kept shows all that was kept.\n"
                           "\n"
                           "A file is read once, and by the build of the library that made it. While a process uses it a copy can be read: cp NAME-memory now; dspec-salvage now FOLDER\n"
                           "shows in FOLDER/undecided what the process is doing.\n"
                           "\n"
                           "  --help      this text\n"
                           "  --version   the library's version\n"
                           "\n"
                           "Status: 0 all was read and written; 1 not all, and the reason is told; 2 other words.\n";

/* Names come from the file, and may have any bytes: what isn't shown is a question mark. */
static void clean(char *text) {
    for (; *text != 0; text++)
        if ((unsigned char)*text < ' ' || (unsigned char)*text > '~') *text = '?';
}

static const char *ending(uint64_t count) { return count == 1 ? "" : "s"; }

static void say(const dspec_salvaged *told, const char *folder) {
    printf("run: %s\n", told->folder);
    printf("%s/kept: %" PRIu64 " record%s kept that the run's folder doesn't have\n", folder, told->kept, ending(told->kept));
    if (told->paths > 0)
        printf("%s/undecided: %" PRIu64 " open path%s of %" PRIu64 " record%s\n", folder, told->paths, ending(told->paths), told->undecided, ending(told->undecided));
    else printf("no path was open\n");
    if (told->lost > 0) printf("lost: %" PRIu64 " record%s that the run itself couldn't write\n", told->lost, ending(told->lost));
    if (told->not_written > 0) printf("not written: %" PRIu64 " record%s; FILE can be read once more, into another folder\n", told->not_written, ending(told->not_written));
    if (told->unsure > 0) printf("perhaps twice: %" PRIu64 " record%s of %s/kept may be in the run's folder too\n", told->unsure, ending(told->unsure), folder);
    printf("lanes: %u, of which %u were in a call and %u can't be read\n", (unsigned)told->lanes, (unsigned)told->in_call, (unsigned)told->unreadable);
}

int main(int count, char **words) {
    static dspec_salvaged told;
    bool is_whole;
    if (count == 2 && strcmp(words[1], "--help") == 0) return fputs(help, stdout) < 0 || fflush(stdout) != 0;
    if (count == 2 && strcmp(words[1], "--version") == 0) return printf("dspec-salvage %s\n", dspec_version_text()) < 0 || fflush(stdout) != 0;
    if (count == 4 && strcmp(words[1], "--") == 0) words++;
    else if (count != 3 || words[1][0] == '-') {
        fprintf(stderr, "usage: dspec-salvage FILE FOLDER, or --help\n");
        return IS_NO_CALL;
    }
    is_whole = dspec_salvage(words[1], words[2], &told);
    clean(told.folder);
    clean(told.why);
    if (told.lanes > 0) say(&told, words[2]);
    if (!is_whole) fprintf(stderr, "dspec-salvage: %s\n", told.why);
    return is_whole ? IS_WHOLE : IS_NOT_WHOLE;
}
