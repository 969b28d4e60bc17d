/* fuzz_traceparent.c: the header `traceparent`. */
#include "fuzz.h"

#include "dspec_traceparent.h"

int LLVMFuzzerInitialize(int *count, char ***words) { return (void)count, (void)words, 0; }

/* What a header looks like: x is a digit. */
static const char form[] = "xx-xxxxxxxxxxxxxxxxxxxxxxxxxxxxxxxx-xxxxxxxxxxxxxxxx-xx";
enum { LENGTH = sizeof form - 1 };

/* By the characters alone. */
static bool is_header(const char *text, size_t size) {
    if (size < LENGTH) return false;
    for (size_t i = 0; i < LENGTH; i++)
        if (form[i] == '-' ? text[i] != '-' : memchr("0123456789abcdef", text[i], 16) == NULL) return false;
    if (memcmp(text, "ff", 2) == 0 || memcmp(text + 3, "00000000000000000000000000000000", 32) == 0 || memcmp(text + 36, "0000000000000000", 16) == 0) return false;
    return size == LENGTH || (memcmp(text, "00", 2) != 0 && text[LENGTH] == '-');
}

/* What is read is written as it was, but for the version and the flags that are reserved. */
static void is_written_again(const char *text, const dspec_traceparent *read) {
    char written[DSPEC_TRACEPARENT_SIZE];
    MUST(dspec_traceparent_format(read, written) && strlen(written) == LENGTH);
    MUST(memcmp(written, "00", 2) == 0 && memcmp(written + 2, text + 2, LENGTH - 4) == 0);
    MUST(written[LENGTH - 2] == '0' && written[LENGTH - 1] == ((strchr("13579bdf", text[LENGTH - 1]) != NULL) ? '1' : '0'));
}

int LLVMFuzzerTestOneInput(const uint8_t *data, size_t size) {
    char *text = (char *)copy_of(data, size);
    dspec_traceparent read;
    const bool is_one = dspec_traceparent_parse(text, size, &read);
    MUST(is_one == is_header(text, size));
    if (is_one) is_written_again(text, &read);
    free(text);
    return 0;
}
