/* Encodes the text on standard input: prints its binary in hexadecimal, or with the word `origins` the lines of its origins; of a text that is
 * refused the kind, the offset and what is wrong. Exit code: that of the status. */
#include "wast.h"
#include <stdio.h>
#include <stdlib.h>
#include <string.h>

typedef uint8_t call(const uint8_t *, size_t, uint32_t, uint8_t *, size_t, size_t *, struct wast_refusal *);

static uint8_t text[1 << 20];

static void explain(uint8_t status, const struct wast_refusal *why) {
    uint8_t name[32], words[256];
    size_t name_length = 0, words_length = 0;
    if (status == WAST_REFUSED && wast_kind_name(why->kind, name, sizeof name, &name_length) == WAST_DONE &&
        wast_message(why, words, sizeof words, &words_length) == WAST_DONE) {
        fprintf(stderr, "%.*s at %llu: %.*s\n", (int)name_length, (const char *)name, (unsigned long long)why->offset, (int)words_length,
                (const char *)words);
    } else if (status == WAST_NOT_UTF8) {
        fprintf(stderr, "not UTF-8 behind byte %llu\n", (unsigned long long)why->offset);
    } else {
        fprintf(stderr, "status %d\n", status);
    }
}

int main(int count, char **words) {
    int origins = count > 1 && strcmp(words[1], "origins") == 0;
    call *made = origins ? wast_origins : wast_encode;
    size_t length = fread(text, 1, sizeof text, stdin), needed = 0;
    struct wast_refusal why = {0, 0, 0, 0};
    uint8_t *out = NULL;
    /* Without a buffer the call says how much is needed. */
    uint8_t status = made(text, length, 0, NULL, 0, &needed, &why);
    if (status == WAST_TOO_SHORT) {
        out = malloc(needed);
        status = out ? made(text, length, 0, out, needed, &needed, &why) : WAST_NO_MEMORY;
    }
    if (status != WAST_DONE) {
        explain(status, &why);
    } else if (origins) {
        fwrite(out, 1, needed, stdout);
    } else {
        for (size_t at = 0; at < needed; at++) printf("%02x", out[at]);
        printf("\n");
    }
    free(out);
    return status;
}
