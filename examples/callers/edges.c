/* What wast.h says of statuses, and of what stays as it was: prints a line for each that isn't so, and ends with 1 where there is one. */
#include "wast.h"
#include <stdio.h>
#include <string.h>

static int failed = 0;

#define EXPECT(what)                                    \
    do {                                                \
        if (!(what)) {                                  \
            printf("edges.c:%d: %s\n", __LINE__, #what); \
            failed = 1;                                 \
        }                                               \
    } while (0)

static const uint8_t empty[] = "(component)";
static const uint8_t fresh[64] = {0xee, 0xee, 0xee, 0xee, 0xee, 0xee, 0xee, 0xee, 0xee, 0xee};

static uint8_t out[64];
static size_t needed;
static struct wast_refusal why;

static void renew(void) {
    memcpy(out, fresh, sizeof out);
    needed = 77;
    why = (struct wast_refusal){7, 7, 7, 7};
}

static int why_is(uint32_t kind, uint64_t offset) { return why.kind == kind && why.offset == offset && why.found == 0 && why.limit == 0; }

static int is_kept(void) { return memcmp(out, fresh, sizeof out) == 0; }

static int why_is_kept(void) { return why.kind == 7 && why.offset == 7 && why.found == 7 && why.limit == 7; }

static uint8_t encode(const uint8_t *text, size_t length, uint32_t flags, size_t room) {
    renew();
    return wast_encode(text, length, flags, out, room, &needed, &why);
}

static void texts(void) {
    static const uint8_t binary[] = {0x00, 0x61, 0x73, 0x6d, 0x0d, 0x00, 0x01, 0x00};
    static const uint8_t bad[] = {'(', 0xff, ')'};
    EXPECT(encode(empty, 11, 0, 64) == WAST_DONE && needed == 8 && why_is_kept());
    EXPECT(memcmp(out, binary, 8) == 0 && memcmp(out + 8, fresh + 8, 56) == 0);
    EXPECT(encode(empty, 11, WAST_LEGACY, 8) == WAST_DONE && needed == 8);
    EXPECT(encode(empty, 11, 0, 7) == WAST_TOO_SHORT && needed == 8 && is_kept() && why_is_kept());
    EXPECT(encode(empty, 10, 0, 64) == WAST_REFUSED && why_is(WAST_PARSE, 10) && is_kept() && needed == 77);
    EXPECT(encode(NULL, 0, 0, 64) == WAST_REFUSED && why_is(WAST_PARSE, 0) && is_kept());
    EXPECT(encode(bad, 3, 0, 64) == WAST_NOT_UTF8 && why_is(0, 1) && is_kept() && needed == 77);
    EXPECT(encode(empty, 11, 2, 64) == WAST_BAD_FLAGS && is_kept() && needed == 77 && why_is_kept());
    renew();
    EXPECT(wast_encode(empty, 11, 0, NULL, 0, &needed, &why) == WAST_TOO_SHORT && needed == 8);
    EXPECT(wast_origins(empty, 11, 0, NULL, 0, &needed, &why) == WAST_DONE && needed == 0);
}

static void kinds(void) {
    struct wast_refusal none = {99, 0, 0, 0}, far = {WAST_PARSE, (uint64_t)1 << 32, 0, 0}, big = {WAST_TOO_BIG, 0, 67108865, 67108864};
    uint32_t kind;
    int named = 0;
    renew();
    for (kind = 0; kind < 100; kind++) named += wast_kind_name(kind, out, 64, &needed) == WAST_DONE;
    EXPECT(named == 30);
    renew();
    EXPECT(wast_kind_name(WAST_LEX_GLUED, out, 64, &needed) == WAST_DONE && needed == 9 && memcmp(out, "Lex-Glued", 9) == 0 && out[9] == fresh[9]);
    renew();
    EXPECT(wast_kind_name(WAST_LEX_GLUED, out, 8, &needed) == WAST_TOO_SHORT && needed == 9 && is_kept());
    renew();
    EXPECT(wast_kind_name(0, out, 64, &needed) == WAST_NO_KIND && needed == 77 && is_kept());
    EXPECT(wast_message(&none, out, 64, &needed) == WAST_NO_KIND && needed == 77 && is_kept());
    EXPECT(wast_message(&far, out, 64, &needed) == WAST_NO_KIND && needed == 77 && is_kept());
    EXPECT(wast_message(&big, out, 8, &needed) == WAST_TOO_SHORT && needed > 8 && is_kept());
}

int main(void) {
    texts();
    kinds();
    return failed;
}
