/* The encoder of WebAssembly components, for C: from the text of one component to its binary.
 *
 * Link libwast.a, which `./wast library FOLDER` makes. It is for 64-bit x86 and glibc.
 *
 * Every function writes what it makes to a buffer of its caller's, and answers a status. No pointer is null but that of a text or a buffer of
 * length 0. What pointers lead to doesn't overlap. A call takes memory by malloc and gives all of it back; it keeps nothing, so calls may be made
 * from any thread, but not from a signal handler. That each call returns, stays within its buffers and answers what is said here is proved
 * (crates/wast_c); that this file and the caller agree with the library is not.
 */
#ifndef WAST_H
#define WAST_H

#include <stddef.h>
#include <stdint.h>

#ifdef __cplusplus
extern "C" {
#endif

/* What a function answers. */
enum wast_status {
    WAST_DONE = 0,      /* what was asked for is written */
    WAST_REFUSED = 1,   /* the text is refused: `*why` says why, and where */
    WAST_TOO_SHORT = 2, /* the buffer is too short: `*needed` is the length that is needed */
    WAST_NOT_UTF8 = 3,  /* the text isn't UTF-8: `why->offset` is the length of its longest front that is, and `why->kind` is 0 */
    WAST_NO_MEMORY = 4, /* memory ran out */
    WAST_BAD_FLAGS = 5, /* flags that aren't defined */
    WAST_NO_KIND = 6    /* no refusal has this kind */
};

/* Flags of a text; 0 for none. */
enum wast_flags {
    WAST_LEGACY = 1 /* references to core items are read in their older forms too */
};

/* Why a text is refused. docs/REFUSALS.md has the causes and the offsets, by the names that wast_kind_name gives. */
enum wast_kind {
    WAST_TOO_BIG = 1,
    WAST_PARSE = 2,
    WAST_TOO_DEEP = 3,
    WAST_MODULE = 4,
    WAST_DUPLICATE = 5,
    WAST_UNKNOWN = 6,
    WAST_OUTER_KIND = 7,
    WAST_OUTER_COMPONENT = 8,
    WAST_OUTER_COUNT = 9,
    WAST_CORE_EXPORT_KIND = 10,
    WAST_FAILED = 11, /* no call answers it yet */
    WAST_LEX_UNCLOSED_STRING = 17,
    WAST_LEX_BAD_STRING_CHAR = 18,
    WAST_LEX_BAD_ESCAPE = 19,
    WAST_LEX_UNCLOSED_COMMENT = 20,
    WAST_LEX_BAD_CHAR = 21,
    WAST_LEX_EMPTY_ID = 22,
    WAST_LEX_BAD_ID_TEXT = 23,
    WAST_LEX_GLUED = 24,
    WAST_FORM_U1 = 33,
    WAST_FORM_U2 = 34,
    WAST_FORM_U3 = 35,
    WAST_FORM_U4 = 36,
    WAST_FORM_U5 = 37,
    WAST_FORM_U6 = 38,
    WAST_FORM_U7 = 39,
    WAST_CORE_DUPLICATE = 49,
    WAST_CORE_UNKNOWN = 50,
    WAST_CORE_IMPORT_ORDER = 51,
    WAST_CORE_TYPE_MISMATCH = 52
};

/* Why a text is refused, and where. */
struct wast_refusal {
    uint32_t kind;   /* an `enum wast_kind`, or 0 */
    uint64_t offset; /* in bytes from the beginning of the text */
    uint64_t found;  /* by WAST_TOO_BIG the length in bytes or the weight, else 0 */
    uint64_t limit;  /* by WAST_TOO_BIG the limit that it passes, else 0 */
};

/* Writes the binary of the component that a text spells.
 *
 * In:  `text`, the text of one component in UTF-8, `text_length` bytes; `flags`, 0 or WAST_LEGACY; `out`, room for `out_length` bytes.
 * Out: WAST_DONE: the binary stands in the first `*needed` bytes of `out`, and those behind them stay as they were.
 *      WAST_TOO_SHORT: `*needed` is the length of the binary, and more than `out_length`.
 *      WAST_REFUSED, WAST_NOT_UTF8: `*why` is written.
 *      WAST_NO_MEMORY, WAST_BAD_FLAGS.
 * What isn't named beside a status stays as it was, so the buffer holds nothing new but by WAST_DONE.
 */
uint8_t wast_encode(const uint8_t *text, size_t text_length, uint32_t flags, uint8_t *out, size_t out_length, size_t *needed,
                    struct wast_refusal *why);

/* Writes where each definition of a text's binary comes from: a line for each, in order, those inside a definition below it and two spaces
 * further to the right (docs/SCOPES.md). In and out as with wast_encode. */
uint8_t wast_origins(const uint8_t *text, size_t text_length, uint32_t flags, uint8_t *out, size_t out_length, size_t *needed,
                     struct wast_refusal *why);

/* Writes the printed name of a kind of refusal, such as "Unknown", without a zero byte behind it.
 *
 * In:  `kind`, an `enum wast_kind`; `out`, room for `out_length` bytes.
 * Out: WAST_DONE: the name stands in the first `*needed` bytes of `out`, and those behind them stay as they were.
 *      WAST_TOO_SHORT: `*needed` is its length.
 *      WAST_NO_KIND: no kind with a name has this number.
 */
uint8_t wast_kind_name(uint32_t kind, uint8_t *out, size_t out_length, size_t *needed);

/* Writes what is wrong in plain words, in UTF-8 without a zero byte behind them.
 *
 * In:  `why`, as wast_encode or wast_origins left it by WAST_REFUSED; `out`, room for `out_length` bytes.
 * Out: WAST_DONE: the words stand in the first `*needed` bytes of `out`, and those behind them stay as they were.
 *      WAST_TOO_SHORT: `*needed` is their length.
 *      WAST_NO_KIND: no refusal has this kind, or its offset is 2^32 or more.
 *      WAST_NO_MEMORY.
 */
uint8_t wast_message(const struct wast_refusal *why, uint8_t *out, size_t out_length, size_t *needed);

#ifdef __cplusplus
}
#endif

#endif
