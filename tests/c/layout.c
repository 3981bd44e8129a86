/* The layout of every struct of the header: each field's type, place and size, and the struct's own size. Compiling is the
 * test. The library's side is held to the same layout by the tests in Rust, which read each field of each answer. */
#include "smirrado.h"

#define STRUCT(type, bytes, alignment) \
    _Static_assert(sizeof(struct type) == (bytes) && _Alignof(struct type) == (alignment), #type)

/* An array shows itself as a pointer to its elements. */
#define FIELD(type, field, kind, at, bytes) \
    _Static_assert(_Generic(((struct type *)0)->field, kind: 1, default: 0), #type "." #field ": type"); \
    _Static_assert(offsetof(struct type, field) == (at), #type "." #field ": place"); \
    _Static_assert(sizeof((struct type *)0)->field == (bytes), #type "." #field ": size")

_Static_assert(sizeof(size_t) == 8, "a count has 64 bits");

STRUCT(smirrado_make_reply, 12, 4);
FIELD(smirrado_make_reply, number, uint32_t, 0, 4);
FIELD(smirrado_make_reply, detail, uint32_t, 4, 4);
FIELD(smirrado_make_reply, length, uint32_t, 8, 4);

STRUCT(smirrado_row_reply, 12, 4);
FIELD(smirrado_row_reply, number, uint32_t, 0, 4);
FIELD(smirrado_row_reply, detail, uint32_t, 4, 4);
FIELD(smirrado_row_reply, starts, uint8_t, 8, 1);
FIELD(smirrado_row_reply, tick, uint8_t, 9, 1);

STRUCT(smirrado_listing_reply, 88, 4);
FIELD(smirrado_listing_reply, number, uint32_t, 0, 4);
FIELD(smirrado_listing_reply, detail, uint32_t, 4, 4);
FIELD(smirrado_listing_reply, jobs, uint32_t, 8, 4);
FIELD(smirrado_listing_reply, rows, uint32_t, 12, 4);
FIELD(smirrado_listing_reply, numbers, uint16_t *, 16, 64);
FIELD(smirrado_listing_reply, word, uint32_t, 80, 4);
FIELD(smirrado_listing_reply, starts, uint8_t, 84, 1);
FIELD(smirrado_listing_reply, tick, uint8_t, 85, 1);

STRUCT(smirrado_leeway_reply, 12, 4);
FIELD(smirrado_leeway_reply, number, uint32_t, 0, 4);
FIELD(smirrado_leeway_reply, detail, uint32_t, 4, 4);
FIELD(smirrado_leeway_reply, leeway, int32_t, 8, 4);

STRUCT(smirrado_step_reply, 8, 4);
FIELD(smirrado_step_reply, number, uint32_t, 0, 4);
FIELD(smirrado_step_reply, detail, uint32_t, 4, 4);

STRUCT(smirrado_engine_reply, 8, 4);
FIELD(smirrado_engine_reply, number, uint32_t, 0, 4);
FIELD(smirrado_engine_reply, detail, uint32_t, 4, 4);

STRUCT(smirrado_desk, 10, 1);
FIELD(smirrado_desk, now, uint8_t, 0, 1);
FIELD(smirrado_desk, elapsed, uint8_t, 1, 1);
FIELD(smirrado_desk, statuses, uint8_t *, 2, 8);
