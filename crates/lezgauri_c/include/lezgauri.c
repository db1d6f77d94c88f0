/*
 * The calls of lezgauri.h. Each tests the caller's pointers and lengths, and passes them on to an export of the library. The exports
 * take slices, so pointers must not be null, and memory that is written must not overlap other memory of the call.
 */
#include "lezgauri.h"

#include <stdatomic.h>
#include <stdbool.h>
#include <stdlib.h>
#include <string.h>

/* A function that is compiled into each of its callers, so that it costs only what that caller needs, and one that isn't, so that its
 * caller saves no registers for it. */
#ifdef __GNUC__
#define INLINED inline __attribute__((always_inline))
#define APART __attribute__((noinline))
#else
#define INLINED inline
#define APART
#endif

/* Memory that a call lends to the library: its start, the number of bytes in use, and its capacity in bytes. It is `Lent` of the
 * crate lezgauri_c. The library uses the memory in place, and sets the number of bytes in use. Only the calls that create, grow or
 * shrink a segment change the length of an image. */
typedef struct lent {
    uint8_t *at;
    size_t len;
    size_t room;
} lent;

/* A prepared client, or none. It is `Prepared` of the crate lezgauri_c. Only the library reads and writes what `at` points to. */
typedef struct kept {
    void *at;
    bool is_there;
} kept;

/* The types of a segment as calls on values and clients need them, or none. It is `KeptTypes` of the crate lezgauri_c: `count` is 1 or 0.
 * Only the library reads and writes what `at` points to. */
typedef struct kept_types {
    void *at;
    uint64_t count;
} kept_types;

/* Bytes of an image: a position and a length. It is `ByteRange` of the crate lezgauri_c. */
typedef struct raw_range {
    uint32_t at;
    uint32_t len;
} raw_range;

/* A named object: the position of its name in the image and the name's length, and the type and the number of its values. */
typedef struct raw_named {
    uint32_t at;
    uint32_t len;
    uint32_t type;
    uint32_t count;
} raw_named;

/* The exports of the library. A slice is a pointer, never null, and a length. */
uint32_t lezgauri_raw_check(const uint8_t *image, size_t len, lezgauri_fault *fault);
uint32_t lezgauri_raw_verify(const uint8_t *image, size_t len, const uint8_t *client, size_t client_len, uint64_t *bound,
                             lezgauri_fault *fault);
uint32_t lezgauri_raw_run(const uint8_t *image, size_t image_len, const lezgauri_bytes *clients, size_t count,
                          const uint8_t *input, size_t input_len, lent *output, uint8_t *saved, size_t saved_len,
                          lezgauri_report *reports, size_t reports_len, lezgauri_fault *fault);
uint32_t lezgauri_raw_create(lent *memory, uint32_t size, uint32_t allocator, uint32_t index);
uint32_t lezgauri_raw_grow(lent *image, uint32_t extra);
uint32_t lezgauri_raw_shrink(lent *image);
uint32_t lezgauri_raw_free_memory(lent *image, uint32_t *all, uint32_t *largest);
void lezgauri_raw_client_close(kept *prepared);
uint32_t lezgauri_raw_types(const uint8_t *image, size_t len, uint8_t *entries, size_t entries_len, size_t *count);
uint32_t lezgauri_raw_assemble(const uint8_t *text, size_t text_len, uint8_t *file, size_t file_len, size_t *needed,
                               lezgauri_fault *fault);
uint32_t lezgauri_raw_print(const uint8_t *file, size_t file_len, uint8_t *text, size_t text_len, size_t *needed,
                            lezgauri_fault *fault);

/* The types of an image, for the exports below. */
uint32_t lezgauri_raw_open_types(const uint8_t *image, size_t len, kept_types *types);
void lezgauri_raw_close_types(kept_types *types);

/* The exports that prepare and run one client, with the types that lezgauri_raw_open_types read from the image. */
uint32_t lezgauri_raw_prepare(kept_types *types, const uint8_t *client, size_t client_len, kept *prepared, lezgauri_fault *fault);
uint32_t lezgauri_raw_run_client(lent *image, kept_types *types, kept *prepared, const uint8_t *input, size_t input_len, lent *output,
                                 lezgauri_report *report, lezgauri_fault *fault);
uint32_t lezgauri_raw_run_on(lent *image, kept_types *types, const uint8_t *client, size_t client_len, const uint8_t *input,
                             size_t input_len, lent *output, lezgauri_report *report, lezgauri_fault *fault);
uint32_t lezgauri_raw_run_whole(lent *image, kept_types *types, const uint8_t *client, size_t client_len, const uint8_t *input,
                                size_t input_len, lent *output, size_t *needed, lezgauri_report *report, lezgauri_fault *fault);

/* The exports that read values of an image, with the same types. */
uint32_t lezgauri_raw_find(const uint8_t *image, size_t len, kept_types *types, const uint8_t *name, size_t name_len, uint32_t type,
                           uint32_t index, lezgauri_place *place);
uint32_t lezgauri_raw_named_object(const uint8_t *image, size_t len, kept_types *types, const uint8_t *name, size_t name_len,
                                   raw_named *named);
uint32_t lezgauri_raw_next_name(const uint8_t *image, size_t len, kept_types *types, const uint8_t *after, size_t after_len,
                                raw_named *named);
uint32_t lezgauri_raw_find_unique(const uint8_t *image, size_t len, kept_types *types, uint32_t type, lezgauri_place *place);
uint32_t lezgauri_raw_load(const uint8_t *image, size_t len, kept_types *types, uint32_t at, uint32_t type, int64_t *number);
uint32_t lezgauri_raw_field(const uint8_t *image, size_t len, kept_types *types, uint32_t at, uint32_t type, uint32_t index,
                            lezgauri_place *field);
uint32_t lezgauri_raw_len(const uint8_t *image, size_t len, kept_types *types, uint32_t at, uint32_t type, uint32_t *count);
uint32_t lezgauri_raw_text(const uint8_t *image, size_t len, kept_types *types, uint32_t at, uint32_t type, raw_range *range);
uint32_t lezgauri_raw_numbers(const uint8_t *image, size_t len, kept_types *types, uint32_t at, uint32_t type, raw_range *range);
uint32_t lezgauri_raw_pairs(const uint8_t *image, size_t len, kept_types *types, uint32_t at, uint32_t type, raw_range *range);
uint32_t lezgauri_raw_item(const uint8_t *image, size_t len, kept_types *types, uint32_t at, uint32_t type, uint32_t index,
                           lezgauri_place *item);
uint32_t lezgauri_raw_next_item(const uint8_t *image, size_t len, kept_types *types, uint32_t at, uint32_t type, uint32_t item,
                                lezgauri_place *next);
uint32_t lezgauri_raw_previous_item(const uint8_t *image, size_t len, kept_types *types, uint32_t at, uint32_t type, uint32_t item,
                                    lezgauri_place *previous);
uint32_t lezgauri_raw_get(const uint8_t *image, size_t len, kept_types *types, uint32_t at, uint32_t type, int64_t key,
                          lezgauri_place *value);
uint32_t lezgauri_raw_first_key(const uint8_t *image, size_t len, kept_types *types, uint32_t at, uint32_t type, int64_t *key);
uint32_t lezgauri_raw_last_key(const uint8_t *image, size_t len, kept_types *types, uint32_t at, uint32_t type, int64_t *key);
uint32_t lezgauri_raw_next_key(const uint8_t *image, size_t len, kept_types *types, uint32_t at, uint32_t type, int64_t from,
                               int64_t *key);
uint32_t lezgauri_raw_previous_key(const uint8_t *image, size_t len, kept_types *types, uint32_t at, uint32_t type, int64_t from,
                                   int64_t *key);
uint32_t lezgauri_raw_first_entry(const uint8_t *image, size_t len, kept_types *types, uint32_t at, uint32_t type, int64_t *key,
                                  lezgauri_place *value);
uint32_t lezgauri_raw_last_entry(const uint8_t *image, size_t len, kept_types *types, uint32_t at, uint32_t type, int64_t *key,
                                 lezgauri_place *value);
uint32_t lezgauri_raw_next_entry(const uint8_t *image, size_t len, kept_types *types, uint32_t at, uint32_t type, int64_t from,
                                 int64_t *key, lezgauri_place *value);
uint32_t lezgauri_raw_previous_entry(const uint8_t *image, size_t len, kept_types *types, uint32_t at, uint32_t type, int64_t from,
                                     int64_t *key, lezgauri_place *value);
uint32_t lezgauri_raw_next_entries(const uint8_t *image, size_t len, kept_types *types, uint32_t at, uint32_t type, bool is_after,
                                   int64_t after, lezgauri_entry *entries, size_t room, size_t *count);
uint32_t lezgauri_raw_content(const uint8_t *image, size_t len, kept_types *types, uint32_t at, uint32_t type,
                              lezgauri_place *content);

/* The exports that change an image. All but the first two take the same types. */
uint32_t lezgauri_raw_add_types(lent *image, const uint8_t *entries, size_t len, lezgauri_fault *fault);
uint32_t lezgauri_raw_upgrade(lent *image);
uint32_t lezgauri_raw_construct(lent *image, kept_types *types, const uint8_t *name, size_t name_len, uint32_t type, uint32_t count,
                                lezgauri_place *place);
uint32_t lezgauri_raw_find_or_construct(lent *image, kept_types *types, const uint8_t *name, size_t name_len, uint32_t type,
                                        lezgauri_place *place);
uint32_t lezgauri_raw_destroy(lent *image, kept_types *types, const uint8_t *name, size_t name_len, uint32_t type);
uint32_t lezgauri_raw_construct_unique(lent *image, kept_types *types, uint32_t type, lezgauri_place *place);
uint32_t lezgauri_raw_find_or_construct_unique(lent *image, kept_types *types, uint32_t type, lezgauri_place *place);
uint32_t lezgauri_raw_destroy_unique(lent *image, kept_types *types, uint32_t type);
uint32_t lezgauri_raw_construct_anonymous(lent *image, kept_types *types, uint32_t type, lezgauri_place *place);
uint32_t lezgauri_raw_destroy_anonymous(lent *image, kept_types *types, uint32_t at);
uint32_t lezgauri_raw_store(uint8_t *image, size_t len, kept_types *types, uint32_t at, uint32_t type, int64_t number);
uint32_t lezgauri_raw_assign(lent *image, kept_types *types, uint32_t at, uint32_t type, const uint8_t *bytes, size_t len);
uint32_t lezgauri_raw_append(lent *image, kept_types *types, uint32_t at, uint32_t type, const uint8_t *bytes, size_t len);
uint32_t lezgauri_raw_push_back(lent *image, kept_types *types, uint32_t at, uint32_t type, lezgauri_place *item);
uint32_t lezgauri_raw_push_numbers(lent *image, kept_types *types, uint32_t at, uint32_t type, const void *numbers, size_t count,
                                   size_t *pushed);
uint32_t lezgauri_raw_push_front(lent *image, kept_types *types, uint32_t at, uint32_t type, lezgauri_place *item);
uint32_t lezgauri_raw_pop_back(lent *image, kept_types *types, uint32_t at, uint32_t type);
uint32_t lezgauri_raw_pop_front(lent *image, kept_types *types, uint32_t at, uint32_t type);
uint32_t lezgauri_raw_put(lent *image, kept_types *types, uint32_t at, uint32_t type, int64_t key, lezgauri_place *value);
uint32_t lezgauri_raw_put_numbers(lent *image, kept_types *types, uint32_t at, uint32_t type, const void *pairs, size_t count, size_t *put);
uint32_t lezgauri_raw_remove(lent *image, kept_types *types, uint32_t at, uint32_t type, int64_t key);
uint32_t lezgauri_raw_put_content(lent *image, kept_types *types, uint32_t at, uint32_t type, lezgauri_place *content);
uint32_t lezgauri_raw_clear(lent *image, kept_types *types, uint32_t at, uint32_t type);
uint32_t lezgauri_raw_shrink_to_fit(lent *image, kept_types *types, uint32_t at, uint32_t type);
uint32_t lezgauri_raw_freeze(lent *image, kept_types *types, uint32_t at, uint32_t type, uint32_t to_at, uint32_t to_type);
uint32_t lezgauri_raw_share(lent *image, kept_types *types, uint32_t at, uint32_t type, uint32_t to_at, uint32_t to_type);

/* The most bytes of an image. */
#define MOST_IMAGE ((size_t)1 << 30)

/* The position of a byte of the header that isn't 0, the type table, and the most bytes of a name (docs/FORMATS.md). */
enum { MAGIC_AT = 0, TABLE_AT = 64, TABLE_END = 576, MOST_NAME = 63 };

/* ---- the memory of a call */

/* A part of the caller's memory: a pointer and a length in bytes. */
typedef struct span {
    const void *at;
    size_t len;
} span;

/* All memory of a call except the files in a list of clients. The first `written` spans are written to. */
typedef struct memory {
    const span *spans;
    size_t count;
    size_t written;
} memory;

#define MEMORY(spans, written) ((memory){(spans), sizeof(spans) / sizeof *(spans), (written)})

/* In place of a null pointer with length 0. Aligned for each type of the calls. */
static const uint64_t empty_place[4] = {0};
static uint64_t empty_room[4];

static const void *or_empty(const void *at)
{
    return at != NULL ? at : empty_place;
}

static void *or_room(void *at)
{
    return at != NULL ? at : empty_room;
}

/* Whether a pointer is null or has this alignment, a power of two. */
static inline bool may_tell(const void *at, size_t align)
{
    return ((uintptr_t)at & (align - 1)) == 0;
}

/* Whether a pointer to `len` items of this size and alignment is allowed. */
static inline bool may_be(const void *at, size_t len, size_t size, size_t align)
{
    return len <= PTRDIFF_MAX / size && may_tell(at, align) && (at != NULL || len == 0);
}

static inline bool may_be_bytes(const void *at, size_t len)
{
    return may_be(at, len, 1, 1);
}

/* The span of `size` bytes, or an empty one if the pointer is null. */
static span one(const void *at, size_t size)
{
    return (span){at, at != NULL ? size : 0};
}

/* The span of an image. A call reads nothing of an image that is too long. */
static span image_at(const void *at, size_t len)
{
    return one(at, len < MOST_IMAGE ? len : MOST_IMAGE);
}

static bool overlap(span a, span b)
{
    uintptr_t start = (uintptr_t)a.at;
    uintptr_t other = (uintptr_t)b.at;
    return a.len > 0 && b.len > 0 && (start < other ? other - start < a.len : start - other < b.len);
}

/* Whether a call's memory might overlap other memory of it: false only if it doesn't. Exact unless one of the two is empty. A call with
 * few pieces of memory compares them by this function, since a comparison takes four instructions and no branch for empty pieces. */
static inline bool may_overlap(const void *at, size_t len, const void *other, size_t other_len)
{
    /* the positions where the memory would overlap the other begin len - 1 bytes before it */
    return (uintptr_t)at - (uintptr_t)other + (len - 1) < other_len + (len - 1);
}

/* Whether a span overlaps none of `count` others. */
static bool is_apart_from(span part, const span *others, size_t count)
{
    for (size_t i = 0; part.len > 0 && i < count; i++) {
        if (overlap(part, others[i])) {
            return false;
        }
    }
    return true;
}

/* Whether span `i` of a call overlaps no other span of the call. */
static bool is_apart(memory of, size_t i)
{
    span part = of.spans[i];
    return is_apart_from(part, of.spans, i) && is_apart_from(part, of.spans + i + 1, of.count - i - 1);
}

/* Whether each span that a call writes to overlaps no other span. Each span is compared with the written ones before it, and so each pair
 * once. */
static bool are_apart(memory of)
{
    for (size_t i = 1; i < of.count; i++) {
        if (!is_apart_from(of.spans[i], of.spans, i < of.written ? i : of.written)) {
            return false;
        }
    }
    return true;
}

/* ---- refusals */

/* Returns the number of a refusal before any image or client was read. Writes the fault too, unless it overlaps other memory of the
 * call. Span 0 of the call is the fault. */
static uint32_t refuse(uint32_t number, lezgauri_fault *fault, memory of)
{
    if (fault != NULL && may_tell(fault, _Alignof(lezgauri_fault)) && is_apart(of, 0)) {
        *fault = (lezgauri_fault){.client = LEZGAURI_NO_CLIENT, .number = number};
    }
    return number;
}

static void tell(lezgauri_fault *fault, const lezgauri_fault *told)
{
    if (fault != NULL) {
        *fault = *told;
    }
}

/* ---- images */

uint32_t lezgauri_check(const void *image, size_t len, lezgauri_fault *fault)
{
    span spans[] = {one(fault, sizeof *fault), image_at(image, len)};
    memory of = MEMORY(spans, 1);
    if (!may_be_bytes(image, len) || !may_tell(fault, _Alignof(lezgauri_fault))) {
        return refuse(LEZGAURI_BAD_ARGUMENT, fault, of);
    }
    if (len > MOST_IMAGE) {
        return refuse(LEZGAURI_BAD_HEADER, fault, of);
    }
    if (!are_apart(of)) {
        return refuse(LEZGAURI_BAD_ARGUMENT, fault, of);
    }
    lezgauri_fault told;
    uint32_t status = lezgauri_raw_check(or_empty(image), len, &told);
    tell(fault, &told);
    return status;
}

uint32_t lezgauri_verify(const void *image, size_t len, const void *client, size_t client_len, uint64_t *bound,
                         lezgauri_fault *fault)
{
    span spans[] = {one(fault, sizeof *fault), one(bound, sizeof *bound), image_at(image, len), one(client, client_len)};
    memory of = MEMORY(spans, 2);
    if (!may_be_bytes(image, len) || !may_be_bytes(client, client_len) || !may_tell(bound, _Alignof(uint64_t)) ||
        !may_tell(fault, _Alignof(lezgauri_fault))) {
        return refuse(LEZGAURI_BAD_ARGUMENT, fault, of);
    }
    if (len > MOST_IMAGE) {
        return refuse(LEZGAURI_BAD_HEADER, fault, of);
    }
    if (!are_apart(of)) {
        return refuse(LEZGAURI_BAD_ARGUMENT, fault, of);
    }
    uint64_t steps = 0;
    lezgauri_fault told;
    uint32_t status = lezgauri_raw_verify(or_empty(image), len, or_empty(client), client_len, &steps, &told);
    if (bound != NULL && status == LEZGAURI_OK) {
        *bound = steps;
    }
    tell(fault, &told);
    return status;
}

/* Whether each client is readable, and overlaps no span that the call writes to. */
static bool may_read_clients(const lezgauri_bytes *clients, size_t count, memory of)
{
    for (size_t i = 0; i < count; i++) {
        span client = {clients[i].bytes, clients[i].len};
        if (client.at == NULL || !may_be_bytes(client.at, client.len) || !is_apart_from(client, of.spans, of.written)) {
            return false;
        }
    }
    return true;
}

/* Like refuse, for a call with a list of clients. */
static uint32_t refuse_run(uint32_t number, lezgauri_fault *fault, memory of, const lezgauri_bytes *clients, size_t count)
{
    for (size_t i = 0; i < count; i++) {
        if (overlap(of.spans[0], one(clients[i].bytes, clients[i].len))) {
            return number;
        }
    }
    return refuse(number, fault, of);
}

uint32_t lezgauri_run(const void *image, size_t image_len, const lezgauri_bytes *clients, size_t count, const void *input,
                      size_t input_len, void *output, size_t capacity, size_t *written, void *saved,
                      lezgauri_report *reports, lezgauri_fault *fault)
{
    size_t reports_len = reports != NULL ? count : 0;
    bool are_clients = may_be(clients, count, sizeof *clients, _Alignof(lezgauri_bytes));
    bool are_reports = may_be(reports, reports_len, sizeof *reports, _Alignof(lezgauri_report));
    span spans[] = {one(fault, sizeof *fault),
                    one(written, sizeof *written),
                    one(output, capacity),
                    image_at(saved, image_len),
                    one(reports, are_reports ? reports_len * sizeof *reports : 0),
                    image_at(image, image_len),
                    one(clients, are_clients ? count * sizeof *clients : 0),
                    one(input, input_len)};
    memory of = MEMORY(spans, 5);
    if (!are_clients) {
        return refuse(LEZGAURI_BAD_ARGUMENT, fault, of);
    }
    if (!may_be_bytes(image, image_len) || !may_be_bytes(input, input_len) || !may_be_bytes(output, capacity) ||
        !may_be_bytes(saved, image_len) || !may_tell(written, _Alignof(size_t)) || !are_reports ||
        !may_tell(fault, _Alignof(lezgauri_fault))) {
        return refuse_run(LEZGAURI_BAD_ARGUMENT, fault, of, clients, count);
    }
    if (image_len > MOST_IMAGE) {
        return refuse_run(LEZGAURI_BAD_HEADER, fault, of, clients, count);
    }
    if (!are_apart(of) || !may_read_clients(clients, count, of)) {
        return refuse_run(LEZGAURI_BAD_ARGUMENT, fault, of, clients, count);
    }
    lent printed = {or_room(output), 0, capacity};
    lezgauri_fault told;
    uint32_t status = lezgauri_raw_run(or_empty(image), image_len, or_empty(clients), count, or_empty(input), input_len, &printed,
                                       or_room(saved), image_len, or_room(reports), reports_len, &told);
    if (written != NULL) {
        *written = printed.len;
    }
    tell(fault, &told);
    return status;
}

/* ---- segments that stay open */

/* The memory of a segment. */
typedef enum memory_kind {
    OWN_BLOCK,    /* a block from malloc, which lezgauri_close frees */
    LENT,         /* the caller's */
    LENT_TO_READ, /* the caller's, which no call writes */
} memory_kind;

/* The first four members are atomic because a call uses them before it knows whether another call uses the segment. `busy` is the first
 * one, since an exchange with it then takes no instruction for its address. */
struct lezgauri_handle {
    atomic_bool busy; /* while a call uses the segment */
    _Atomic(uint8_t *) image;
    atomic_size_t len;
    atomic_size_t room; /* the bytes from `image` on that the segment may grow into */
    memory_kind kind;
    kept_types types; /* none before the first call on values or clients, unless the segment is open only for reading */
    uint32_t sign;    /* the position of a byte of the image that is 0 as long as `types` are the image's */
};

static span handle_at(const lezgauri_handle *handle)
{
    return one(handle, sizeof *handle);
}

/* The image's address, its length, and its room. A call that has marked the segment as busy finds them unchanged. */
static inline uint8_t *image_in(const lezgauri_handle *handle)
{
    return atomic_load_explicit(&handle->image, memory_order_relaxed);
}

static inline size_t len_of(const lezgauri_handle *handle)
{
    return atomic_load_explicit(&handle->len, memory_order_relaxed);
}

static inline size_t room_of(const lezgauri_handle *handle)
{
    return atomic_load_explicit(&handle->room, memory_order_relaxed);
}

static span segment_at(const lezgauri_handle *handle)
{
    return handle != NULL ? (span){image_in(handle), room_of(handle)} : (span){NULL, 0};
}

/* Whether memory overlaps neither the segment nor its handle, which aren't empty. */
static inline bool is_outside(const lezgauri_handle *handle, const void *at, size_t len)
{
    return len == 0 || (!may_overlap(at, len, handle, sizeof *handle) && !may_overlap(at, len, image_in(handle), room_of(handle)));
}

/* Whether a call on this handle may return something at `at`. */
static inline bool may_return(const lezgauri_handle *handle, const void *at, size_t len, size_t align)
{
    return handle != NULL && at != NULL && may_tell(at, align) && is_outside(handle, at, len);
}

/* The image of a segment, for calls that keep its length. */
static inline lent image_of(const lezgauri_handle *handle)
{
    size_t len = len_of(handle);
    return (lent){image_in(handle), len, len};
}

/* Marks a segment or a client as busy. Returns false if another call uses it. */
static inline bool acquire(atomic_bool *busy)
{
    return !atomic_exchange_explicit(busy, true, memory_order_acquire);
}

static inline void release(atomic_bool *busy)
{
    atomic_store_explicit(busy, false, memory_order_release);
}

/* Begins a call that changes a segment: marks it as busy. LEZGAURI_OK, or why the call is refused. */
static inline uint32_t begin_change(lezgauri_handle *handle)
{
    if (handle->kind == LENT_TO_READ) {
        return LEZGAURI_READ_ONLY;
    }
    return acquire(&handle->busy) ? LEZGAURI_OK : LEZGAURI_BUSY;
}

/* The handle of a segment that a call only reads. For the caller it is const: the image isn't changed, and the flag isn't visible. */
static inline lezgauri_handle *flagged(const lezgauri_handle *handle)
{
    return (lezgauri_handle *)handle;
}

/* A block from malloc, also for 0 bytes. */
static uint8_t *block_of(size_t len)
{
    return malloc(len > 0 ? len : 1);
}

/* A handle of a segment in this memory, or null if malloc refuses. */
static lezgauri_handle *new_handle(uint8_t *place, size_t len, size_t room, memory_kind kind)
{
    lezgauri_handle *made = malloc(sizeof *made);
    if (made != NULL) {
        atomic_init(&made->image, place);
        atomic_init(&made->len, len);
        atomic_init(&made->room, room);
        made->kind = kind;
        atomic_init(&made->busy, false);
        made->types = (kept_types){NULL, 0};
        made->sign = MAGIC_AT;
    }
    return made;
}

/* Reads the types of a segment for the calls on values and clients. Types are never changed or removed, and the next one is put into the
 * first unused entry of the table. The first byte of an entry is 0 only while it is unused, and the last byte always. */
static uint32_t read_types(lezgauri_handle *handle)
{
    const uint8_t *image = image_in(handle);
    uint32_t status = lezgauri_raw_open_types(image, len_of(handle), &handle->types);
    if (status == LEZGAURI_OK) {
        uint32_t sign = TABLE_AT;
        while (sign < TABLE_END && image[sign] != 0) {
            sign += sizeof(lezgauri_type);
        }
        handle->sign = sign < TABLE_END ? sign : TABLE_END - 1;
    }
    return status;
}

/* Whether the types that the handle keeps are those of its image. Other handles and runs may have added types. */
static inline bool has_types(const lezgauri_handle *handle, const uint8_t *image)
{
    return image[handle->sign] == 0;
}

/* Reads the new types of a segment that the call has marked as busy. Ends the call if they can't be read. */
static uint32_t begin_with_new_types(lezgauri_handle *handle)
{
    uint32_t status = read_types(handle);
    if (status != LEZGAURI_OK) {
        release(&handle->busy);
    }
    return status;
}

/* Marks a segment as busy, and reads its types if it has new ones. LEZGAURI_OK, or why the call is refused. */
static inline uint32_t begin_with_types(lezgauri_handle *handle)
{
    if (!acquire(&handle->busy)) {
        return LEZGAURI_BUSY;
    }
    return has_types(handle, image_in(handle)) ? LEZGAURI_OK : begin_with_new_types(handle);
}

/* The same for a call that changes the segment. */
static inline uint32_t begin_change_with_types(lezgauri_handle *handle)
{
    return handle->kind == LENT_TO_READ ? LEZGAURI_READ_ONLY : begin_with_types(handle);
}

/* Opens the image in this memory. If it isn't opened, memory that isn't lent is freed. */
static uint32_t open_at(uint8_t *place, size_t len, size_t room, memory_kind kind, lezgauri_handle **handle, lezgauri_fault *told)
{
    *told = (lezgauri_fault){.client = LEZGAURI_NO_CLIENT, .number = LEZGAURI_MEMORY};
    uint32_t status = LEZGAURI_MEMORY;
    lezgauri_handle *made = new_handle(place, len, room, kind);
    if (made != NULL) {
        status = lezgauri_raw_check(place, len, told);
    }
    if (status == LEZGAURI_OK && kind == LENT_TO_READ) {
        status = read_types(made);
        told->number = status;
    }
    if (status == LEZGAURI_OK) {
        *handle = made;
        return status;
    }
    free(made);
    if (kind == OWN_BLOCK) {
        free(place);
    }
    return status;
}

uint32_t lezgauri_open(const void *image, size_t len, lezgauri_handle **handle, lezgauri_fault *fault)
{
    span spans[] = {one(fault, sizeof *fault), one(handle, sizeof *handle), image_at(image, len)};
    memory of = MEMORY(spans, 2);
    bool is_handle = handle != NULL && may_tell(handle, _Alignof(lezgauri_handle *));
    if (is_handle && is_apart(of, 1)) {
        *handle = NULL;
    }
    if (!is_handle || !may_be_bytes(image, len) || !may_tell(fault, _Alignof(lezgauri_fault))) {
        return refuse(LEZGAURI_BAD_ARGUMENT, fault, of);
    }
    if (len > MOST_IMAGE) {
        return refuse(LEZGAURI_BAD_HEADER, fault, of);
    }
    if (!are_apart(of)) {
        return refuse(LEZGAURI_BAD_ARGUMENT, fault, of);
    }
    uint8_t *copy = block_of(len);
    if (copy == NULL) {
        return refuse(LEZGAURI_MEMORY, fault, of);
    }
    /* check the copy, because another process may write the caller's bytes */
    memcpy(copy, or_empty(image), len);
    lezgauri_fault told;
    uint32_t status = open_at(copy, len, len, OWN_BLOCK, handle, &told);
    tell(fault, &told);
    return status;
}

/* Opens an image in the caller's memory. */
static uint32_t open_lent(void *memory_lent, size_t len, size_t room, memory_kind kind, lezgauri_handle **handle,
                          lezgauri_fault *fault)
{
    span spans[] = {one(fault, sizeof *fault), one(handle, sizeof *handle), one(memory_lent, room)};
    memory of = MEMORY(spans, 3);
    bool is_handle = handle != NULL && may_tell(handle, _Alignof(lezgauri_handle *));
    if (is_handle && is_apart(of, 1)) {
        *handle = NULL;
    }
    if (!is_handle || !may_be_bytes(memory_lent, room) || room < len || !may_tell(fault, _Alignof(lezgauri_fault))) {
        return refuse(LEZGAURI_BAD_ARGUMENT, fault, of);
    }
    if (len > MOST_IMAGE) {
        return refuse(LEZGAURI_BAD_HEADER, fault, of);
    }
    if (!are_apart(of)) {
        return refuse(LEZGAURI_BAD_ARGUMENT, fault, of);
    }
    lezgauri_fault told;
    uint32_t status = open_at(or_room(memory_lent), len, room, kind, handle, &told);
    tell(fault, &told);
    return status;
}

uint32_t lezgauri_open_in(void *memory_lent, size_t len, size_t room, lezgauri_handle **handle, lezgauri_fault *fault)
{
    return open_lent(memory_lent, len, room, LENT, handle, fault);
}

/* For the handle the memory isn't const, like memory that is changed. No call on the handle writes it. */
uint32_t lezgauri_read(const void *memory_lent, size_t len, lezgauri_handle **handle, lezgauri_fault *fault)
{
    return open_lent((void *)memory_lent, len, len, LENT_TO_READ, handle, fault);
}

uint32_t lezgauri_reader(const lezgauri_handle *handle, lezgauri_handle **other)
{
    span spans[] = {one(other, sizeof *other), handle_at(handle), segment_at(handle)};
    bool is_place = other != NULL && may_tell(other, _Alignof(lezgauri_handle *)) && are_apart(MEMORY(spans, 1));
    if (is_place) {
        *other = NULL;
    }
    if (!is_place || handle == NULL || handle->kind != LENT_TO_READ) {
        return LEZGAURI_BAD_ARGUMENT;
    }
    lezgauri_handle *made = new_handle(handle->image, handle->len, handle->room, LENT_TO_READ);
    uint32_t status = made != NULL ? read_types(made) : LEZGAURI_MEMORY;
    if (status == LEZGAURI_OK) {
        *other = made;
    } else {
        free(made);
    }
    return status;
}

/* Makes a segment in this memory. If none is made, memory that isn't lent is freed. */
static uint32_t create_at(uint8_t *place, size_t room, size_t size, uint32_t allocator, uint32_t index, memory_kind kind,
                          lezgauri_handle **handle)
{
    lent memory_lent = {place, room, room};
    uint32_t status = LEZGAURI_MEMORY;
    lezgauri_handle *made = new_handle(place, size, room, kind);
    if (made != NULL) {
        status = lezgauri_raw_create(&memory_lent, (uint32_t)size, allocator, index);
    }
    if (status == LEZGAURI_OK) {
        *handle = made;
        return status;
    }
    free(made);
    if (kind == OWN_BLOCK) {
        free(place);
    }
    return status;
}

uint32_t lezgauri_create(size_t size, uint32_t allocator, uint32_t index, lezgauri_handle **handle)
{
    if (handle == NULL || !may_tell(handle, _Alignof(lezgauri_handle *))) {
        return LEZGAURI_BAD_ARGUMENT;
    }
    *handle = NULL;
    if (size > MOST_IMAGE) {
        return LEZGAURI_BAD_SIZE;
    }
    uint8_t *block = block_of(size);
    if (block == NULL) {
        return LEZGAURI_MEMORY;
    }
    return create_at(block, size, size, allocator, index, OWN_BLOCK, handle);
}

uint32_t lezgauri_create_in(void *memory_lent, size_t room, size_t size, uint32_t allocator, uint32_t index, lezgauri_handle **handle)
{
    span spans[] = {one(handle, sizeof *handle), one(memory_lent, room)};
    if (handle == NULL || !may_tell(handle, _Alignof(lezgauri_handle *)) || !are_apart(MEMORY(spans, 2))) {
        return LEZGAURI_BAD_ARGUMENT;
    }
    *handle = NULL;
    if (!may_be_bytes(memory_lent, room)) {
        return LEZGAURI_BAD_ARGUMENT;
    }
    if (size > MOST_IMAGE) {
        return LEZGAURI_BAD_SIZE;
    }
    return create_at(or_room(memory_lent), room, size, allocator, index, LENT, handle);
}

/* Grows a segment that the call has marked as busy. A block from malloc that is too small is made larger. */
static uint32_t grow(lezgauri_handle *handle, uint32_t extra)
{
    lent image = {handle->image, handle->len, handle->room};
    uint32_t status = lezgauri_raw_grow(&image, extra);
    if (status == LEZGAURI_NO_HOST_ROOM && handle->kind == OWN_BLOCK) {
        size_t room = handle->len + extra;
        uint8_t *block = realloc(handle->image, room);
        if (block == NULL) {
            return LEZGAURI_MEMORY;
        }
        handle->image = block;
        handle->room = room;
        image = (lent){block, handle->len, room};
        status = lezgauri_raw_grow(&image, extra);
    }
    handle->len = image.len;
    return status;
}

uint32_t lezgauri_grow(lezgauri_handle *handle, size_t extra, size_t *size)
{
    span spans[] = {one(size, sizeof *size), handle_at(handle), segment_at(handle)};
    if (handle == NULL || !may_tell(size, _Alignof(size_t)) || !are_apart(MEMORY(spans, 3))) {
        return LEZGAURI_BAD_ARGUMENT;
    }
    if (extra > MOST_IMAGE) {
        return LEZGAURI_BAD_SIZE;
    }
    uint32_t status = begin_change(handle);
    if (status != LEZGAURI_OK) {
        return status;
    }
    status = grow(handle, (uint32_t)extra);
    size_t len = handle->len;
    release(&handle->busy);
    if (size != NULL && status == LEZGAURI_OK) {
        *size = len;
    }
    return status;
}

uint32_t lezgauri_shrink(lezgauri_handle *handle, size_t *size)
{
    span spans[] = {one(size, sizeof *size), handle_at(handle), segment_at(handle)};
    if (handle == NULL || !may_tell(size, _Alignof(size_t)) || !are_apart(MEMORY(spans, 3))) {
        return LEZGAURI_BAD_ARGUMENT;
    }
    uint32_t status = begin_change(handle);
    if (status != LEZGAURI_OK) {
        return status;
    }
    lent image = image_of(handle);
    status = lezgauri_raw_shrink(&image);
    handle->len = image.len;
    release(&handle->busy);
    if (size != NULL && status == LEZGAURI_OK) {
        *size = image.len;
    }
    return status;
}

uint32_t lezgauri_size(const lezgauri_handle *handle, size_t *size)
{
    if (!may_return(handle, size, sizeof *size, _Alignof(size_t))) {
        return LEZGAURI_BAD_ARGUMENT;
    }
    *size = len_of(handle);
    return LEZGAURI_OK;
}

uint32_t lezgauri_free_memory(const lezgauri_handle *handle, size_t *all, size_t *largest)
{
    span spans[] = {one(all, sizeof *all), one(largest, sizeof *largest), handle_at(handle), segment_at(handle)};
    if (handle == NULL || !may_tell(all, _Alignof(size_t)) || !may_tell(largest, _Alignof(size_t)) ||
        !are_apart(MEMORY(spans, 2))) {
        return LEZGAURI_BAD_ARGUMENT;
    }
    if (!acquire(&flagged(handle)->busy)) {
        return LEZGAURI_BUSY;
    }
    lent image = image_of(handle);
    uint32_t bytes[2];
    uint32_t status = lezgauri_raw_free_memory(&image, &bytes[0], &bytes[1]);
    release(&flagged(handle)->busy);
    if (status == LEZGAURI_OK) {
        if (all != NULL) {
            *all = bytes[0];
        }
        if (largest != NULL) {
            *largest = bytes[1];
        }
    }
    return status;
}

uint32_t lezgauri_image(const lezgauri_handle *handle, lezgauri_bytes *image)
{
    if (!may_return(handle, image, sizeof *image, _Alignof(lezgauri_bytes))) {
        return LEZGAURI_BAD_ARGUMENT;
    }
    if (!acquire(&flagged(handle)->busy)) {
        return LEZGAURI_BUSY;
    }
    *image = (lezgauri_bytes){image_in(handle), len_of(handle)};
    release(&flagged(handle)->busy);
    return LEZGAURI_OK;
}

/* A prepared client, and its bytes, which the prepared client refers to. */
struct lezgauri_client {
    kept prepared;
    size_t len;
    atomic_bool busy; /* while a call runs the client */
    uint8_t bytes[];
};

static span client_at(const lezgauri_client *prepared)
{
    return (span){prepared, prepared != NULL ? sizeof *prepared + prepared->len : 0};
}

uint32_t lezgauri_prepare(const lezgauri_handle *handle, const void *client, size_t client_len, lezgauri_client **prepared,
                          lezgauri_fault *fault)
{
    span spans[] = {one(fault, sizeof *fault), one(prepared, sizeof *prepared), handle_at(handle), segment_at(handle),
                    one(client, client_len)};
    memory of = MEMORY(spans, 4);
    bool is_place = prepared != NULL && may_tell(prepared, _Alignof(lezgauri_client *));
    if (is_place && is_apart(of, 1)) {
        *prepared = NULL;
    }
    if (handle == NULL || !is_place || !may_be_bytes(client, client_len) || !may_tell(fault, _Alignof(lezgauri_fault)) ||
        !are_apart(of)) {
        return refuse(LEZGAURI_BAD_ARGUMENT, fault, of);
    }
    uint32_t status = begin_with_types(flagged(handle));
    if (status != LEZGAURI_OK) {
        return refuse(status, fault, of);
    }
    lezgauri_client *made = malloc(sizeof *made + client_len);
    if (made == NULL) {
        release(&flagged(handle)->busy);
        return refuse(LEZGAURI_MEMORY, fault, of);
    }
    made->prepared = (kept){NULL, false};
    made->len = client_len;
    atomic_init(&made->busy, false);
    memcpy(made->bytes, or_empty(client), client_len);
    lezgauri_fault told;
    status = lezgauri_raw_prepare(&flagged(handle)->types, made->bytes, client_len, &made->prepared, &told);
    release(&flagged(handle)->busy);
    if (status == LEZGAURI_OK) {
        *prepared = made;
    } else {
        free(made);
    }
    tell(fault, &told);
    return status;
}

/* The three calls that run one client. */
typedef enum run_kind {
    RUN_ON,
    RUN_WHOLE,
    RUN_CLIENT
} run_kind;

/* The arguments of lezgauri_run_on, lezgauri_run_whole and lezgauri_run_client. Only the last one has `prepared`, and the others
 * `client`. The output's length is written to `length`. */
typedef struct run_arguments {
    lezgauri_handle *handle;
    lezgauri_client *prepared;
    const void *client;
    size_t client_len;
    const void *input;
    size_t input_len;
    void *output;
    size_t capacity;
    size_t *length;
    lezgauri_report *report;
    lezgauri_fault *fault;
} run_arguments;

/* Marks the segment, whose types the run needs, and the client as busy. LEZGAURI_OK, or why the run is refused. */
static inline uint32_t acquire_both(lezgauri_handle *handle, lezgauri_client *prepared)
{
    uint32_t status = begin_change_with_types(handle);
    if (status == LEZGAURI_OK && prepared != NULL && !acquire(&prepared->busy)) {
        release(&handle->busy);
        return LEZGAURI_BUSY;
    }
    return status;
}

static inline void release_both(lezgauri_handle *handle, lezgauri_client *prepared)
{
    if (prepared != NULL) {
        release(&prepared->busy);
    }
    release(&handle->busy);
}

/* The memory of a run, in this order. The first RUN_WRITTEN spans are written to. */
enum { RUN_SPANS = 9, RUN_WRITTEN = 7 };

static void memory_of_run(const run_arguments *with, span spans[RUN_SPANS])
{
    spans[0] = one(with->fault, sizeof *with->fault);
    spans[1] = one(with->length, sizeof *with->length);
    spans[2] = one(with->report, sizeof *with->report);
    spans[3] = one(with->output, with->capacity);
    spans[4] = handle_at(with->handle);
    spans[5] = segment_at(with->handle);
    spans[6] = client_at(with->prepared);
    spans[7] = one(with->client, with->client_len);
    spans[8] = one(with->input, with->input_len);
}

/* Whether each span that a run writes to overlaps no other span. */
static bool are_apart_in_run(run_arguments with)
{
    span spans[RUN_SPANS];
    memory_of_run(&with, spans);
    return are_apart((memory){spans, RUN_SPANS, RUN_WRITTEN});
}

static uint32_t refuse_run_on(uint32_t number, run_arguments with)
{
    span spans[RUN_SPANS];
    memory_of_run(&with, spans);
    return refuse(number, with.fault, (memory){spans, RUN_SPANS, RUN_WRITTEN});
}

/* Whether memory might overlap what a run uses besides the caller's arguments: the handle, the segment or the prepared client. */
static INLINED bool may_overlap_opened(run_arguments with, span image, const void *at, size_t len)
{
    span client = client_at(with.prepared);
    return may_overlap(at, len, with.handle, sizeof *with.handle) || may_overlap(at, len, image.at, image.len) ||
           (with.prepared != NULL && may_overlap(at, len, client.at, client.len));
}

/* Whether bytes might overlap a struct or the number that a run returns. */
static INLINED bool may_overlap_returned(run_arguments with, const void *at, size_t len)
{
    return may_overlap(with.fault, sizeof *with.fault, at, len) || may_overlap(with.length, sizeof *with.length, at, len) ||
           may_overlap(with.report, sizeof *with.report, at, len);
}

/* Whether bytes that a run reads might overlap memory that it writes to. */
static INLINED bool may_overlap_written(run_arguments with, span image, const void *at, size_t len)
{
    return len > 0 && (may_overlap_opened(with, image, at, len) || may_overlap_returned(with, at, len) ||
                       may_overlap(at, len, with.output, with.capacity));
}

/* Whether the memory of a run might overlap where it must not. This makes the comparisons of are_apart_in_run, but without a list of the
 * spans, which takes as many instructions as a short run. */
static INLINED bool may_overlap_in_run(run_arguments with)
{
    span image = segment_at(with.handle), client = client_at(with.prepared);
    size_t fault = sizeof *with.fault, length = sizeof *with.length, report = sizeof *with.report;
    return may_overlap_opened(with, image, with.fault, fault) || may_overlap_opened(with, image, with.length, length) ||
           may_overlap_opened(with, image, with.report, report) || may_overlap(with.fault, fault, with.length, length) ||
           may_overlap(with.fault, fault, with.report, report) || may_overlap(with.length, length, with.report, report) ||
           (with.capacity > 0 && (may_overlap_opened(with, image, with.output, with.capacity) ||
                                  may_overlap_returned(with, with.output, with.capacity))) ||
           may_overlap(with.handle, sizeof *with.handle, image.at, image.len) ||
           (with.prepared != NULL && (may_overlap(with.handle, sizeof *with.handle, client.at, client.len) ||
                                      may_overlap(image.at, image.len, client.at, client.len))) ||
           may_overlap_written(with, image, with.client, with.client_len) || may_overlap_written(with, image, with.input, with.input_len);
}

/* Runs a client on an open segment. RUN_WHOLE is all or nothing. */
static INLINED uint32_t run_on(run_arguments with, run_kind kind)
{
    if (with.handle == NULL || (kind == RUN_CLIENT && with.prepared == NULL) || !may_be_bytes(with.client, with.client_len) ||
        !may_be_bytes(with.input, with.input_len) || !may_be_bytes(with.output, with.capacity) ||
        !may_tell(with.length, _Alignof(size_t)) || !may_tell(with.report, _Alignof(lezgauri_report)) ||
        !may_tell(with.fault, _Alignof(lezgauri_fault)) || (may_overlap_in_run(with) && !are_apart_in_run(with))) {
        return refuse_run_on(LEZGAURI_BAD_ARGUMENT, with);
    }
    uint32_t status = acquire_both(with.handle, with.prepared);
    if (status != LEZGAURI_OK) {
        return refuse_run_on(status, with);
    }
    lent image = image_of(with.handle);
    kept_types *types = &with.handle->types;
    lent printed = {or_room(with.output), 0, with.capacity};
    size_t length = 0;
    lezgauri_report reported = {0};
    lezgauri_fault told;
    if (kind == RUN_WHOLE) {
        status = lezgauri_raw_run_whole(&image, types, or_empty(with.client), with.client_len, or_empty(with.input),
                                        with.input_len, &printed, &length, &reported, &told);
    } else if (kind == RUN_CLIENT) {
        status = lezgauri_raw_run_client(&image, types, &with.prepared->prepared, or_empty(with.input), with.input_len, &printed,
                                         &reported, &told);
        length = printed.len;
    } else {
        status = lezgauri_raw_run_on(&image, types, or_empty(with.client), with.client_len, or_empty(with.input), with.input_len,
                                     &printed, &reported, &told);
        length = printed.len;
    }
    release_both(with.handle, with.prepared);
    if (with.length != NULL) {
        *with.length = length;
    }
    if (with.report != NULL && (status == LEZGAURI_OK || (status == LEZGAURI_OUTPUT_FULL && kind != RUN_WHOLE))) {
        *with.report = reported;
    }
    tell(with.fault, &told);
    return status;
}

uint32_t lezgauri_run_on(lezgauri_handle *handle, const void *client, size_t client_len, const void *input,
                         size_t input_len, void *output, size_t capacity, size_t *written, lezgauri_report *report,
                         lezgauri_fault *fault)
{
    return run_on((run_arguments){handle, NULL, client, client_len, input, input_len, output, capacity, written, report, fault},
                  RUN_ON);
}

uint32_t lezgauri_run_whole(lezgauri_handle *handle, const void *client, size_t client_len, const void *input,
                            size_t input_len, void *output, size_t capacity, size_t *needed, lezgauri_report *report,
                            lezgauri_fault *fault)
{
    return run_on((run_arguments){handle, NULL, client, client_len, input, input_len, output, capacity, needed, report, fault},
                  RUN_WHOLE);
}

uint32_t lezgauri_run_client(lezgauri_handle *handle, lezgauri_client *prepared, const void *input, size_t input_len,
                             void *output, size_t capacity, size_t *written, lezgauri_report *report, lezgauri_fault *fault)
{
    return run_on((run_arguments){handle, prepared, NULL, 0, input, input_len, output, capacity, written, report, fault},
                  RUN_CLIENT);
}

void lezgauri_client_close(lezgauri_client *prepared)
{
    if (prepared != NULL) {
        lezgauri_raw_client_close(&prepared->prepared);
        free(prepared);
    }
}

/* Whether the image has no room in a buffer. *needed is its length. */
static bool is_too_small(const lezgauri_handle *handle, size_t capacity, size_t *needed)
{
    size_t len = handle->len;
    if (needed != NULL) {
        *needed = len;
    }
    return capacity < len;
}

uint32_t lezgauri_save(const lezgauri_handle *handle, void *buffer, size_t capacity, size_t *needed)
{
    span spans[] = {one(needed, sizeof *needed), one(buffer, capacity), handle_at(handle), segment_at(handle)};
    if (handle == NULL || !may_be_bytes(buffer, capacity) || !may_tell(needed, _Alignof(size_t)) ||
        !are_apart(MEMORY(spans, 2))) {
        return LEZGAURI_BAD_ARGUMENT;
    }
    if (is_too_small(handle, capacity, needed)) {
        return LEZGAURI_TOO_SMALL;
    }
    if (!acquire(&flagged(handle)->busy)) {
        return LEZGAURI_BUSY;
    }
    /* another call may have changed the length meanwhile */
    uint32_t status = LEZGAURI_TOO_SMALL;
    if (!is_too_small(handle, capacity, needed)) {
        memcpy(buffer, handle->image, handle->len);
        status = LEZGAURI_OK;
    }
    release(&flagged(handle)->busy);
    return status;
}

void lezgauri_close(lezgauri_handle *handle)
{
    if (handle == NULL) {
        return;
    }
    lezgauri_raw_close_types(&handle->types);
    if (handle->kind == OWN_BLOCK) {
        free(handle->image);
    }
    free(handle);
}

/* ---- types */

_Static_assert(sizeof(lezgauri_type) == 16 && _Alignof(lezgauri_type) == 1, "a type is an entry of the type table");

uint32_t lezgauri_types(const lezgauri_handle *handle, lezgauri_type *types, size_t capacity, size_t *needed)
{
    bool are_types = may_be(types, capacity, sizeof *types, _Alignof(lezgauri_type));
    size_t room = are_types ? capacity * sizeof *types : 0;
    span spans[] = {one(needed, sizeof *needed), one(types, room), handle_at(handle), segment_at(handle)};
    if (handle == NULL || !are_types || !may_tell(needed, _Alignof(size_t)) || !are_apart(MEMORY(spans, 2))) {
        return LEZGAURI_BAD_ARGUMENT;
    }
    if (!acquire(&flagged(handle)->busy)) {
        return LEZGAURI_BUSY;
    }
    size_t count = 0;
    uint32_t status = lezgauri_raw_types(handle->image, handle->len, or_room(types), room, &count);
    release(&flagged(handle)->busy);
    if (needed != NULL) {
        *needed = count;
    }
    return status;
}

/* ---- values in place */

/* The segment that a reading export is given: the image and its types. */
#define SEGMENT(handle) image_in(handle), len_of(handle), &flagged(handle)->types

static inline bool may_return_place(const lezgauri_handle *handle, const lezgauri_place *place)
{
    return may_return(handle, place, sizeof *place, _Alignof(lezgauri_place));
}

/* Begins a call that reads values, and returns something if `is_allowed`. */
static inline uint32_t begin_read(const lezgauri_handle *handle, bool is_allowed)
{
    return is_allowed ? begin_with_types(flagged(handle)) : LEZGAURI_BAD_ARGUMENT;
}

/* Ends a call on a segment, and returns its status. */
static inline uint32_t end(const lezgauri_handle *handle, uint32_t status)
{
    release(&flagged(handle)->busy);
    return status;
}

/* The bytes of a name before its zero. At most 64, so that the export refuses a name that is too long. A loop, because most names are
 * short: memchr takes as long as seven turns, and the registers that its caller saves for it. */
static inline lezgauri_bytes name_at(const char *name)
{
    size_t len = 0;
    while (name != NULL && len <= MOST_NAME && name[len] != 0) {
        len++;
    }
    return (lezgauri_bytes){or_empty(name), len};
}

/* Whether a call that takes this name may return a place. */
static inline bool may_return_by_name(const lezgauri_handle *handle, const char *name, lezgauri_bytes bytes, const lezgauri_place *place)
{
    return name != NULL && may_return_place(handle, place) && !may_overlap(place, sizeof *place, name, bytes.len + 1);
}

/* ---- reading */

uint32_t lezgauri_find(const lezgauri_handle *handle, const char *name, uint32_t type, lezgauri_place *place)
{
    return lezgauri_find_item(handle, name, type, 0, place);
}

uint32_t lezgauri_find_item(const lezgauri_handle *handle, const char *name, uint32_t type, uint32_t index, lezgauri_place *place)
{
    lezgauri_bytes bytes = name_at(name);
    uint32_t status = begin_read(handle, may_return_by_name(handle, name, bytes, place));
    if (status != LEZGAURI_OK) {
        return status;
    }
    return end(handle, lezgauri_raw_find(SEGMENT(handle), bytes.bytes, bytes.len, type, index, place));
}

/* An export that finds a named object by a name. */
typedef uint32_t name_call(const uint8_t *image, size_t len, kept_types *types, const uint8_t *name, size_t name_len, raw_named *named);

static inline uint32_t find_named(const lezgauri_handle *handle, const char *name, lezgauri_named *named, name_call *call)
{
    uint32_t status = begin_read(handle, may_return(handle, named, sizeof *named, _Alignof(lezgauri_named)));
    if (status != LEZGAURI_OK) {
        return status;
    }
    lezgauri_bytes bytes = name_at(name);
    raw_named found;
    status = call(SEGMENT(handle), bytes.bytes, bytes.len, &found);
    if (status == LEZGAURI_OK && found.len > MOST_NAME) {
        /* only in an image that isn't sound */
        status = LEZGAURI_BAD_INDEX;
    }
    if (status == LEZGAURI_OK) {
        *named = (lezgauri_named){.type = found.type, .count = found.count};
        memcpy(named->name, image_in(handle) + found.at, found.len);
    }
    return end(handle, status);
}

uint32_t lezgauri_named_object(const lezgauri_handle *handle, const char *name, lezgauri_named *named)
{
    return name != NULL ? find_named(handle, name, named, lezgauri_raw_named_object) : LEZGAURI_BAD_ARGUMENT;
}

uint32_t lezgauri_next_name(const lezgauri_handle *handle, const char *after, lezgauri_named *named)
{
    return find_named(handle, after, named, lezgauri_raw_next_name);
}

uint32_t lezgauri_find_unique(const lezgauri_handle *handle, uint32_t type, lezgauri_place *place)
{
    uint32_t status = begin_read(handle, may_return_place(handle, place));
    return status != LEZGAURI_OK ? status : end(handle, lezgauri_raw_find_unique(SEGMENT(handle), type, place));
}

/* The rest of lezgauri_load on a segment that has new types. */
APART static uint32_t load_with_new_types(const lezgauri_handle *handle, lezgauri_place place, int64_t *number)
{
    uint32_t status = begin_with_new_types(flagged(handle));
    return status != LEZGAURI_OK ? status : end(handle, lezgauri_raw_load(SEGMENT(handle), place.at, place.type, number));
}

/* This call, lezgauri_get and lezgauri_store are made once for each value, so that they take few instructions. */
uint32_t lezgauri_load(const lezgauri_handle *handle, lezgauri_place place, int64_t *number)
{
    if (!may_return(handle, number, sizeof *number, _Alignof(int64_t))) {
        return LEZGAURI_BAD_ARGUMENT;
    }
    if (!acquire(&flagged(handle)->busy)) {
        return LEZGAURI_BUSY;
    }
    const uint8_t *image = image_in(handle);
    if (!has_types(handle, image)) {
        return load_with_new_types(handle, place, number);
    }
    return end(handle, lezgauri_raw_load(image, len_of(handle), &flagged(handle)->types, place.at, place.type, number));
}

uint32_t lezgauri_len(const lezgauri_handle *handle, lezgauri_place place, uint32_t *len)
{
    uint32_t status = begin_read(handle, may_return(handle, len, sizeof *len, _Alignof(uint32_t)));
    return status != LEZGAURI_OK ? status : end(handle, lezgauri_raw_len(SEGMENT(handle), place.at, place.type, len));
}

/* An export that finds the bytes of a value. */
typedef uint32_t range_call(const uint8_t *image, size_t len, kept_types *types, uint32_t at, uint32_t type, raw_range *range);

static inline uint32_t bytes_of(const lezgauri_handle *handle, lezgauri_place place, lezgauri_bytes *bytes, range_call *call)
{
    uint32_t status = begin_read(handle, may_return(handle, bytes, sizeof *bytes, _Alignof(lezgauri_bytes)));
    if (status != LEZGAURI_OK) {
        return status;
    }
    raw_range range;
    status = call(SEGMENT(handle), place.at, place.type, &range);
    if (status == LEZGAURI_OK) {
        *bytes = (lezgauri_bytes){image_in(handle) + range.at, range.len};
    }
    return end(handle, status);
}

uint32_t lezgauri_text(const lezgauri_handle *handle, lezgauri_place place, lezgauri_bytes *text)
{
    return bytes_of(handle, place, text, lezgauri_raw_text);
}

uint32_t lezgauri_numbers(const lezgauri_handle *handle, lezgauri_place place, lezgauri_bytes *numbers)
{
    return bytes_of(handle, place, numbers, lezgauri_raw_numbers);
}

uint32_t lezgauri_pairs(const lezgauri_handle *handle, lezgauri_place place, lezgauri_bytes *pairs)
{
    return bytes_of(handle, place, pairs, lezgauri_raw_pairs);
}

uint32_t lezgauri_field(const lezgauri_handle *handle, lezgauri_place place, uint32_t index, lezgauri_place *field)
{
    uint32_t status = begin_read(handle, may_return_place(handle, field));
    return status != LEZGAURI_OK ? status : end(handle, lezgauri_raw_field(SEGMENT(handle), place.at, place.type, index, field));
}

uint32_t lezgauri_item(const lezgauri_handle *handle, lezgauri_place place, uint32_t index, lezgauri_place *item)
{
    uint32_t status = begin_read(handle, may_return_place(handle, item));
    return status != LEZGAURI_OK ? status : end(handle, lezgauri_raw_item(SEGMENT(handle), place.at, place.type, index, item));
}

uint32_t lezgauri_next_item(const lezgauri_handle *handle, lezgauri_place list, lezgauri_place item, lezgauri_place *next)
{
    uint32_t status = begin_read(handle, may_return_place(handle, next));
    return status != LEZGAURI_OK ? status : end(handle, lezgauri_raw_next_item(SEGMENT(handle), list.at, list.type, item.at, next));
}

uint32_t lezgauri_previous_item(const lezgauri_handle *handle, lezgauri_place list, lezgauri_place item, lezgauri_place *previous)
{
    uint32_t status = begin_read(handle, may_return_place(handle, previous));
    return status != LEZGAURI_OK ? status
                                 : end(handle, lezgauri_raw_previous_item(SEGMENT(handle), list.at, list.type, item.at, previous));
}

uint32_t lezgauri_content(const lezgauri_handle *handle, lezgauri_place own, lezgauri_place *content)
{
    uint32_t status = begin_read(handle, may_return_place(handle, content));
    return status != LEZGAURI_OK ? status : end(handle, lezgauri_raw_content(SEGMENT(handle), own.at, own.type, content));
}

/* The rest of lezgauri_get on a segment that has new types. */
APART static uint32_t get_with_new_types(const lezgauri_handle *handle, lezgauri_place map, int64_t key, lezgauri_place *value)
{
    uint32_t status = begin_with_new_types(flagged(handle));
    return status != LEZGAURI_OK ? status : end(handle, lezgauri_raw_get(SEGMENT(handle), map.at, map.type, key, value));
}

uint32_t lezgauri_get(const lezgauri_handle *handle, lezgauri_place map, int64_t key, lezgauri_place *value)
{
    if (!may_return_place(handle, value)) {
        return LEZGAURI_BAD_ARGUMENT;
    }
    if (!acquire(&flagged(handle)->busy)) {
        return LEZGAURI_BUSY;
    }
    const uint8_t *image = image_in(handle);
    if (!has_types(handle, image)) {
        return get_with_new_types(handle, map, key, value);
    }
    return end(handle, lezgauri_raw_get(image, len_of(handle), &flagged(handle)->types, map.at, map.type, key, value));
}

/* Two aligned pointers to numbers are the same or apart, so `from` is read before `key` is written. */
static inline uint32_t begin_key(const lezgauri_handle *handle, const int64_t *from, const int64_t *key)
{
    return begin_read(handle, may_tell(from, _Alignof(int64_t)) && may_return(handle, key, sizeof *key, _Alignof(int64_t)));
}

uint32_t lezgauri_next_key(const lezgauri_handle *handle, lezgauri_place map, const int64_t *after, int64_t *key)
{
    uint32_t status = begin_key(handle, after, key);
    if (status != LEZGAURI_OK) {
        return status;
    }
    if (after == NULL) {
        return end(handle, lezgauri_raw_first_key(SEGMENT(handle), map.at, map.type, key));
    }
    return end(handle, lezgauri_raw_next_key(SEGMENT(handle), map.at, map.type, *after, key));
}

uint32_t lezgauri_previous_key(const lezgauri_handle *handle, lezgauri_place map, const int64_t *before, int64_t *key)
{
    uint32_t status = begin_key(handle, before, key);
    if (status != LEZGAURI_OK) {
        return status;
    }
    if (before == NULL) {
        return end(handle, lezgauri_raw_last_key(SEGMENT(handle), map.at, map.type, key));
    }
    return end(handle, lezgauri_raw_previous_key(SEGMENT(handle), map.at, map.type, *before, key));
}

/* As begin_key. The export writes the key and the place of its value, so they must not overlap. */
static inline uint32_t begin_entry(const lezgauri_handle *handle, const int64_t *from, const int64_t *key, const lezgauri_place *value)
{
    return begin_read(handle, may_tell(from, _Alignof(int64_t)) && may_return(handle, key, sizeof *key, _Alignof(int64_t)) &&
                                  may_return_place(handle, value) && !may_overlap(key, sizeof *key, value, sizeof *value));
}

uint32_t lezgauri_next_entry(const lezgauri_handle *handle, lezgauri_place map, const int64_t *after, int64_t *key, lezgauri_place *value)
{
    uint32_t status = begin_entry(handle, after, key, value);
    if (status != LEZGAURI_OK) {
        return status;
    }
    if (after == NULL) {
        return end(handle, lezgauri_raw_first_entry(SEGMENT(handle), map.at, map.type, key, value));
    }
    return end(handle, lezgauri_raw_next_entry(SEGMENT(handle), map.at, map.type, *after, key, value));
}

uint32_t lezgauri_previous_entry(const lezgauri_handle *handle, lezgauri_place map, const int64_t *before, int64_t *key,
                                 lezgauri_place *value)
{
    uint32_t status = begin_entry(handle, before, key, value);
    if (status != LEZGAURI_OK) {
        return status;
    }
    if (before == NULL) {
        return end(handle, lezgauri_raw_last_entry(SEGMENT(handle), map.at, map.type, key, value));
    }
    return end(handle, lezgauri_raw_previous_entry(SEGMENT(handle), map.at, map.type, *before, key, value));
}

/* *after is read before the entries are written, so it may be one of their keys. */
uint32_t lezgauri_next_entries(const lezgauri_handle *handle, lezgauri_place map, const int64_t *after, lezgauri_entry *entries,
                               size_t room, size_t *count)
{
    bool are_entries = may_be(entries, room, sizeof *entries, _Alignof(lezgauri_entry));
    size_t len = are_entries ? room * sizeof *entries : 0;
    bool is_allowed = are_entries && may_tell(after, _Alignof(int64_t)) && may_return(handle, count, sizeof *count, _Alignof(size_t)) &&
                      is_outside(handle, entries, len) && (len == 0 || !may_overlap(entries, len, count, sizeof *count));
    uint32_t status = begin_read(handle, is_allowed);
    if (status != LEZGAURI_OK) {
        return status;
    }
    bool is_after = after != NULL;
    return end(handle, lezgauri_raw_next_entries(SEGMENT(handle), map.at, map.type, is_after, is_after ? *after : 0, or_room(entries), room,
                                                 count));
}

/* ---- changing */

/* Begins a call that changes values, if its arguments are allowed. *image is the segment for the export. */
static inline uint32_t begin_values(lezgauri_handle *handle, bool is_allowed, lent *image)
{
    if (!is_allowed) {
        return LEZGAURI_BAD_ARGUMENT;
    }
    uint32_t status = begin_change_with_types(handle);
    *image = image_of(handle);
    return status;
}

/* Whether a changing call may take a name. */
static inline bool may_take_name(const lezgauri_handle *handle, const char *name, lezgauri_bytes bytes)
{
    return handle != NULL && name != NULL && is_outside(handle, name, bytes.len + 1);
}

uint32_t lezgauri_add_types(lezgauri_handle *handle, const lezgauri_type *types, size_t count, lezgauri_fault *fault)
{
    bool are_types = may_be(types, count, sizeof *types, _Alignof(lezgauri_type));
    size_t len = are_types ? count * sizeof *types : 0;
    span spans[] = {one(fault, sizeof *fault), handle_at(handle), segment_at(handle), one(types, len)};
    memory of = MEMORY(spans, 3);
    if (handle == NULL || !are_types || !may_tell(fault, _Alignof(lezgauri_fault)) || !are_apart(of)) {
        return refuse(LEZGAURI_BAD_ARGUMENT, fault, of);
    }
    uint32_t status = begin_change(handle);
    if (status != LEZGAURI_OK) {
        return refuse(status, fault, of);
    }
    lent image = image_of(handle);
    lezgauri_fault told;
    status = end(handle, lezgauri_raw_add_types(&image, or_empty(types), len, &told));
    tell(fault, &told);
    return status;
}

uint32_t lezgauri_upgrade(lezgauri_handle *handle)
{
    uint32_t status = handle != NULL ? begin_change(handle) : LEZGAURI_BAD_ARGUMENT;
    if (status != LEZGAURI_OK) {
        return status;
    }
    lent image = image_of(handle);
    return end(handle, lezgauri_raw_upgrade(&image));
}

uint32_t lezgauri_construct(lezgauri_handle *handle, const char *name, uint32_t type, uint32_t count, lezgauri_place *place)
{
    lezgauri_bytes bytes = name_at(name);
    lent image;
    bool is_allowed = may_take_name(handle, name, bytes) && may_return_by_name(handle, name, bytes, place);
    uint32_t status = begin_values(handle, is_allowed, &image);
    if (status != LEZGAURI_OK) {
        return status;
    }
    return end(handle, lezgauri_raw_construct(&image, &handle->types, bytes.bytes, bytes.len, type, count, place));
}

uint32_t lezgauri_find_or_construct(lezgauri_handle *handle, const char *name, uint32_t type, lezgauri_place *place)
{
    lezgauri_bytes bytes = name_at(name);
    lent image;
    bool is_allowed = may_take_name(handle, name, bytes) && may_return_by_name(handle, name, bytes, place);
    uint32_t status = begin_values(handle, is_allowed, &image);
    if (status != LEZGAURI_OK) {
        return status;
    }
    return end(handle, lezgauri_raw_find_or_construct(&image, &handle->types, bytes.bytes, bytes.len, type, place));
}

uint32_t lezgauri_destroy(lezgauri_handle *handle, const char *name, uint32_t type)
{
    lezgauri_bytes bytes = name_at(name);
    lent image;
    uint32_t status = begin_values(handle, may_take_name(handle, name, bytes), &image);
    return status != LEZGAURI_OK ? status : end(handle, lezgauri_raw_destroy(&image, &handle->types, bytes.bytes, bytes.len, type));
}

/* An export that makes an object of a type, or finds it. */
typedef uint32_t object_call(lent *image, kept_types *types, uint32_t type, lezgauri_place *place);

static inline uint32_t make_object(lezgauri_handle *handle, uint32_t type, lezgauri_place *place, object_call *call)
{
    lent image;
    uint32_t status = begin_values(handle, may_return_place(handle, place), &image);
    return status != LEZGAURI_OK ? status : end(handle, call(&image, &handle->types, type, place));
}

uint32_t lezgauri_construct_unique(lezgauri_handle *handle, uint32_t type, lezgauri_place *place)
{
    return make_object(handle, type, place, lezgauri_raw_construct_unique);
}

uint32_t lezgauri_find_or_construct_unique(lezgauri_handle *handle, uint32_t type, lezgauri_place *place)
{
    return make_object(handle, type, place, lezgauri_raw_find_or_construct_unique);
}

uint32_t lezgauri_construct_anonymous(lezgauri_handle *handle, uint32_t type, lezgauri_place *place)
{
    return make_object(handle, type, place, lezgauri_raw_construct_anonymous);
}

uint32_t lezgauri_destroy_unique(lezgauri_handle *handle, uint32_t type)
{
    lent image;
    uint32_t status = begin_values(handle, handle != NULL, &image);
    return status != LEZGAURI_OK ? status : end(handle, lezgauri_raw_destroy_unique(&image, &handle->types, type));
}

uint32_t lezgauri_destroy_anonymous(lezgauri_handle *handle, lezgauri_place object)
{
    lent image;
    uint32_t status = begin_values(handle, handle != NULL, &image);
    return status != LEZGAURI_OK ? status : end(handle, lezgauri_raw_destroy_anonymous(&image, &handle->types, object.at));
}

/* The rest of lezgauri_store on a segment that has new types. */
APART static uint32_t store_with_new_types(lezgauri_handle *handle, lezgauri_place place, int64_t number)
{
    uint32_t status = begin_with_new_types(handle);
    return status != LEZGAURI_OK ? status : end(handle, lezgauri_raw_store(SEGMENT(handle), place.at, place.type, number));
}

uint32_t lezgauri_store(lezgauri_handle *handle, lezgauri_place place, int64_t number)
{
    if (handle == NULL) {
        return LEZGAURI_BAD_ARGUMENT;
    }
    uint32_t status = begin_change(handle);
    if (status != LEZGAURI_OK) {
        return status;
    }
    uint8_t *image = image_in(handle);
    if (!has_types(handle, image)) {
        return store_with_new_types(handle, place, number);
    }
    return end(handle, lezgauri_raw_store(image, len_of(handle), &flagged(handle)->types, place.at, place.type, number));
}

/* An export that changes a string by the caller's bytes. */
typedef uint32_t bytes_call(lent *image, kept_types *types, uint32_t at, uint32_t type, const uint8_t *bytes, size_t len);

static inline uint32_t change_text(lezgauri_handle *handle, lezgauri_place string, const void *bytes, size_t len, bytes_call *call)
{
    lent image;
    bool is_allowed = handle != NULL && may_be_bytes(bytes, len) && is_outside(handle, bytes, len);
    uint32_t status = begin_values(handle, is_allowed, &image);
    return status != LEZGAURI_OK ? status : end(handle, call(&image, &handle->types, string.at, string.type, or_empty(bytes), len));
}

uint32_t lezgauri_assign(lezgauri_handle *handle, lezgauri_place string, const void *bytes, size_t len)
{
    return change_text(handle, string, bytes, len, lezgauri_raw_assign);
}

uint32_t lezgauri_append(lezgauri_handle *handle, lezgauri_place string, const void *bytes, size_t len)
{
    return change_text(handle, string, bytes, len, lezgauri_raw_append);
}

/* An export that makes a value in another one. */
typedef uint32_t part_call(lent *image, kept_types *types, uint32_t at, uint32_t type, lezgauri_place *part);

static inline uint32_t make_part(lezgauri_handle *handle, lezgauri_place whole, lezgauri_place *part, part_call *call)
{
    lent image;
    uint32_t status = begin_values(handle, may_return_place(handle, part), &image);
    return status != LEZGAURI_OK ? status : end(handle, call(&image, &handle->types, whole.at, whole.type, part));
}

uint32_t lezgauri_push_back(lezgauri_handle *handle, lezgauri_place sequence, lezgauri_place *item)
{
    return make_part(handle, sequence, item, lezgauri_raw_push_back);
}

/* An export that adds several items to a value, and gives how many it added. */
typedef uint32_t several_call(lent *image, kept_types *types, uint32_t at, uint32_t type, const void *items, size_t count, size_t *added);

/* Adds items that consist of numbers to a value. `size` is the size of an item. */
static uint32_t add_several(lezgauri_handle *handle, lezgauri_place place, const void *items, size_t count, size_t size, size_t *added,
                            several_call *call)
{
    lent image;
    size_t unread;
    bool are_items = may_be(items, count, size, _Alignof(int64_t));
    span from = one(items, are_items ? count * size : 0);
    span to = one(added, sizeof *added);
    bool is_allowed = handle != NULL && are_items && may_tell(added, _Alignof(size_t)) && is_outside(handle, from.at, from.len) &&
                      is_outside(handle, to.at, to.len) && !overlap(from, to);
    size_t *told = is_allowed && added != NULL ? added : &unread;
    *told = 0;
    uint32_t status = begin_values(handle, is_allowed, &image);
    if (status != LEZGAURI_OK) {
        return status;
    }
    return end(handle, call(&image, &handle->types, place.at, place.type, or_empty(items), count, told));
}

uint32_t lezgauri_push_numbers(lezgauri_handle *handle, lezgauri_place vector, const int64_t *numbers, size_t count, size_t *pushed)
{
    return add_several(handle, vector, numbers, count, sizeof *numbers, pushed, lezgauri_raw_push_numbers);
}

uint32_t lezgauri_push_front(lezgauri_handle *handle, lezgauri_place list, lezgauri_place *item)
{
    return make_part(handle, list, item, lezgauri_raw_push_front);
}

uint32_t lezgauri_put_content(lezgauri_handle *handle, lezgauri_place own, lezgauri_place *content)
{
    return make_part(handle, own, content, lezgauri_raw_put_content);
}

uint32_t lezgauri_put(lezgauri_handle *handle, lezgauri_place map, int64_t key, lezgauri_place *value)
{
    lent image;
    uint32_t status = begin_values(handle, may_return_place(handle, value), &image);
    return status != LEZGAURI_OK ? status : end(handle, lezgauri_raw_put(&image, &handle->types, map.at, map.type, key, value));
}

uint32_t lezgauri_put_numbers(lezgauri_handle *handle, lezgauri_place map, const lezgauri_pair *pairs, size_t count, size_t *put)
{
    return add_several(handle, map, pairs, count, sizeof *pairs, put, lezgauri_raw_put_numbers);
}

uint32_t lezgauri_remove(lezgauri_handle *handle, lezgauri_place map, int64_t key)
{
    lent image;
    uint32_t status = begin_values(handle, handle != NULL, &image);
    return status != LEZGAURI_OK ? status : end(handle, lezgauri_raw_remove(&image, &handle->types, map.at, map.type, key));
}

/* An export that changes a value. */
typedef uint32_t value_call(lent *image, kept_types *types, uint32_t at, uint32_t type);

static inline uint32_t change_value(lezgauri_handle *handle, lezgauri_place place, value_call *call)
{
    lent image;
    uint32_t status = begin_values(handle, handle != NULL, &image);
    return status != LEZGAURI_OK ? status : end(handle, call(&image, &handle->types, place.at, place.type));
}

uint32_t lezgauri_pop_back(lezgauri_handle *handle, lezgauri_place sequence)
{
    return change_value(handle, sequence, lezgauri_raw_pop_back);
}

uint32_t lezgauri_pop_front(lezgauri_handle *handle, lezgauri_place list)
{
    return change_value(handle, list, lezgauri_raw_pop_front);
}

uint32_t lezgauri_clear(lezgauri_handle *handle, lezgauri_place place)
{
    return change_value(handle, place, lezgauri_raw_clear);
}

uint32_t lezgauri_shrink_to_fit(lezgauri_handle *handle, lezgauri_place container)
{
    return change_value(handle, container, lezgauri_raw_shrink_to_fit);
}

uint32_t lezgauri_freeze(lezgauri_handle *handle, lezgauri_place own, lezgauri_place shared)
{
    lent image;
    uint32_t status = begin_values(handle, handle != NULL, &image);
    if (status != LEZGAURI_OK) {
        return status;
    }
    return end(handle, lezgauri_raw_freeze(&image, &handle->types, own.at, own.type, shared.at, shared.type));
}

uint32_t lezgauri_share(lezgauri_handle *handle, lezgauri_place to, lezgauri_place from)
{
    lent image;
    uint32_t status = begin_values(handle, handle != NULL, &image);
    return status != LEZGAURI_OK ? status : end(handle, lezgauri_raw_share(&image, &handle->types, from.at, from.type, to.at, to.type));
}

/* ---- texts of clients */

/* An export that converts the text of a client to its file, or back. */
typedef uint32_t conversion(const uint8_t *from, size_t from_len, uint8_t *to, size_t to_len, size_t *needed, lezgauri_fault *fault);

static uint32_t convert(conversion *call, const void *from, size_t len, void *buffer, size_t capacity, size_t *needed,
                        lezgauri_fault *fault)
{
    span spans[] = {one(fault, sizeof *fault), one(needed, sizeof *needed), one(buffer, capacity), one(from, len)};
    memory of = MEMORY(spans, 3);
    if (!may_be_bytes(from, len) || !may_be_bytes(buffer, capacity) || !may_tell(needed, _Alignof(size_t)) ||
        !may_tell(fault, _Alignof(lezgauri_fault)) || !are_apart(of)) {
        return refuse(LEZGAURI_BAD_ARGUMENT, fault, of);
    }
    size_t length = 0;
    lezgauri_fault told;
    uint32_t status = call(or_empty(from), len, or_room(buffer), capacity, &length, &told);
    if (needed != NULL) {
        *needed = length;
    }
    tell(fault, &told);
    return status;
}

uint32_t lezgauri_assemble(const void *text, size_t text_len, void *buffer, size_t capacity, size_t *needed,
                           lezgauri_fault *fault)
{
    return convert(lezgauri_raw_assemble, text, text_len, buffer, capacity, needed, fault);
}

uint32_t lezgauri_print(const void *client, size_t client_len, void *buffer, size_t capacity, size_t *needed,
                        lezgauri_fault *fault)
{
    return convert(lezgauri_raw_print, client, client_len, buffer, capacity, needed, fault);
}

/* ---- statuses and reasons in words */

/* A status or a reason, and what it means. */
typedef struct meaning {
    uint32_t number;
    const char *text;
} meaning;

/* The texts that `segtool --explain` prints too are the same there: checks/texts.py compares them. Some faults are only segtool's. */
static const meaning statuses[] = {
    {LEZGAURI_OK, "success"},
    {LEZGAURI_MEMORY, "the host refused a request for memory"},
    {LEZGAURI_MISPLACED, "the base should be a multiple of 16, and the segment should end within the room, at 1073741824 bytes at most"},
    {LEZGAURI_BAD_TYPE, "an entry of the type table is wrong"},
    {LEZGAURI_TYPE_MISMATCH,
     "a client has to declare the types of the image with the same numbers; new types come after them"},
    {5, "a segment has 736 to 1073741824 bytes, a multiple of 16"},
    {6, "the region is too small for the larger segment"},
    {LEZGAURI_BAD_HEADER, "the image's header or its length is wrong"},
    {LEZGAURI_BAD_BLOCK,
     "a block's header should have a size of 2 units or more within the heap, the size of the block before, a valid tag, "
     "and a null link if the block is allocated; two free blocks should not be adjacent"},
    {LEZGAURI_BAD_FREE,
     "the free blocks should form a list in ascending order (sequential fit), or a red-black tree ordered by size (best fit)"},
    {LEZGAURI_BAD_INDEX,
     "the names should be in ascending order, as many as the number at byte 36, each of 1 to 63 visible bytes "
     "and with 1 to 65535 values"},
    {LEZGAURI_BAD_POINTER,
     "a pointer is wrong: "
     "it should point to the first payload byte of an allocated block of the right kind and type, with enough room"},
    {LEZGAURI_DOUBLE_OWNER, "one pointer should own the block, but two do"},
    {LEZGAURI_UNOWNED, "a pointer of the index, of a unique object or of a value should own the block, but none does"},
    {LEZGAURI_BAD_VALUE,
     "a value is wrong: a list isn't a ring, a map isn't a red-black tree with ascending keys, or a count isn't right"},
    {LEZGAURI_BAD_CODE, "a field of the client file is wrong, or cut off by the end of the file"},
    {LEZGAURI_BAD_LINE, "a line of the text is outside the grammar, or breaks a rule of clients"},
    {LEZGAURI_REJECTED, "the verifier rejects an instruction"},
    {LEZGAURI_TOO_LONG,
     "a run could take more than 1000000000 steps: "
     "a loop takes 1 step, and in each turn 1 step and the steps of its body, so the turns of nested loops multiply"},
    {24,
     "a move should come at step 1 or later, and later than the move before; "
     "its base should be a multiple of 16 from which the segment ends within its room"},
    {LEZGAURI_BAD_ARGUMENT, "a pointer or a length isn't allowed"},
    {LEZGAURI_OUTPUT_FULL, "the output has no room for what a client prints"},
    {LEZGAURI_TOO_SMALL, "the caller's memory is too small"},
    {LEZGAURI_BUSY, "another call uses the open segment or the prepared client"},
    {LEZGAURI_READ_ONLY, "the segment is open only for reading"},
    {LEZGAURI_ALREADY_EXISTS, "the object exists already"},
    {LEZGAURI_BAD_ALLOC, "out of memory: no free block of the segment is large enough"},
    {LEZGAURI_ABSENT, "no such object or key"},
    {LEZGAURI_OTHER_TYPE, "wrong type"},
    {LEZGAURI_OUT_OF_RANGE, "out of range"},
    {LEZGAURI_NO_VALUE, "no value"},
    {LEZGAURI_NUMBERS_USED_UP, "no number is left for a frozen object"},
};

static const meaning reasons[] = {
    {1, "each register has to contain what the instruction needs, whichever parts ran before it"},
    {2, "an owned object must not be lost: PUT it into an own, FREEZE it or DROP it"},
    {3, "an object can't own or share itself: PUT or FREEZE it into a place outside it"},
    {4, "a register that is defined before a loop has to contain the same kind of value at the end of its body"},
};

static const char *text_of(uint32_t number, const meaning *meanings, size_t count, const char *unknown)
{
    for (size_t i = 0; i < count; i++) {
        if (meanings[i].number == number) {
            return meanings[i].text;
        }
    }
    return unknown;
}

const char *lezgauri_status_text(uint32_t status)
{
    return text_of(status, statuses, sizeof statuses / sizeof *statuses, "unknown status");
}

const char *lezgauri_reason_text(uint32_t reason)
{
    return text_of(reason, reasons, sizeof reasons / sizeof *reasons, "unknown reason");
}

const char *lezgauri_version(void)
{
    return LEZGAURI_VERSION;
}
