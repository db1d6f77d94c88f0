/*
 * The target `calls`: random calls on four segments at once, with each allocator and each index. Two of the segments
 * are in memory from malloc, and two in lent memory, on which two handles take turns. A call has the same arguments on
 * all segments, with places that it finds by the same way through the objects. As long as no segment was out of memory,
 * statuses and values must agree, and so must all objects. Each image stays sound. A call that fails changes no object,
 * except that numbers that were pushed before the segment was full stay.
 *
 * Some calls are made with each of their requests for host memory refused in turn: then the segment is unchanged.
 */
#include "fuzz.h"

#include <stdlib.h>
#include <string.h>

enum {
    SIDES = 4,
    WAY = 8,
    ROOM = 1 << 17,
    MOST_GROWS = 8,
    MOST_CALLS = 400,
    CHECK_EACH = 8,
    KEPT_CLIENTS = 2,
    MOST_TEXT = 300,
    MOST_NUMBERS = 40,
    BATCH = 4
};

typedef struct side {
    lezgauri_handle *handle, *other; /* `other` is null unless the memory is lent */
    uint8_t *lent;
} side;

enum operation {
    CONSTRUCT,
    FIND_OR_CONSTRUCT,
    DESTROY,
    CONSTRUCT_UNIQUE,
    FIND_OR_CONSTRUCT_UNIQUE,
    DESTROY_UNIQUE,
    STORE_NUMBER,
    ASSIGN,
    APPEND,
    PUSH_BACK,
    PUSH_NUMBERS,
    PUSH_FRONT,
    POP_BACK,
    POP_FRONT,
    PUT_KEY,
    PUT_NUMBERS,
    REMOVE_KEY,
    PUT_CONTENT,
    CLEAR_VALUE,
    SHRINK_TO_FIT,
    FREEZE_OBJECT,
    SHARE_OBJECT,
    ANONYMOUS,
    UPGRADE,
    GROW,
    SHRINK_SEGMENT,
    REOPEN,
    RUN_ON,
    RUN_WHOLE,
    PREPARE,
    RUN_PREPARED,
    READ,
    OTHER_TYPE,
    SWAP_HANDLES,
    OPERATIONS
};

/* A call, with the same arguments for all segments. */
typedef struct call {
    enum operation operation;
    uint8_t way[2][WAY]; /* how its places are found */
    uint32_t name, type, count, number;
    int64_t key;
} call;

static lezgauri_type types[LEZGAURI_MOST_TYPES];
static uint32_t type_count;
static side sides[SIDES];
static lezgauri_client *kept[KEPT_CLIENTS];
static uint32_t grows;
static bool is_short; /* a segment was out of memory, so they may differ */
static uint8_t client[MOST_CLIENT];
static size_t client_len;

static const char *const names[] = {
    "a", "b", "aa", "ab", "B", "~", "!23456789012345678901234567890123456789012345678901234567890123", "x#1",
};
enum { NAMES = sizeof names / sizeof *names };

/* ---- places */

static bool find_start(const lezgauri_handle *segment, uint32_t number, uint32_t item, lezgauri_place *place)
{
    lezgauri_named named;
    uint32_t count = 0, uniques = 0;
    const char *after = NULL;
    while (lezgauri_next_name(segment, after, &named) == LEZGAURI_OK) {
        after = named.name;
        count++;
    }
    for (uint32_t type = 0; type < type_count; type++) {
        uniques += lezgauri_find_unique(segment, type, place) == LEZGAURI_OK;
    }
    if (count + uniques == 0) {
        return false;
    }
    number %= count + uniques;
    if (number < count) {
        for (after = NULL; lezgauri_next_name(segment, after, &named) == LEZGAURI_OK && number > 0; number--) {
            after = named.name;
        }
        return lezgauri_find_item(segment, named.name, named.type, item % named.count, place) == LEZGAURI_OK;
    }
    number -= count;
    for (uint32_t type = 0; type < type_count; type++) {
        if (lezgauri_find_unique(segment, type, place) == LEZGAURI_OK && number-- == 0) {
            return true;
        }
    }
    return false;
}

/* Goes one step into a value. Doesn't go into frozen objects, which may not be changed. */
static bool go_in(const lezgauri_handle *segment, uint32_t choice, lezgauri_place *place)
{
    const lezgauri_type *type = &types[place->type];
    uint32_t len;
    int64_t key;
    switch (type->kind) {
    case LEZGAURI_KIND_STRUCT: return lezgauri_field(segment, *place, choice % type->count, place) == LEZGAURI_OK;
    case LEZGAURI_KIND_VEC:
    case LEZGAURI_KIND_LIST:
        return lezgauri_len(segment, *place, &len) == LEZGAURI_OK && len > 0 &&
               lezgauri_item(segment, *place, choice % len, place) == LEZGAURI_OK;
    case LEZGAURI_KIND_FLAT_MAP:
    case LEZGAURI_KIND_MAP: {
        if (lezgauri_next_key(segment, *place, NULL, &key) != LEZGAURI_OK) {
            return false;
        }
        for (uint32_t i = choice % 4; i > 0 && lezgauri_next_key(segment, *place, &key, &key) == LEZGAURI_OK; i--) {
        }
        return lezgauri_get(segment, *place, key, place) == LEZGAURI_OK;
    }
    case LEZGAURI_KIND_OWN: return lezgauri_content(segment, *place, place) == LEZGAURI_OK;
    default: return false;
    }
}

/* The kinds that a call takes, as bits. */
static uint32_t kinds_of(enum operation operation)
{
    enum {
        STR = 1 << LEZGAURI_KIND_STR,
        VEC = 1 << LEZGAURI_KIND_VEC,
        LIST = 1 << LEZGAURI_KIND_LIST,
        FLAT = 1 << LEZGAURI_KIND_FLAT_MAP,
        MAP = 1 << LEZGAURI_KIND_MAP
    };
    switch (operation) {
    case STORE_NUMBER: return 1 << LEZGAURI_KIND_I64;
    case ASSIGN:
    case APPEND: return STR;
    case PUSH_BACK: return VEC | LIST;
    case PUSH_NUMBERS: return VEC;
    case PUSH_FRONT:
    case POP_FRONT: return LIST;
    case POP_BACK: return STR | VEC | LIST;
    case PUT_KEY:
    case PUT_NUMBERS:
    case REMOVE_KEY: return FLAT | MAP;
    case PUT_CONTENT:
    case FREEZE_OBJECT: return 1 << LEZGAURI_KIND_OWN;
    case SHRINK_TO_FIT: return STR | VEC | FLAT;
    case SHARE_OBJECT: return 1 << LEZGAURI_KIND_SHARED;
    default: return ~0u;
    }
}

/* Finds a place of one of these kinds. `start` is the number of its object. */
static bool find_place(const lezgauri_handle *segment, const uint8_t *way, uint32_t kinds, lezgauri_place *found,
                       uint32_t *start)
{
    for (uint32_t tried = 0; tried < 8; tried++) {
        lezgauri_place place;
        if (!find_start(segment, way[0] + tried, way[1], &place)) {
            return false;
        }
        for (uint32_t i = 2;; i++) {
            bool fits = kinds >> types[place.type].kind & 1;
            if (fits && (i == WAY || way[i] & 0x80)) {
                *found = place;
                *start = way[0] + tried;
                return true;
            }
            if (i == WAY || !go_in(segment, way[i], &place)) {
                if (fits) {
                    *found = place;
                    *start = way[0] + tried;
                    return true;
                }
                break;
            }
        }
    }
    return false;
}

/* ---- calls */

static uint64_t image_hash(const lezgauri_handle *segment)
{
    lezgauri_bytes image;
    NEED(lezgauri_image(segment, &image) == LEZGAURI_OK, "no image");
    return hash_bytes(image.len, image.bytes, image.len);
}

/* Calls that read; the result is a hash. */
static uint64_t read_all(const lezgauri_handle *segment, const call *it, lezgauri_place place)
{
    lezgauri_place found = {0, 0};
    lezgauri_named named = {{0}, 0, 0};
    lezgauri_bytes bytes = {NULL, 0};
    lezgauri_entry entries[BATCH];
    int64_t number = 0;
    uint32_t len = 0;
    size_t count = 0;
    uint32_t got[] = {
        lezgauri_find(segment, names[it->name], it->type, &found),
        lezgauri_find_item(segment, names[it->name], it->type, it->count, &found),
        lezgauri_named_object(segment, names[it->name], &named),
        lezgauri_next_name(segment, names[it->name], &named),
        lezgauri_find_unique(segment, it->type, &found),
        lezgauri_load(segment, place, &number),
        lezgauri_field(segment, place, it->number % 10, &found),
        lezgauri_len(segment, place, &len),
        lezgauri_text(segment, place, &bytes),
        lezgauri_numbers(segment, place, &bytes),
        lezgauri_pairs(segment, place, &bytes),
        lezgauri_item(segment, place, it->number, &found),
        lezgauri_get(segment, place, it->key, &found),
        lezgauri_next_key(segment, place, &it->key, &number),
        lezgauri_previous_key(segment, place, &it->key, &number),
        lezgauri_next_entry(segment, place, &it->key, &number, &found),
        lezgauri_previous_entry(segment, place, &it->key, &number, &found),
        lezgauri_next_entries(segment, place, &it->key, entries, it->number % (BATCH + 1), &count),
        lezgauri_content(segment, place, &found),
        lezgauri_item(segment, place, UINT32_MAX, &found),
    };
    counters[CALLS] += sizeof got / sizeof *got;
    uint64_t hash = hash_bytes(len, got, sizeof got);
    hash = hash_bytes(hash, &named, sizeof named);
    hash = hash_bytes(hash, &number, sizeof number);
    for (size_t i = 0; i < count; i++) {
        hash = hash_bytes(hash, &entries[i].key, sizeof entries[i].key);
    }
    return hash_bytes(hash, bytes.bytes, bytes.len);
}

/* Makes a call; `result` is what it returned besides its status. */
static uint32_t make(side *at, const call *it, lezgauri_place place, lezgauri_place second, uint64_t *result)
{
    static uint8_t printed[1 << 12];
    static const uint8_t text[MOST_TEXT] = "a text that is repeated, a text that is repeated, a text that is repeated";
    lezgauri_handle *h = at->handle;
    lezgauri_place made;
    lezgauri_report report = {0, 0, 0};
    size_t written = 0;
    uint32_t status;
    counters[CALLS]++;
    *result = 0;
    switch (it->operation) {
    case CONSTRUCT: return lezgauri_construct(h, names[it->name], it->type, it->count, &made);
    case FIND_OR_CONSTRUCT: return lezgauri_find_or_construct(h, names[it->name], it->type, &made);
    case DESTROY: return lezgauri_destroy(h, names[it->name], it->type);
    case CONSTRUCT_UNIQUE: return lezgauri_construct_unique(h, it->type, &made);
    case FIND_OR_CONSTRUCT_UNIQUE: return lezgauri_find_or_construct_unique(h, it->type, &made);
    case DESTROY_UNIQUE: return lezgauri_destroy_unique(h, it->type);
    case STORE_NUMBER: {
        int64_t number = 0;
        status = lezgauri_store(h, place, it->key);
        NEED(status != LEZGAURI_OK || (lezgauri_load(h, place, &number) == LEZGAURI_OK && number == it->key),
             "another number");
        return status;
    }
    case ASSIGN: {
        lezgauri_bytes bytes;
        status = lezgauri_assign(h, place, text, it->number % MOST_TEXT);
        if (status == LEZGAURI_OK) {
            NEED(lezgauri_text(h, place, &bytes) == LEZGAURI_OK && bytes.len == it->number % MOST_TEXT,
                 "another length");
            NEED(bytes.len == 0 || memcmp(bytes.bytes, text, bytes.len) == 0, "another text");
        }
        return status;
    }
    case APPEND: return lezgauri_append(h, place, text, it->number % MOST_TEXT);
    case PUSH_BACK: return lezgauri_push_back(h, place, &made);
    case PUSH_NUMBERS: {
        int64_t numbers[MOST_NUMBERS];
        uint32_t before, after, count = it->number % MOST_NUMBERS;
        size_t pushed = MOST_NUMBERS;
        for (uint32_t i = 0; i < count; i++) {
            numbers[i] = (int64_t)((uint64_t)it->key + i % 3);
        }
        bool has_len = lezgauri_len(h, place, &before) == LEZGAURI_OK;
        status = lezgauri_push_numbers(h, place, numbers, count, &pushed);
        NEED(pushed == (status == LEZGAURI_OK ? count : 0) || (status == LEZGAURI_BAD_ALLOC && pushed < count),
             "%zu of %u numbers are pushed with %u", pushed, count, status);
        if (has_len && lezgauri_len(h, place, &after) == LEZGAURI_OK) {
            NEED(after == before + pushed, "a vector has %u items after %zu were pushed to %u", after, pushed, before);
        }
        if (status == LEZGAURI_OK && count > 0) {
            lezgauri_bytes bytes;
            NEED(lezgauri_numbers(h, place, &bytes) == LEZGAURI_OK && bytes.len >= count * sizeof *numbers &&
                     memcmp(bytes.bytes + bytes.len - count * sizeof *numbers, numbers, count * sizeof *numbers) == 0,
                 "other numbers are pushed");
        }
        *result = pushed;
        return status;
    }
    case PUSH_FRONT: return lezgauri_push_front(h, place, &made);
    case POP_BACK: return lezgauri_pop_back(h, place);
    case POP_FRONT: return lezgauri_pop_front(h, place);
    case PUT_KEY: {
        lezgauri_place again;
        status = lezgauri_put(h, place, it->key, &made);
        if (status == LEZGAURI_OK) {
            NEED(lezgauri_get(h, place, it->key, &again) == LEZGAURI_OK && again.at == made.at,
                 "get doesn't find what put made");
        }
        return status;
    }
    case PUT_NUMBERS: {
        lezgauri_pair pairs[MOST_NUMBERS];
        uint32_t before, after, count = it->number % MOST_NUMBERS;
        size_t put = MOST_NUMBERS;
        for (uint32_t i = 0; i < count; i++) {
            pairs[i] = (lezgauri_pair){(int64_t)((uint64_t)it->key + i % 29), (int64_t)((uint64_t)it->key - i)};
        }
        bool has_len = lezgauri_len(h, place, &before) == LEZGAURI_OK;
        status = lezgauri_put_numbers(h, place, pairs, count, &put);
        NEED(put == (status == LEZGAURI_OK ? count : 0) || (status == LEZGAURI_BAD_ALLOC && put < count), "%zu of %u keys are put with %u",
             put, count, status);
        if (has_len && lezgauri_len(h, place, &after) == LEZGAURI_OK) {
            NEED(before <= after && after <= before + put, "a map has %u keys after %zu were put into %u", after, put, before);
        }
        if (put > 0) {
            int64_t number;
            NEED(lezgauri_get(h, place, pairs[put - 1].key, &made) == LEZGAURI_OK && lezgauri_load(h, made, &number) == LEZGAURI_OK &&
                     number == pairs[put - 1].number,
                 "the last key has another number");
        }
        *result = put;
        return status;
    }
    case REMOVE_KEY:
        status = lezgauri_remove(h, place, it->key);
        NEED(lezgauri_get(h, place, it->key, &made) == LEZGAURI_ABSENT, "a removed key is there");
        return status;
    case PUT_CONTENT: return lezgauri_put_content(h, place, &made);
    case CLEAR_VALUE: return lezgauri_clear(h, place);
    case SHRINK_TO_FIT: return lezgauri_shrink_to_fit(h, place);
    case FREEZE_OBJECT: return lezgauri_freeze(h, place, second);
    case SHARE_OBJECT: return lezgauri_share(h, place, second);
    case ANONYMOUS:
        status = lezgauri_construct_anonymous(h, it->type, &made);
        if (status == LEZGAURI_OK) {
            NEED(lezgauri_destroy_anonymous(h, made) == LEZGAURI_OK, "an anonymous object isn't destroyed");
        }
        return status;
    case UPGRADE: return lezgauri_upgrade(h);
    case GROW: {
        size_t before, after = 0;
        lezgauri_size(h, &before);
        status = lezgauri_grow(h, it->number % 4096, &after);
        NEED(status != LEZGAURI_OK || after == before + it->number % 4096, "grown to another size");
        return status;
    }
    case SHRINK_SEGMENT: return lezgauri_shrink(h, NULL);
    case RUN_ON:
        status = lezgauri_run_on(h, client, client_len, "input", 5, printed, sizeof printed, &written, &report, NULL);
        break;
    case RUN_WHOLE:
        status =
            lezgauri_run_whole(h, client, client_len, "input", 5, printed, sizeof printed, &written, &report, NULL);
        break;
    case PREPARE: {
        lezgauri_client *prepared;
        status = lezgauri_prepare(h, client, client_len, &prepared, NULL);
        if (status == LEZGAURI_OK) {
            lezgauri_client_close(kept[it->number % KEPT_CLIENTS]);
            kept[it->number % KEPT_CLIENTS] = prepared;
        }
        return status;
    }
    case RUN_PREPARED:
        if (kept[it->number % KEPT_CLIENTS] == NULL) {
            return LEZGAURI_OK;
        }
        status = lezgauri_run_client(h, kept[it->number % KEPT_CLIENTS], "input", 5, printed, sizeof printed, &written,
                                     &report, NULL);
        break;
    case READ: *result = read_all(h, it, place); return LEZGAURI_OK;
    case OTHER_TYPE: {
        lezgauri_place wrong_type = {place.at, LEZGAURI_MOST_TYPES + it->number};
        int64_t number;
        status = lezgauri_load(h, wrong_type, &number);
        NEED(status == LEZGAURI_OTHER_TYPE && lezgauri_clear(h, wrong_type) == status,
             "a type that isn't there is taken");
        return status;
    }
    default: return LEZGAURI_OK;
    }
    *result = hash_bytes(report.steps, printed, written <= sizeof printed ? written : 0);
    return status;
}

/* A call of this kind may change the segment's objects to a part although it fails. */
static bool may_do_a_part(enum operation operation)
{
    return operation == RUN_ON || operation == RUN_PREPARED || operation == PUSH_NUMBERS || operation == PUT_NUMBERS;
}

/* Makes a call with each request for memory refused in turn, and at last with none. */
static uint32_t make_refused(side *at, const call *it, lezgauri_place place, lezgauri_place second, uint64_t *result)
{
    for (unsigned request = 1;; request++) {
        uint64_t before = image_hash(at->handle);
        refuse_request(request);
        uint32_t status = make(at, it, place, second, result);
        bool is_reached = requests() >= request;
        refuse_request(0);
        if (status != LEZGAURI_MEMORY) {
            return status;
        }
        NEED(is_reached, "out of host memory, and no request was refused");
        NEED(image_hash(at->handle) == before, "call %d: out of host memory, and the image has changed", it->operation);
        counters[REFUSALS]++;
    }
}

/* Saves a segment and opens it again, at another place, with requests refused. */
static void reopen(side *at)
{
    size_t size, room = 2 * ROOM;
    lezgauri_handle *again = NULL;
    uint64_t hash = hash_objects(at->handle);
    NEED(lezgauri_size(at->handle, &size) == LEZGAURI_OK, "no size");
    uint8_t *saved = at->lent == NULL ? malloc(size) : guarded(room);
    NEED(lezgauri_save(at->handle, saved, size, NULL) == LEZGAURI_OK, "not saved");
    for (unsigned request = 1;; request++) {
        refuse_request(request);
        uint32_t status = at->lent == NULL ? lezgauri_open(saved, size, &again, NULL)
                                           : lezgauri_open_in(saved, size, room, &again, NULL);
        refuse_request(0);
        if (status == LEZGAURI_OK) {
            break;
        }
        NEED(status == LEZGAURI_MEMORY && again == NULL, "a saved image isn't opened: %u", status);
        counters[REFUSALS]++;
    }
    for (unsigned request = 1;; request++) {
        lezgauri_place place;
        refuse_request(request);
        uint32_t status = lezgauri_find_unique(again, 0, &place);
        refuse_request(0);
        if (status != LEZGAURI_MEMORY) {
            break;
        }
        counters[REFUSALS]++;
    }
    NEED(hash_objects(again) == hash, "a saved image has other objects");
    lezgauri_close(at->handle);
    at->handle = again;
    if (at->lent == NULL) {
        free(saved);
    } else {
        lezgauri_close(at->other);
        free_guarded(at->lent, room);
        at->lent = saved;
        NEED(lezgauri_open_in(saved, size, room, &at->other, NULL) == LEZGAURI_OK, "no second handle");
    }
}

static void swap_handles(side *at)
{
    if (at->other != NULL) {
        lezgauri_handle *handle = at->handle;
        at->handle = at->other;
        at->other = handle;
    }
}

/* The second handle on lent memory doesn't know a new length, so it is opened again. */
static void open_other(side *at)
{
    size_t size;
    if (at->other != NULL) {
        lezgauri_close(at->other);
        NEED(lezgauri_size(at->handle, &size) == LEZGAURI_OK, "no size");
        NEED(lezgauri_open_in(at->lent, size, 2 * ROOM, &at->other, NULL) == LEZGAURI_OK, "no second handle");
    }
}

static void need_sound(const side *at, const call *it)
{
    lezgauri_bytes image;
    lezgauri_fault fault;
    size_t all, largest;
    NEED(lezgauri_image(at->handle, &image) == LEZGAURI_OK, "no image");
    uint32_t status = lezgauri_check(image.bytes, image.len, &fault);
    NEED(status == LEZGAURI_OK, "after call %d the image has fault %u at %u", it->operation, status, fault.position);
    NEED(lezgauri_free_memory(at->handle, &all, &largest) == LEZGAURI_OK && largest <= all && all < image.len,
         "free memory");
}

/* A client may have met the end of memory on some of the segments. */
static void note_run(void)
{
    uint64_t first = hash_objects(sides[0].handle);
    for (int i = 1; i < SIDES && !is_short; i++) {
        is_short = hash_objects(sides[i].handle) != first;
    }
}

/* Makes a call on all segments. */
static void make_on_all(const call *it, bool refuses, bool compares)
{
    uint32_t status[SIDES];
    uint64_t result[SIDES];
    bool was_out = false;
    for (int i = 0; i < SIDES; i++) {
        side *at = &sides[i];
        lezgauri_place place = {704, 0}, second = {704, 0};
        uint32_t start = 0, other_start = 1;
        uint32_t kinds = kinds_of(it->operation);
        uint64_t before = compares ? hash_objects(at->handle) : 0;
        status[i] = LEZGAURI_OK;
        result[i] = 0;
        if (it->operation == REOPEN) {
            reopen(at);
            continue;
        }
        if (it->operation == SWAP_HANDLES) {
            swap_handles(at);
            continue;
        }
        bool needs_place = (it->operation >= STORE_NUMBER && it->operation <= SHARE_OBJECT) || it->operation == READ ||
                           it->operation == OTHER_TYPE;
        if (needs_place && !find_place(at->handle, it->way[0], kinds, &place, &start)) {
            continue;
        }
        if (it->operation == FREEZE_OBJECT || it->operation == SHARE_OBJECT) {
            if (!find_place(at->handle, it->way[1], 1 << LEZGAURI_KIND_SHARED, &second, &other_start)) {
                continue;
            }
            /* a shared cell in the object that is frozen isn't allowed */
            if (it->operation == FREEZE_OBJECT && (start - other_start) % 256 == 0) {
                continue;
            }
            lezgauri_place one, two;
            find_start(at->handle, start, 0, &one);
            find_start(at->handle, other_start, 0, &two);
            if (it->operation == FREEZE_OBJECT && one.at == two.at) {
                continue;
            }
        }
        status[i] = refuses ? make_refused(at, it, place, second, &result[i]) : make(at, it, place, second, &result[i]);
        was_out |= status[i] == LEZGAURI_BAD_ALLOC;
        if (it->operation == GROW || it->operation == SHRINK_SEGMENT) {
            open_other(at);
            result[i] = 0;
        }
        if (compares) {
            need_sound(at, it);
            if (status[i] != LEZGAURI_OK && !may_do_a_part(it->operation)) {
                NEED(hash_objects(at->handle) == before, "call %d fails with %u and changes an object", it->operation,
                     status[i]);
            }
        }
    }
    if (was_out) {
        counters[SHORT_CALLS]++;
    }
    counters[COMPARED] += !is_short;
    bool is_run = it->operation == RUN_ON || it->operation == RUN_WHOLE || it->operation == RUN_PREPARED;
    for (int i = 1; i < SIDES && !is_short; i++) {
        if (status[i] != status[0] || result[i] != result[0]) {
            NEED(was_out || is_run, "call %d returns %u on segment %d and %u on segment 0", it->operation, status[i], i,
                 status[0]);
            is_short = true;
        }
    }
    if (is_run && !is_short) {
        note_run();
    }
}

/* All segments have the same objects. */
static void compare_sides(const call *it)
{
    uint64_t first = hash_objects(sides[0].handle);
    for (int i = 0; i < SIDES; i++) {
        need_sound(&sides[i], it);
        NEED(is_short || hash_objects(sides[i].handle) == first, "after call %d segment %d has other objects",
             it->operation, i);
    }
}

static void begin(choices *from)
{
    size_t size = 4096u << choose(from, 6);
    size = size > ROOM ? ROOM : size;
    grows = 0;
    is_short = false;
    client_len = 0;
    choices of_types = choices_of_seed(choose(from, 1 << 16));
    type_count = generate_types(&of_types, types);
    for (int i = 0; i < SIDES; i++) {
        uint32_t allocator = i & 1 ? LEZGAURI_BEST_FIT : LEZGAURI_SEQ_FIT;
        uint32_t index = i & 2 ? LEZGAURI_TREE_INDEX : LEZGAURI_FLAT_INDEX;
        side *at = &sides[i];
        *at = (side){NULL, NULL, NULL};
        if (i == 1 || i == 2) {
            at->lent = guarded(2 * ROOM);
            NEED(lezgauri_create_in(at->lent, 2 * ROOM, size, allocator, index, &at->handle) == LEZGAURI_OK,
                 "not created");
        } else {
            NEED(lezgauri_create(size, allocator, index, &at->handle) == LEZGAURI_OK, "not created");
        }
        NEED(lezgauri_add_types(at->handle, types, type_count, NULL) == LEZGAURI_OK, "types aren't added");
        if (at->lent != NULL) {
            NEED(lezgauri_open_in(at->lent, size, 2 * ROOM, &at->other, NULL) == LEZGAURI_OK, "no second handle");
        }
    }
}

static void end(void)
{
    for (int i = 0; i < SIDES; i++) {
        lezgauri_close(sides[i].handle);
        lezgauri_close(sides[i].other);
        if (sides[i].lent != NULL) {
            free_guarded(sides[i].lent, 2 * ROOM);
        }
    }
    for (int i = 0; i < KEPT_CLIENTS; i++) {
        lezgauri_client_close(kept[i]);
        kept[i] = NULL;
    }
}

/* A new client, whose runs take few steps. */
static void choose_client(choices *from)
{
    uint64_t bound;
    lezgauri_bytes image;
    choices of_client = choices_of_seed(choose(from, 1 << 16));
    client_len = generate_client(&of_client, types, type_count, client);
    lezgauri_image(sides[0].handle, &image);
    if (lezgauri_verify(image.bytes, image.len, client, client_len, &bound, NULL) == LEZGAURI_OK && bound > 5000) {
        client_len = 0;
    }
}

void run_calls(const uint8_t *input, size_t len)
{
    choices from = choices_of_bytes(input, len);
    call it = {0};
    begin(&from);
    for (int made = 1; !is_over(&from) && made <= MOST_CALLS; made++) {
        uint32_t operation = choose(&from, 2 * OPERATIONS);
        it.operation = operation < OPERATIONS ? operation : operation % SHARE_OBJECT;
        for (int i = 0; i < 2; i++) {
            for (int k = 0; k < WAY; k++) {
                it.way[i][k] = (uint8_t)choose(&from, 256);
            }
            if (it.operation != FREEZE_OBJECT && it.operation != SHARE_OBJECT) {
                break;
            }
        }
        it.name = choose(&from, NAMES);
        it.type = choose(&from, type_count);
        it.count = choose(&from, 8) == 7 ? choose(&from, 256) : 1 + choose(&from, 3);
        it.number = choose(&from, 4) == 3 ? choose(&from, 4096) : choose(&from, 64);
        it.key = choose(&from, 8) == 7 ? INT64_MIN + (int64_t)choose(&from, 2) : (int64_t)choose(&from, 32) - 8;
        if (it.operation == GROW) {
            it.number = ++grows > MOST_GROWS ? 8 : it.number * 16; /* 8 is refused */
        }
        if (it.operation == RUN_ON || it.operation == RUN_WHOLE || it.operation == PREPARE) {
            choose_client(&from);
        }
        make_on_all(&it, it.way[0][0] % 4 == 0, it.way[0][1] % 4 == 0);
        if (made % CHECK_EACH == 0) {
            compare_sides(&it);
        }
    }
    compare_sides(&it);
    end();
}

size_t calls_input(choices *from, uint8_t *input)
{
    size_t len = 100 + choose(from, 8000);
    for (size_t i = 0; i < len; i++) {
        input[i] = (uint8_t)choose(from, 256);
    }
    return len;
}
