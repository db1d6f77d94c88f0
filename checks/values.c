/*
 * Calls the library's calls on values: each of them on both allocators and both indexes, with each status that it returns. What a test
 * expects is what it stored, or follows from docs/FORMATS.md. After each part of a test lezgauri_check accepts the image. Then the same
 * calls with invalid arguments and places: null pointers, pointers that aren't aligned, memory that overlaps, segments that another
 * call uses, images that can't be written, invalid places in sound and in broken images, and requests for memory that are refused. An
 * image in these tests ends directly before memory that can't be used, so that a read or a write beyond it is a crash. Prints each wrong
 * result, and at the end how many results are wrong.
 *
 * Link with -Wl,--wrap=malloc,--wrap=realloc: some calls are made, and some requests refused, during the library's requests for memory.
 */
#define _DEFAULT_SOURCE
#include <lezgauri.h>

#include <pthread.h>
#include <stdalign.h>
#include <stdbool.h>
#include <stdio.h>
#include <stdlib.h>
#include <string.h>
#include <sys/mman.h>

static int made;
static int wrong;

static void expect(const char *what, uint64_t got, uint64_t wanted)
{
    made++;
    if (got != wanted) {
        wrong++;
        printf("%s: %llu, wanted %llu\n", what, (unsigned long long)got, (unsigned long long)wanted);
    }
}

static _Noreturn void fail(const char *why)
{
    perror(why);
    exit(2);
}

/* ---- the library's requests for memory */

void *__real_malloc(size_t size);
void *__real_realloc(void *block, size_t size);

static size_t requests;
static size_t refused_request; /* counted from 1; 0 if none is refused */
static void (*at_request)(void);

static bool may_have(void)
{
    requests++;
    if (at_request != NULL) {
        at_request();
    }
    return requests != refused_request;
}

void *__wrap_malloc(size_t size)
{
    return may_have() ? __real_malloc(size) : NULL;
}

void *__wrap_realloc(void *block, size_t size)
{
    return may_have() ? __real_realloc(block, size) : NULL;
}

/* Counts requests from 0 again, refuses one of them, and makes this call at each. */
static void watch(size_t refused, void (*call)(void))
{
    requests = 0;
    refused_request = refused;
    at_request = call;
}

/* ---- segments */

enum { PAGE = 4096, SIZE = 16 * PAGE };

/* Memory for an image, directly before a page that can't be used. */
static uint8_t *new_memory(void)
{
    uint8_t *memory = mmap(NULL, SIZE + PAGE, PROT_READ | PROT_WRITE, MAP_PRIVATE | MAP_ANONYMOUS, -1, 0);
    if (memory == MAP_FAILED || mprotect(memory + SIZE, PAGE, PROT_NONE) != 0) {
        fail("memory");
    }
    return memory;
}

static void free_memory(uint8_t *memory)
{
    munmap(memory, SIZE + PAGE);
}

static void allow(uint8_t *memory, int how)
{
    if (mprotect(memory, SIZE, how) != 0) {
        fail("mprotect");
    }
}

/* The types of the tests, by their numbers. */
enum { NUMBER, STRING, NUMBERS, LIST, FLAT_MAP, MAP, OWN, PAIR, SHARED, PAIRS, NAMES, STRINGS, FLAT_NAMES, TYPES, NO_TYPE = TYPES };

static const lezgauri_type table[TYPES] = {
    [NUMBER] = {LEZGAURI_KIND_I64, 0, {0}, {0}},
    [STRING] = {LEZGAURI_KIND_STR, 0, {0}, {0}},
    [NUMBERS] = {LEZGAURI_KIND_VEC, 1, {NUMBER}, {0}},
    [LIST] = {LEZGAURI_KIND_LIST, 1, {NUMBER}, {0}},
    [FLAT_MAP] = {LEZGAURI_KIND_FLAT_MAP, 1, {NUMBER}, {0}},
    [MAP] = {LEZGAURI_KIND_MAP, 1, {NUMBER}, {0}},
    [OWN] = {LEZGAURI_KIND_OWN, 1, {STRING}, {0}},
    [PAIR] = {LEZGAURI_KIND_STRUCT, 2, {NUMBER, STRING}, {0}},
    [SHARED] = {LEZGAURI_KIND_SHARED, 1, {STRING}, {0}},
    [PAIRS] = {LEZGAURI_KIND_VEC, 1, {PAIR}, {0}},
    [NAMES] = {LEZGAURI_KIND_MAP, 1, {STRING}, {0}},
    [STRINGS] = {LEZGAURI_KIND_LIST, 1, {STRING}, {0}},
    [FLAT_NAMES] = {LEZGAURI_KIND_FLAT_MAP, 1, {STRING}, {0}},
};

static void done(const char *call, uint32_t status)
{
    expect(call, status, LEZGAURI_OK);
}

static lezgauri_bytes image_of(const lezgauri_handle *handle)
{
    lezgauri_bytes image = {NULL, 0};
    done("image", lezgauri_image(handle, &image));
    return image;
}

/* The image must be sound. */
static void is_sound(const char *after, const lezgauri_handle *handle)
{
    lezgauri_bytes image = image_of(handle);
    expect(after, lezgauri_check(image.bytes, image.len, NULL), LEZGAURI_OK);
}

/* An empty segment with the types of the tests, in this memory. */
static lezgauri_handle *new_segment(uint8_t *memory, uint32_t allocator, uint32_t index)
{
    lezgauri_handle *handle = NULL;
    lezgauri_fault fault;
    done("create in", lezgauri_create_in(memory, SIZE, SIZE, allocator, index, &handle));
    if (handle == NULL) {
        exit(2);
    }
    done("add types", lezgauri_add_types(handle, table, TYPES, &fault));
    expect("add types: number", fault.number, 0);
    return handle;
}

static lezgauri_place constructed(lezgauri_handle *handle, const char *name, uint32_t type)
{
    lezgauri_place place = {0, 0};
    done(name, lezgauri_construct(handle, name, type, 1, &place));
    expect(name, place.type, type);
    return place;
}

static int64_t number_at(const lezgauri_handle *handle, lezgauri_place place)
{
    int64_t number = 0;
    done("load", lezgauri_load(handle, place, &number));
    return number;
}

static uint32_t len_of(const lezgauri_handle *handle, lezgauri_place place)
{
    uint32_t len = 7;
    done("len", lezgauri_len(handle, place, &len));
    return len;
}

static void has_text(const char *what, const lezgauri_handle *handle, lezgauri_place place, const char *text)
{
    lezgauri_bytes bytes = {NULL, 7};
    done(what, lezgauri_text(handle, place, &bytes));
    expect(what, bytes.len, strlen(text));
    expect(what, bytes.len == strlen(text) && memcmp(bytes.bytes, text, bytes.len) == 0, 1);
    expect(what, len_of(handle, place), strlen(text));
}

/* The number in 8 bytes, the lowest first. */
static uint64_t number_in(const uint8_t *bytes)
{
    uint64_t number = 0;
    for (int k = 7; k >= 0; k--) {
        number = number << 8 | bytes[k];
    }
    return number;
}

static bool is_same(lezgauri_place a, lezgauri_place b)
{
    return a.at == b.at && a.type == b.type;
}

/* ---- objects */

static const char longest[] = "n23456789-123456789-123456789-123456789-123456789-123456789-123";
static const char too_long[] = "n23456789-123456789-123456789-123456789-123456789-123456789-1234";

static void named_objects(lezgauri_handle *handle)
{
    static const char *const names[] = {"!", "a", "a.b", "ab", "b", longest, "~"};
    enum { COUNT = sizeof names / sizeof *names };
    lezgauri_place place = {7, 7}, other;
    lezgauri_named named;
    memset(&named, 0x55, sizeof named);
    expect("next name of none", lezgauri_next_name(handle, NULL, &named), LEZGAURI_NO_VALUE);
    expect("find of none", lezgauri_find(handle, "a", NUMBER, &place), LEZGAURI_ABSENT);
    expect("find of none: as before", place.at, 7);
    expect("destroy of none", lezgauri_destroy(handle, "a", NUMBER), LEZGAURI_ABSENT);
    /* in another order than that of the names */
    for (size_t i = 0; i < COUNT; i++) {
        size_t which = i * 3 % COUNT;
        done("construct", lezgauri_construct(handle, names[which], NUMBER, 1 + (uint32_t)which, &place));
        for (uint32_t item = 0; item <= which; item++) {
            done("find item", lezgauri_find_item(handle, names[which], NUMBER, item, &other));
            expect("find item: place", other.at, place.at + 8 * item);
            expect("find item: default", (uint64_t)number_at(handle, other), 0);
            done("store", lezgauri_store(handle, other, (int64_t)(100 * which + item)));
        }
        place.at = 7;
        expect("find item, out of range", lezgauri_find_item(handle, names[which], NUMBER, 1 + (uint32_t)which, &place),
               LEZGAURI_OUT_OF_RANGE);
        expect("find item, the largest index", lezgauri_find_item(handle, names[which], NUMBER, UINT32_MAX, &place),
               LEZGAURI_OUT_OF_RANGE);
        expect("find item, out of range: as before", place.at, 7);
    }
    is_sound("construct: sound", handle);
    expect("construct again", lezgauri_construct(handle, "a", NUMBER, 1, &place), LEZGAURI_ALREADY_EXISTS);
    expect("construct again, of another type", lezgauri_construct(handle, "a", STRING, 1, &place), LEZGAURI_ALREADY_EXISTS);
    expect("construct of no values", lezgauri_construct(handle, "z", NUMBER, 0, &place), LEZGAURI_OUT_OF_RANGE);
    expect("construct of too many values", lezgauri_construct(handle, "z", NUMBER, 65536, &place), LEZGAURI_OUT_OF_RANGE);
    expect("construct of too much", lezgauri_construct(handle, "z", NUMBER, 65535, &place), LEZGAURI_BAD_ALLOC);
    expect("construct of no type", lezgauri_construct(handle, "z", NO_TYPE, 1, &place), LEZGAURI_OTHER_TYPE);
    expect("construct of type 256", lezgauri_construct(handle, "z", 256, 1, &place), LEZGAURI_OTHER_TYPE);
    expect("construct of the largest type", lezgauri_construct(handle, "z", UINT32_MAX, 1, &place), LEZGAURI_OTHER_TYPE);
    static const char *const no_names[] = {"", " ", "a b", "a\n", "\x7f", "\xc3\xa4", too_long};
    for (size_t i = 0; i < sizeof no_names / sizeof *no_names; i++) {
        expect("construct, no name", lezgauri_construct(handle, no_names[i], NUMBER, 1, &place), LEZGAURI_OUT_OF_RANGE);
        expect("find or construct, no name", lezgauri_find_or_construct(handle, no_names[i], NUMBER, &place), LEZGAURI_OUT_OF_RANGE);
        expect("find, no name", lezgauri_find(handle, no_names[i], NUMBER, &place), LEZGAURI_ABSENT);
        expect("named object, no name", lezgauri_named_object(handle, no_names[i], &named), LEZGAURI_ABSENT);
        expect("destroy, no name", lezgauri_destroy(handle, no_names[i], NUMBER), LEZGAURI_ABSENT);
    }
    expect("refused: as before", place.at, 7);
    expect("find, another type", lezgauri_find(handle, "a", STRING, &place), LEZGAURI_OTHER_TYPE);
    expect("find, no type", lezgauri_find(handle, "a", NO_TYPE, &place), LEZGAURI_OTHER_TYPE);
    expect("find or construct, another type", lezgauri_find_or_construct(handle, "a", STRING, &place), LEZGAURI_OTHER_TYPE);
    expect("destroy, another type", lezgauri_destroy(handle, "a", STRING), LEZGAURI_ABSENT);
    expect("refused: as before", place.at, 7);
    done("find or construct, there", lezgauri_find_or_construct(handle, "ab", NUMBER, &place));
    done("find, there", lezgauri_find(handle, "ab", NUMBER, &other));
    expect("find or construct, there: place", is_same(place, other), 1);
    expect("find: number", (uint64_t)number_at(handle, other), 300);
    /* the names in their order */
    size_t next = 0;
    const char *after = NULL;
    while (next < COUNT && lezgauri_next_name(handle, after, &named) == LEZGAURI_OK) {
        expect("next name", (uint64_t)strcmp(named.name, names[next]), 0);
        expect("next name: count", named.count, next + 1);
        expect("next name: type", named.type, NUMBER);
        expect("next name: zeros", named.name[strlen(names[next])] == 0 && named.name[63] == 0, 1);
        lezgauri_named found;
        done("named object", lezgauri_named_object(handle, names[next], &found));
        expect("named object: the same", (uint64_t)memcmp(&found, &named, sizeof found), 0);
        after = named.name;
        next++;
    }
    expect("next name: all", next, COUNT);
    expect("next name: no more", lezgauri_next_name(handle, named.name, &named), LEZGAURI_NO_VALUE);
    done("next name of an empty name", lezgauri_next_name(handle, "", &named));
    expect("next name of an empty name: the first", (uint64_t)strcmp(named.name, "!"), 0);
    done("next name of a name that isn't there", lezgauri_next_name(handle, "a-", &named));
    expect("next name of a name that isn't there", (uint64_t)strcmp(named.name, "a.b"), 0);
    done("next name of a longer one", lezgauri_next_name(handle, too_long, &named));
    expect("next name of a longer one", (uint64_t)strcmp(named.name, "~"), 0);
    for (size_t i = 0; i < COUNT; i++) {
        done("destroy", lezgauri_destroy(handle, names[i], NUMBER));
        expect("destroy: no longer there", lezgauri_find(handle, names[i], NUMBER, &place), LEZGAURI_ABSENT);
    }
    is_sound("destroy: sound", handle);
}

static void unique_objects(lezgauri_handle *handle)
{
    lezgauri_place place = {7, 7}, other = {0, 0};
    expect("find unique of none", lezgauri_find_unique(handle, PAIR, &place), LEZGAURI_ABSENT);
    expect("destroy unique of none", lezgauri_destroy_unique(handle, PAIR), LEZGAURI_ABSENT);
    expect("unique of no type", lezgauri_construct_unique(handle, NO_TYPE, &place), LEZGAURI_OTHER_TYPE);
    expect("find unique of no type", lezgauri_find_unique(handle, NO_TYPE, &place), LEZGAURI_OTHER_TYPE);
    expect("refused: as before", place.at, 7);
    done("construct unique", lezgauri_construct_unique(handle, PAIR, &place));
    expect("construct unique again", lezgauri_construct_unique(handle, PAIR, &other), LEZGAURI_ALREADY_EXISTS);
    expect("construct unique again: as before", other.at, 0);
    done("find unique", lezgauri_find_unique(handle, PAIR, &other));
    expect("find unique: place", is_same(place, other), 1);
    done("find or construct unique", lezgauri_find_or_construct_unique(handle, PAIR, &other));
    expect("find or construct unique: place", is_same(place, other), 1);
    done("find or construct unique, new", lezgauri_find_or_construct_unique(handle, STRING, &other));
    has_text("find or construct unique: default", handle, other, "");
    is_sound("unique: sound", handle);
    done("destroy unique", lezgauri_destroy_unique(handle, PAIR));
    done("destroy unique", lezgauri_destroy_unique(handle, STRING));
    expect("find unique, destroyed", lezgauri_find_unique(handle, PAIR, &place), LEZGAURI_ABSENT);
    is_sound("destroy unique: sound", handle);
}

static void anonymous_objects(lezgauri_handle *handle)
{
    lezgauri_place place;
    lezgauri_bytes image = image_of(handle);
    done("construct anonymous", lezgauri_construct_anonymous(handle, STRING, &place));
    done("assign", lezgauri_assign(handle, place, "twenty bytes or more", 20));
    has_text("anonymous: text", handle, place, "twenty bytes or more");
    expect("anonymous: no owner", lezgauri_check(image.bytes, image.len, NULL), LEZGAURI_UNOWNED);
    done("destroy anonymous", lezgauri_destroy_anonymous(handle, place));
    is_sound("destroy anonymous: sound", handle);
    expect("construct anonymous of no type", lezgauri_construct_anonymous(handle, NO_TYPE, &place), LEZGAURI_OTHER_TYPE);
}

/* ---- values */

static void numbers_and_structs(lezgauri_handle *handle)
{
    static const int64_t numbers[] = {0, 1, -1, INT64_MAX, INT64_MIN, 0x0102030405060708};
    lezgauri_place pair = constructed(handle, "pair", PAIR), number, string, other = {7, 7};
    done("field", lezgauri_field(handle, pair, 0, &number));
    done("field", lezgauri_field(handle, pair, 1, &string));
    expect("field: places", number.at == pair.at && string.at == pair.at + 8 && number.type == NUMBER && string.type == STRING, 1);
    expect("field, out of range", lezgauri_field(handle, pair, 2, &other), LEZGAURI_OUT_OF_RANGE);
    expect("field of a number", lezgauri_field(handle, number, 0, &other), LEZGAURI_OTHER_TYPE);
    expect("field of no type", lezgauri_field(handle, (lezgauri_place){pair.at, NO_TYPE}, 0, &other), LEZGAURI_OTHER_TYPE);
    expect("field, refused: as before", other.at, 7);
    for (size_t i = 0; i < sizeof numbers / sizeof *numbers; i++) {
        done("store", lezgauri_store(handle, number, numbers[i]));
        expect("load", (uint64_t)number_at(handle, number), (uint64_t)numbers[i]);
        uint8_t bytes[8];
        for (int k = 0; k < 8; k++) {
            bytes[k] = (uint8_t)((uint64_t)numbers[i] >> (8 * k));
        }
        expect("store: bytes", (uint64_t)memcmp(image_of(handle).bytes + number.at, bytes, 8), 0);
    }
    int64_t loaded = 7;
    expect("load of a string", lezgauri_load(handle, string, &loaded), LEZGAURI_OTHER_TYPE);
    expect("load of no type", lezgauri_load(handle, (lezgauri_place){number.at, UINT32_MAX}, &loaded), LEZGAURI_OTHER_TYPE);
    expect("load, refused: as before", (uint64_t)loaded, 7);
    expect("store in a string", lezgauri_store(handle, string, 7), LEZGAURI_OTHER_TYPE);
    has_text("store in a string: as before", handle, string, "");
    done("assign", lezgauri_assign(handle, string, "text", 4));
    expect("clear of no type", lezgauri_clear(handle, (lezgauri_place){pair.at, UINT32_MAX}), LEZGAURI_OTHER_TYPE);
    has_text("clear of no type: as before", handle, string, "text");
    done("clear", lezgauri_clear(handle, pair));
    expect("clear: number", (uint64_t)number_at(handle, number), 0);
    has_text("clear: text", handle, string, "");
    is_sound("struct: sound", handle);
    done("destroy", lezgauri_destroy(handle, "pair", PAIR));
}

static void strings(lezgauri_handle *handle)
{
    static char large[2 * SIZE];
    lezgauri_place string = constructed(handle, "text", STRING), number = constructed(handle, "n", NUMBER);
    lezgauri_bytes bytes = {NULL, 7};
    has_text("text: default", handle, string, "");
    done("append", lezgauri_append(handle, string, "one", 3));
    done("append", lezgauri_append(handle, string, ", two", 5));
    has_text("append", handle, string, "one, two");
    done("append of nothing", lezgauri_append(handle, string, NULL, 0));
    has_text("append of nothing", handle, string, "one, two");
    done("pop back", lezgauri_pop_back(handle, string));
    has_text("pop back", handle, string, "one, tw");
    done("assign", lezgauri_assign(handle, string, "three\0four", 10));
    done("text", lezgauri_text(handle, string, &bytes));
    expect("assign with a zero", bytes.len == 10 && memcmp(bytes.bytes, "three\0four", 10) == 0, 1);
    expect("assign of too much", lezgauri_assign(handle, string, large, sizeof large), LEZGAURI_BAD_ALLOC);
    expect("append of too much", lezgauri_append(handle, string, large, sizeof large), LEZGAURI_BAD_ALLOC);
    expect("refused: as before", len_of(handle, string), 10);
    done("assign of less", lezgauri_assign(handle, string, "five", 4));
    done("shrink to fit", lezgauri_shrink_to_fit(handle, string));
    has_text("shrink to fit", handle, string, "five");
    expect("text of a number", lezgauri_text(handle, number, &bytes), LEZGAURI_OTHER_TYPE);
    expect("text of a number: as before", bytes.len, 10);
    expect("assign to a number", lezgauri_assign(handle, number, "six", 3), LEZGAURI_OTHER_TYPE);
    expect("append to a number", lezgauri_append(handle, number, "six", 3), LEZGAURI_OTHER_TYPE);
    expect("pop back of a number", lezgauri_pop_back(handle, number), LEZGAURI_OTHER_TYPE);
    uint32_t len = 7;
    expect("len of a number", lezgauri_len(handle, number, &len), LEZGAURI_OTHER_TYPE);
    expect("len of a number: as before", len, 7);
    done("assign of nothing", lezgauri_assign(handle, string, NULL, 0));
    has_text("assign of nothing", handle, string, "");
    expect("pop back of an empty text", lezgauri_pop_back(handle, string), LEZGAURI_NO_VALUE);
    is_sound("text: sound", handle);
    done("destroy", lezgauri_destroy(handle, "text", STRING));
    done("destroy", lezgauri_destroy(handle, "n", NUMBER));
}

static void vectors(lezgauri_handle *handle)
{
    enum { COUNT = 100 };
    lezgauri_place vector = constructed(handle, "vector", NUMBERS), pairs = constructed(handle, "pairs", PAIRS), item, field;
    lezgauri_bytes bytes = {NULL, 7};
    done("numbers of none", lezgauri_numbers(handle, vector, &bytes));
    expect("numbers of none", bytes.len, 0);
    expect("pop back of none", lezgauri_pop_back(handle, vector), LEZGAURI_NO_VALUE);
    expect("item of none", lezgauri_item(handle, vector, 0, &item), LEZGAURI_OUT_OF_RANGE);
    for (int i = 0; i < COUNT; i++) {
        done("push back", lezgauri_push_back(handle, vector, &item));
        expect("push back: type", item.type, NUMBER);
        expect("push back: default", (uint64_t)number_at(handle, item), 0);
        done("store", lezgauri_store(handle, item, 3 - 5 * i));
        expect("len", len_of(handle, vector), (uint64_t)i + 1);
    }
    done("numbers", lezgauri_numbers(handle, vector, &bytes));
    expect("numbers: length", bytes.len, 8 * COUNT);
    for (int i = 0; i < COUNT; i++) {
        expect("numbers: a number", number_in(bytes.bytes + 8 * i), (uint64_t)(int64_t)(3 - 5 * i));
        done("item", lezgauri_item(handle, vector, (uint32_t)i, &item));
        expect("item", (uint64_t)number_at(handle, item), (uint64_t)(int64_t)(3 - 5 * i));
    }
    expect("item, out of range", lezgauri_item(handle, vector, COUNT, &item), LEZGAURI_OUT_OF_RANGE);
    expect("push front of a vector", lezgauri_push_front(handle, vector, &item), LEZGAURI_OTHER_TYPE);
    expect("pop front of a vector", lezgauri_pop_front(handle, vector), LEZGAURI_OTHER_TYPE);
    expect("next item of a vector", lezgauri_next_item(handle, vector, item, &item), LEZGAURI_OTHER_TYPE);
    expect("previous item of a vector", lezgauri_previous_item(handle, vector, item, &item), LEZGAURI_OTHER_TYPE);
    for (int i = COUNT; i > 3; i--) {
        done("pop back", lezgauri_pop_back(handle, vector));
    }
    done("shrink to fit", lezgauri_shrink_to_fit(handle, vector));
    expect("shrink to fit: len", len_of(handle, vector), 3);
    done("item", lezgauri_item(handle, vector, 2, &item));
    expect("shrink to fit: item", (uint64_t)number_at(handle, item), (uint64_t)(int64_t)(3 - 5 * 2));
    for (int i = 0; i < 5; i++) {
        done("push back", lezgauri_push_back(handle, pairs, &item));
        done("field", lezgauri_field(handle, item, 1, &field));
        done("assign", lezgauri_assign(handle, field, "01234567890123456789", 4 * (size_t)i));
    }
    for (int i = 0; i < 5; i++) {
        done("item", lezgauri_item(handle, pairs, (uint32_t)i, &item));
        done("field", lezgauri_field(handle, item, 1, &field));
        expect("text of a struct", len_of(handle, field), 4 * (uint64_t)i);
    }
    expect("numbers of structs", lezgauri_numbers(handle, pairs, &bytes), LEZGAURI_OTHER_TYPE);
    expect("numbers of a number", lezgauri_numbers(handle, field, &bytes), LEZGAURI_OTHER_TYPE);
    expect("pairs of a vector", lezgauri_pairs(handle, vector, &bytes), LEZGAURI_OTHER_TYPE);
    expect("pairs of structs", lezgauri_pairs(handle, pairs, &bytes), LEZGAURI_OTHER_TYPE);
    size_t pushed = 7;
    expect("push numbers to structs", lezgauri_push_numbers(handle, pairs, &(int64_t){1}, 1, &pushed), LEZGAURI_OTHER_TYPE);
    expect("push numbers to structs: how many", pushed, 0);
    pushed = 7;
    expect("push no numbers to a string", lezgauri_push_numbers(handle, field, NULL, 0, &pushed), LEZGAURI_OTHER_TYPE);
    expect("push no numbers to a string: how many", pushed, 0);
    is_sound("vector: sound", handle);
    done("clear", lezgauri_clear(handle, pairs));
    expect("clear: len", len_of(handle, pairs), 0);
    uint32_t status;
    do {
        status = lezgauri_push_back(handle, vector, &item);
    } while (status == LEZGAURI_OK);
    expect("push back, no room", status, LEZGAURI_BAD_ALLOC);
    is_sound("push back, no room: sound", handle);
    done("destroy", lezgauri_destroy(handle, "vector", NUMBERS));
    done("destroy", lezgauri_destroy(handle, "pairs", PAIRS));
}

static void lists(lezgauri_handle *handle)
{
    enum { COUNT = 9 };
    lezgauri_place list = constructed(handle, "list", LIST), item, next, number;
    expect("pop back of none", lezgauri_pop_back(handle, list), LEZGAURI_NO_VALUE);
    expect("pop front of none", lezgauri_pop_front(handle, list), LEZGAURI_NO_VALUE);
    expect("item of none", lezgauri_item(handle, list, 0, &item), LEZGAURI_OUT_OF_RANGE);
    /* 0 to 8: from 4 down at the front, from 5 up at the end */
    for (int i = 4; i >= 0; i--) {
        done("push front", lezgauri_push_front(handle, list, &item));
        done("store", lezgauri_store(handle, item, i));
    }
    for (int i = 5; i < COUNT; i++) {
        done("push back", lezgauri_push_back(handle, list, &item));
        done("store", lezgauri_store(handle, item, i));
    }
    expect("len", len_of(handle, list), COUNT);
    done("item", lezgauri_item(handle, list, 0, &item));
    for (uint32_t i = 0; i < COUNT; i++) {
        expect("next item", (uint64_t)number_at(handle, item), i);
        done("item", lezgauri_item(handle, list, i, &number));
        expect("item: place", is_same(item, number), 1);
        next = (lezgauri_place){7, 7};
        expect("next item", lezgauri_next_item(handle, list, item, &next), i + 1 < COUNT ? LEZGAURI_OK : LEZGAURI_NO_VALUE);
        item = i + 1 < COUNT ? next : item;
    }
    expect("next item of the last: as before", next.at, 7);
    for (uint32_t i = COUNT; i-- > 0;) {
        expect("previous item", (uint64_t)number_at(handle, item), i);
        expect("previous item", lezgauri_previous_item(handle, list, item, &item), i > 0 ? LEZGAURI_OK : LEZGAURI_NO_VALUE);
    }
    expect("item, out of range", lezgauri_item(handle, list, COUNT, &item), LEZGAURI_OUT_OF_RANGE);
    expect("next item of a number", lezgauri_next_item(handle, item, item, &item), LEZGAURI_OTHER_TYPE);
    done("pop back", lezgauri_pop_back(handle, list));
    done("pop front", lezgauri_pop_front(handle, list));
    expect("pop: len", len_of(handle, list), COUNT - 2);
    done("item", lezgauri_item(handle, list, 0, &item));
    expect("pop front", (uint64_t)number_at(handle, item), 1);
    done("item", lezgauri_item(handle, list, COUNT - 3, &item));
    expect("pop back", (uint64_t)number_at(handle, item), COUNT - 2);
    is_sound("list: sound", handle);
    lezgauri_place texts = constructed(handle, "texts", STRINGS);
    uint32_t status;
    do {
        status = lezgauri_push_front(handle, texts, &item);
    } while (status == LEZGAURI_OK);
    expect("push front, no room", status, LEZGAURI_BAD_ALLOC);
    is_sound("push front, no room: sound", handle);
    done("destroy", lezgauri_destroy(handle, "texts", STRINGS));
    done("destroy", lezgauri_destroy(handle, "list", LIST));
}

/* Reads a map in batches of each size, and compares it with keys in order. The value of keys[i] is 2 * i + 1. Entries that a call doesn't
 * return are as before. */
static void batches(lezgauri_handle *handle, lezgauri_place map, const int64_t *keys, size_t len)
{
    lezgauri_entry entries[64], before[64];
    memset(before, 0x55, sizeof before);
    for (size_t room = 1; room <= len + 2; room++) {
        int64_t after = 0;
        for (size_t read = 0; read <= len; read += room) {
            size_t wanted = len - read < room ? len - read : room, count = 0;
            memcpy(entries, before, sizeof entries);
            done("next entries", lezgauri_next_entries(handle, map, read == 0 ? NULL : &after, entries, room, &count));
            expect("next entries: count", count, wanted);
            for (size_t i = 0; i < wanted; i++) {
                expect("next entries: key", (uint64_t)entries[i].key, (uint64_t)keys[read + i]);
                expect("next entries: value", (uint64_t)number_at(handle, entries[i].value), 2 * (read + i) + 1);
            }
            expect("next entries: the others", (uint64_t)memcmp(entries + wanted, before, (64 - wanted) * sizeof *entries), 0);
            after = entries[room - 1].key;
        }
    }
}

/* Compares the pairs of a flat map with `count` keys: every `step`-th from the first given one on. The value of keys[i] is 2 * i + 1. A map
 * that isn't flat has no pairs. */
static void has_pairs(lezgauri_handle *handle, lezgauri_place map, const int64_t *keys, size_t first, size_t step, size_t count)
{
    lezgauri_bytes bytes = {NULL, 7};
    if (map.type != FLAT_MAP) {
        expect("pairs of a tree", lezgauri_pairs(handle, map, &bytes), LEZGAURI_OTHER_TYPE);
        expect("pairs of a tree: as before", bytes.len, 7);
        return;
    }
    done("pairs", lezgauri_pairs(handle, map, &bytes));
    expect("pairs: length", bytes.len, 16 * count);
    for (size_t i = 0; i < count && bytes.len == 16 * count; i++) {
        size_t which = first + step * i;
        lezgauri_place value = {0, 0};
        expect("pairs: key", number_in(bytes.bytes + 16 * i), (uint64_t)keys[which]);
        expect("pairs: number", number_in(bytes.bytes + 16 * i + 8), 2 * which + 1);
        done("get", lezgauri_get(handle, map, keys[which], &value));
        expect("pairs: not a copy", bytes.bytes + 16 * i + 8 == image_of(handle).bytes + value.at, 1);
    }
}

static void flat_map_of_strings(lezgauri_handle *handle)
{
    lezgauri_place map = constructed(handle, "names", FLAT_NAMES), value;
    lezgauri_bytes bytes = {NULL, 7};
    done("put", lezgauri_put(handle, map, 1, &value));
    done("assign", lezgauri_assign(handle, value, "one", 3));
    expect("pairs of strings", lezgauri_pairs(handle, map, &bytes), LEZGAURI_OTHER_TYPE);
    expect("pairs of a string", lezgauri_pairs(handle, value, &bytes), LEZGAURI_OTHER_TYPE);
    expect("pairs of strings: as before", bytes.len, 7);
    is_sound("flat map of strings: sound", handle);
    done("destroy", lezgauri_destroy(handle, "names", FLAT_NAMES));
}

/* Puts the keys of a row, which jump between both ends, and compares the map with the row in order. */
static void maps(lezgauri_handle *handle, uint32_t type)
{
    enum { COUNT = 41, STEP = 16 };
    lezgauri_place map = constructed(handle, "map", type), value, other;
    int64_t keys[COUNT], key = 7;
    for (int i = 0; i < COUNT; i++) {
        keys[i] = (int64_t)(i - COUNT / 2) * 1000;
    }
    keys[0] = INT64_MIN;
    keys[COUNT - 1] = INT64_MAX;
    expect("next key of none", lezgauri_next_key(handle, map, NULL, &key), LEZGAURI_NO_VALUE);
    expect("previous key of none", lezgauri_previous_key(handle, map, NULL, &key), LEZGAURI_NO_VALUE);
    expect("next key of none: as before", (uint64_t)key, 7);
    value = (lezgauri_place){7, type};
    expect("next entry of none", lezgauri_next_entry(handle, map, NULL, &key, &value), LEZGAURI_NO_VALUE);
    expect("previous entry of none", lezgauri_previous_entry(handle, map, NULL, &key, &value), LEZGAURI_NO_VALUE);
    expect("next entry of none: as before", (uint64_t)key, 7);
    expect("next entry of none: as before", is_same(value, (lezgauri_place){7, type}), 1);
    batches(handle, map, keys, 0);
    has_pairs(handle, map, keys, 0, 1, 0);
    for (int i = 0; i < COUNT; i++) {
        int which = i * STEP % COUNT;
        expect("get, not yet", lezgauri_get(handle, map, keys[which], &value), LEZGAURI_ABSENT);
        done("put", lezgauri_put(handle, map, keys[which], &value));
        expect("put: default", (uint64_t)number_at(handle, value), 0);
        done("store", lezgauri_store(handle, value, 2 * which + 1));
        done("put again", lezgauri_put(handle, map, keys[which], &other));
        expect("put again: place", is_same(value, other), 1);
        expect("len", len_of(handle, map), (uint64_t)i + 1);
    }
    is_sound("map: sound", handle);
    const int64_t *from = NULL;
    for (int i = 0; i < COUNT; i++) {
        done("next key", lezgauri_next_key(handle, map, from, &key));
        expect("next key", (uint64_t)key, (uint64_t)keys[i]);
        from = &key;
        done("get", lezgauri_get(handle, map, key, &value));
        expect("get", (uint64_t)number_at(handle, value), 2 * (uint64_t)i + 1);
    }
    expect("next key of the greatest", lezgauri_next_key(handle, map, &key, &key), LEZGAURI_NO_VALUE);
    expect("next key of the greatest: as before", (uint64_t)key, (uint64_t)keys[COUNT - 1]);
    from = NULL;
    for (int i = COUNT; i-- > 0;) {
        done("previous key", lezgauri_previous_key(handle, map, from, &key));
        expect("previous key", (uint64_t)key, (uint64_t)keys[i]);
        from = &key;
    }
    expect("previous key of the least", lezgauri_previous_key(handle, map, &key, &key), LEZGAURI_NO_VALUE);
    from = NULL;
    for (int i = 0; i < COUNT; i++) {
        done("next entry", lezgauri_next_entry(handle, map, from, &key, &value));
        expect("next entry: key", (uint64_t)key, (uint64_t)keys[i]);
        expect("next entry: value", (uint64_t)number_at(handle, value), 2 * (uint64_t)i + 1);
        from = &key;
    }
    other = value;
    expect("next entry of the greatest", lezgauri_next_entry(handle, map, &key, &key, &value), LEZGAURI_NO_VALUE);
    expect("next entry of the greatest: as before", (uint64_t)key, (uint64_t)keys[COUNT - 1]);
    expect("next entry of the greatest: as before", is_same(value, other), 1);
    from = NULL;
    for (int i = COUNT; i-- > 0;) {
        done("previous entry", lezgauri_previous_entry(handle, map, from, &key, &value));
        expect("previous entry: key", (uint64_t)key, (uint64_t)keys[i]);
        expect("previous entry: value", (uint64_t)number_at(handle, value), 2 * (uint64_t)i + 1);
        from = &key;
    }
    expect("previous entry of the least", lezgauri_previous_entry(handle, map, &key, &key, &value), LEZGAURI_NO_VALUE);
    batches(handle, map, keys, COUNT);
    has_pairs(handle, map, keys, 0, 1, COUNT);
    lezgauri_entry entries[3] = {{7, {7, type}}};
    size_t count = 0;
    from = NULL;
    for (int i = 0; i < COUNT; i += 3) {
        done("next entries, after one of them", lezgauri_next_entries(handle, map, from, entries, 3, &count));
        expect("next entries, after one of them: count", count, i + 3 <= COUNT ? 3 : COUNT % 3);
        expect("next entries, after one of them: key", (uint64_t)entries[0].key, (uint64_t)keys[i]);
        from = &entries[2].key;
    }
    done("next entries of the greatest", lezgauri_next_entries(handle, map, &keys[COUNT - 1], entries, 3, &count));
    expect("next entries of the greatest", count, 0);
    count = 7;
    done("next entries, no room", lezgauri_next_entries(handle, map, NULL, NULL, 0, &count));
    expect("next entries, no room", count, 0);
    int64_t between = 500;
    done("next entries of no key", lezgauri_next_entries(handle, map, &between, entries, 2, &count));
    expect("next entries of no key", count == 2 && entries[0].key == 1000 && entries[1].key == 2000, 1);
    expect("next entries of no key: value", (uint64_t)number_at(handle, entries[0].value), 2 * (COUNT / 2 + 1) + 1);
    done("next key of no key", lezgauri_next_key(handle, map, &between, &key));
    expect("next key of no key", (uint64_t)key, 1000);
    done("previous key of no key", lezgauri_previous_key(handle, map, &between, &key));
    expect("previous key of no key", (uint64_t)key, 0);
    done("next entry of no key", lezgauri_next_entry(handle, map, &between, &key, &value));
    expect("next entry of no key", (uint64_t)key, 1000);
    expect("next entry of no key: value", (uint64_t)number_at(handle, value), 2 * (COUNT / 2 + 1) + 1);
    done("previous entry of no key", lezgauri_previous_entry(handle, map, &between, &key, &value));
    expect("previous entry of no key", (uint64_t)key, 0);
    expect("previous entry of no key: value", (uint64_t)number_at(handle, value), 2 * (COUNT / 2) + 1);
    expect("remove, no such key", lezgauri_remove(handle, map, between), LEZGAURI_ABSENT);
    for (int i = 0; i < COUNT; i += 2) {
        done("remove", lezgauri_remove(handle, map, keys[i]));
        expect("remove: no longer there", lezgauri_get(handle, map, keys[i], &value), LEZGAURI_ABSENT);
    }
    expect("remove: len", len_of(handle, map), COUNT / 2);
    for (int i = 1; i < COUNT; i += 2) {
        done("get, the others", lezgauri_get(handle, map, keys[i], &value));
        expect("get, the others", (uint64_t)number_at(handle, value), 2 * (uint64_t)i + 1);
    }
    lezgauri_entry odd[COUNT];
    done("next entries, the others", lezgauri_next_entries(handle, map, NULL, odd, COUNT, &count));
    expect("next entries, the others: count", count, COUNT / 2);
    for (int i = 0; i < COUNT / 2; i++) {
        expect("next entries, the others", (uint64_t)odd[i].key, (uint64_t)keys[2 * i + 1]);
    }
    has_pairs(handle, map, keys, 1, 2, COUNT / 2);
    is_sound("remove: sound", handle);
    /* a tree has no buffer */
    expect("shrink to fit", lezgauri_shrink_to_fit(handle, map), type == FLAT_MAP ? LEZGAURI_OK : LEZGAURI_OTHER_TYPE);
    is_sound("shrink to fit: sound", handle);
    has_pairs(handle, map, keys, 1, 2, COUNT / 2);
    done("get", lezgauri_get(handle, map, keys[1], &value));
    expect("get of a number", lezgauri_get(handle, value, 0, &other), LEZGAURI_OTHER_TYPE);
    expect("put in a number", lezgauri_put(handle, value, 0, &other), LEZGAURI_OTHER_TYPE);
    expect("next key of a number", lezgauri_next_key(handle, value, NULL, &key), LEZGAURI_OTHER_TYPE);
    expect("next key of a number", lezgauri_next_key(handle, value, &between, &key), LEZGAURI_OTHER_TYPE);
    expect("previous key of a number", lezgauri_previous_key(handle, value, NULL, &key), LEZGAURI_OTHER_TYPE);
    expect("previous key of a number", lezgauri_previous_key(handle, value, &between, &key), LEZGAURI_OTHER_TYPE);
    expect("next entry of a number", lezgauri_next_entry(handle, value, NULL, &key, &other), LEZGAURI_OTHER_TYPE);
    expect("next entry of a number", lezgauri_next_entry(handle, value, &between, &key, &other), LEZGAURI_OTHER_TYPE);
    expect("previous entry of a number", lezgauri_previous_entry(handle, value, NULL, &key, &other), LEZGAURI_OTHER_TYPE);
    expect("previous entry of a number", lezgauri_previous_entry(handle, value, &between, &key, &other), LEZGAURI_OTHER_TYPE);
    entries[0] = (lezgauri_entry){7, {7, type}};
    count = 7;
    expect("next entries of a number", lezgauri_next_entries(handle, value, NULL, entries, 3, &count), LEZGAURI_OTHER_TYPE);
    expect("next entries of a number", lezgauri_next_entries(handle, value, &between, entries, 3, &count), LEZGAURI_OTHER_TYPE);
    expect("next entries of a number, no room", lezgauri_next_entries(handle, value, NULL, NULL, 0, &count), LEZGAURI_OTHER_TYPE);
    expect("next entries of a number: as before", entries[0].key == 7 && is_same(entries[0].value, (lezgauri_place){7, type}), 1);
    expect("next entries of a number: as before", count, 7);
    lezgauri_bytes bytes;
    expect("pairs of a number", lezgauri_pairs(handle, value, &bytes), LEZGAURI_OTHER_TYPE);
    expect("numbers of a map", lezgauri_numbers(handle, map, &bytes), LEZGAURI_OTHER_TYPE);
    uint32_t status;
    do {
        status = lezgauri_put(handle, map, between++, &value);
    } while (status == LEZGAURI_OK);
    expect("put, no room", status, LEZGAURI_BAD_ALLOC);
    is_sound("put, no room: sound", handle);
    done("clear", lezgauri_clear(handle, map));
    expect("clear: len", len_of(handle, map), 0);
    has_pairs(handle, map, keys, 0, 1, 0);
    done("destroy", lezgauri_destroy(handle, "map", type));
}

static void owners(lezgauri_handle *handle)
{
    lezgauri_place own = constructed(handle, "own", OWN), one = constructed(handle, "one", SHARED), two = constructed(handle, "two", SHARED);
    lezgauri_place number = constructed(handle, "n", NUMBER), content = {7, 7}, frozen;
    expect("content of null", lezgauri_content(handle, own, &content), LEZGAURI_NO_VALUE);
    expect("content of a shared null", lezgauri_content(handle, one, &content), LEZGAURI_NO_VALUE);
    expect("content of a number", lezgauri_content(handle, number, &content), LEZGAURI_OTHER_TYPE);
    expect("put content of a number", lezgauri_put_content(handle, number, &content), LEZGAURI_OTHER_TYPE);
    expect("put content of a shared", lezgauri_put_content(handle, one, &content), LEZGAURI_OTHER_TYPE);
    expect("freeze of null", lezgauri_freeze(handle, own, one), LEZGAURI_NO_VALUE);
    expect("content: as before", content.at, 7);
    expect("len of null", len_of(handle, own), 0);
    for (int i = 0; i < 2; i++) {
        done("put content", lezgauri_put_content(handle, own, &content));
        has_text("put content: default", handle, content, "");
        done("assign", lezgauri_assign(handle, content, "owned", 5));
    }
    expect("len", len_of(handle, own), 1);
    done("content", lezgauri_content(handle, own, &frozen));
    expect("content: place", is_same(content, frozen), 1);
    is_sound("own: sound", handle);
    expect("freeze into an own", lezgauri_freeze(handle, own, own), LEZGAURI_OTHER_TYPE);
    expect("freeze into a number", lezgauri_freeze(handle, own, number), LEZGAURI_OTHER_TYPE);
    expect("freeze of a number", lezgauri_freeze(handle, number, one), LEZGAURI_OTHER_TYPE);
    expect("freeze of a shared", lezgauri_freeze(handle, one, two), LEZGAURI_OTHER_TYPE);
    expect("freeze, refused: as before", len_of(handle, own), 1);
    done("freeze", lezgauri_freeze(handle, own, one));
    expect("freeze: null", lezgauri_content(handle, own, &content), LEZGAURI_NO_VALUE);
    done("content of a shared", lezgauri_content(handle, one, &frozen));
    has_text("content of a shared", handle, frozen, "owned");
    is_sound("freeze: sound", handle);
    done("share", lezgauri_share(handle, two, one));
    done("content of the other", lezgauri_content(handle, two, &content));
    expect("share: the same", is_same(content, frozen), 1);
    is_sound("share: sound", handle);
    done("share with itself", lezgauri_share(handle, one, one));
    done("clear", lezgauri_clear(handle, one));
    expect("clear: null", lezgauri_content(handle, one, &content), LEZGAURI_NO_VALUE);
    done("content of the other", lezgauri_content(handle, two, &content));
    has_text("clear: the other", handle, content, "owned");
    expect("share with a number", lezgauri_share(handle, one, number), LEZGAURI_OTHER_TYPE);
    expect("share of an own", lezgauri_share(handle, own, one), LEZGAURI_OTHER_TYPE);
    uint32_t len;
    expect("len of a shared", lezgauri_len(handle, one, &len), LEZGAURI_OTHER_TYPE);
    is_sound("clear of a shared: sound", handle);
    done("share of null", lezgauri_share(handle, two, one));
    expect("share of null", lezgauri_content(handle, two, &content), LEZGAURI_NO_VALUE);
    is_sound("share of null: sound", handle);
    done("put content", lezgauri_put_content(handle, own, &content));
    done("clear of an own", lezgauri_clear(handle, own));
    expect("clear of an own", lezgauri_content(handle, own, &content), LEZGAURI_NO_VALUE);
    is_sound("clear of an own: sound", handle);
    done("destroy", lezgauri_destroy(handle, "own", OWN));
    done("destroy", lezgauri_destroy(handle, "one", SHARED));
    done("destroy", lezgauri_destroy(handle, "two", SHARED));
    done("destroy", lezgauri_destroy(handle, "n", NUMBER));
}

/* An image has the number for the next frozen object at 28. The last one isn't given. */
static void used_up_numbers(lezgauri_handle *handle, uint8_t *memory)
{
    lezgauri_place own = constructed(handle, "own", OWN), shared = constructed(handle, "shared", SHARED), content;
    uint8_t old[4];
    memcpy(old, memory + 28, 4);
    memset(memory + 28, 0xFF, 4);
    done("put content", lezgauri_put_content(handle, own, &content));
    expect("freeze, no number", lezgauri_freeze(handle, own, shared), LEZGAURI_NUMBERS_USED_UP);
    expect("freeze, no number: as before", len_of(handle, own), 1);
    memcpy(memory + 28, old, 4);
    done("freeze, a number", lezgauri_freeze(handle, own, shared));
    is_sound("freeze, a number: sound", handle);
    done("destroy", lezgauri_destroy(handle, "own", OWN));
    done("destroy", lezgauri_destroy(handle, "shared", SHARED));
}

/* ---- types */

static void types(void)
{
    lezgauri_handle *handle = NULL, *other = NULL;
    lezgauri_place place;
    lezgauri_fault fault;
    lezgauri_type changed[LEZGAURI_MOST_TYPES + 1];
    uint8_t *memory = new_memory();
    done("create in", lezgauri_create_in(memory, SIZE, SIZE, LEZGAURI_SEQ_FIT, LEZGAURI_FLAT_INDEX, &handle));
    memory[8] = 1;
    is_sound("version 1: sound", handle);
    expect("construct, no types", lezgauri_construct(handle, "n", NUMBER, 1, &place), LEZGAURI_OTHER_TYPE);
    done("upgrade", lezgauri_upgrade(handle));
    expect("upgrade: version", memory[8], 2);
    done("upgrade again", lezgauri_upgrade(handle));
    is_sound("upgrade: sound", handle);
    done("add types, none", lezgauri_add_types(handle, NULL, 0, &fault));
    done("add types", lezgauri_add_types(handle, table, 1, &fault));
    expect("add types: number", fault.number, 0);
    expect("add types: bytes", (uint64_t)memcmp(memory + 64, table, sizeof *table), 0);
    done("open in", lezgauri_open_in(memory, SIZE, SIZE, &other, NULL));
    done("construct", lezgauri_construct(handle, "n", NUMBER, 1, &place));
    expect("find by the other handle", lezgauri_find(other, "n", STRING, &place), LEZGAURI_OTHER_TYPE);
    /* the other handle finds the types that this one adds */
    done("add types", lezgauri_add_types(handle, table, TYPES, &fault));
    done("construct", lezgauri_construct(handle, "text", STRING, 1, &place));
    done("assign", lezgauri_assign(handle, place, "text", 4));
    done("find by the other handle", lezgauri_find(other, "text", STRING, &place));
    has_text("text by the other handle", other, place, "text");
    done("add types again", lezgauri_add_types(handle, table, TYPES, NULL));
    done("add fewer types", lezgauri_add_types(handle, table, 1, NULL));
    memcpy(changed, table, sizeof table);
    changed[1].kind = LEZGAURI_KIND_I64;
    expect("add types that differ", lezgauri_add_types(handle, changed, TYPES, &fault), LEZGAURI_TYPE_MISMATCH);
    expect("add types that differ: position", fault.position, 1);
    expect("add types that differ: client", fault.client, LEZGAURI_NO_CLIENT);
    memcpy(changed, table, sizeof table);
    changed[TYPES] = (lezgauri_type){LEZGAURI_KIND_VEC, 1, {TYPES + 1}, {0}};
    expect("add wrong types", lezgauri_add_types(handle, changed, TYPES + 1, &fault), LEZGAURI_BAD_TYPE);
    expect("add wrong types: position", fault.position, TYPES);
    for (size_t i = TYPES; i <= LEZGAURI_MOST_TYPES; i++) {
        changed[i] = table[NUMBER];
    }
    expect("add too many types", lezgauri_add_types(handle, changed, LEZGAURI_MOST_TYPES + 1, &fault), LEZGAURI_BAD_TYPE);
    expect("add too many types: position", fault.position, LEZGAURI_MOST_TYPES);
    expect("add types, refused: as before", (uint64_t)memcmp(memory + 64, table, sizeof table), 0);
    /* the other handle finds each new type, also the one in the last entry of the table */
    for (uint32_t i = TYPES; i < LEZGAURI_MOST_TYPES; i++) {
        expect("construct, the next type", lezgauri_construct_unique(other, i, &place), LEZGAURI_OTHER_TYPE);
        done("add a type", lezgauri_add_types(handle, changed, i + 1, &fault));
        done("construct, a new type", lezgauri_construct_unique(other, i, &place));
        expect("a new type: number", (uint64_t)number_at(other, place), 0);
        done("destroy, a new type", lezgauri_destroy_unique(handle, i));
    }
    done("add all types again", lezgauri_add_types(handle, changed, LEZGAURI_MOST_TYPES, &fault));
    is_sound("add types: sound", handle);
    done("find, the last type", lezgauri_construct(handle, "last", LEZGAURI_MOST_TYPES - 1, 1, &place));
    done("find by the other handle, the last type", lezgauri_find(other, "last", LEZGAURI_MOST_TYPES - 1, &place));
    lezgauri_close(handle);
    lezgauri_close(other);
    free_memory(memory);
}

/* A block from malloc that grows may move. Places stay. */
static void growing(void)
{
    lezgauri_handle *handle = NULL;
    lezgauri_place vector, item;
    done("create", lezgauri_create(PAGE, LEZGAURI_BEST_FIT, LEZGAURI_TREE_INDEX, &handle));
    done("add types", lezgauri_add_types(handle, table, TYPES, NULL));
    done("construct", lezgauri_construct(handle, "vector", NUMBERS, 1, &vector));
    for (int i = 0; i < 5000; i++) {
        uint32_t status = lezgauri_push_back(handle, vector, &item);
        if (status == LEZGAURI_BAD_ALLOC) {
            size_t size;
            done("size", lezgauri_size(handle, &size));
            done("grow", lezgauri_grow(handle, size, NULL));
            status = lezgauri_push_back(handle, vector, &item);
        }
        done("push back", status);
        done("store", lezgauri_store(handle, item, i));
    }
    for (int i = 0; i < 5000; i += 7) {
        done("item", lezgauri_item(handle, vector, (uint32_t)i, &item));
        expect("item", (uint64_t)number_at(handle, item), (uint64_t)i);
    }
    is_sound("grow: sound", handle);
    lezgauri_close(handle);
}

/* Numbers are added by calls of several ones, until the segment is out of memory, and then the others after it has grown. */
static void pushing(void)
{
    enum { COUNT = 1000, MORE = 37 };
    static int64_t given[COUNT];
    lezgauri_handle *handle = NULL;
    lezgauri_place vector, item;
    lezgauri_bytes bytes;
    size_t pushed = 7, all = 0;
    uint32_t shorts = 0;
    for (int i = 0; i < COUNT; i++) {
        given[i] = i % 3 == 0 ? INT64_MIN + i : i % 3 == 1 ? INT64_MAX - i : -i;
    }
    done("create", lezgauri_create(PAGE, LEZGAURI_BEST_FIT, LEZGAURI_TREE_INDEX, &handle));
    done("add types", lezgauri_add_types(handle, table, TYPES, NULL));
    done("construct", lezgauri_construct(handle, "vector", NUMBERS, 1, &vector));
    done("push no numbers", lezgauri_push_numbers(handle, vector, NULL, 0, &pushed));
    expect("push no numbers: how many", pushed, 0);
    done("push no numbers", lezgauri_push_numbers(handle, vector, NULL, 0, NULL));
    expect("push no numbers: len", len_of(handle, vector), 0);
    while (all < COUNT) {
        size_t count = COUNT - all < MORE ? COUNT - all : MORE;
        pushed = COUNT;
        uint32_t status = lezgauri_push_numbers(handle, vector, given + all, count, &pushed);
        bool is_short = status == LEZGAURI_BAD_ALLOC && pushed < count;
        expect("push numbers", is_short || (status == LEZGAURI_OK && pushed == count), 1);
        all += pushed;
        expect("push numbers: len", len_of(handle, vector), all);
        is_sound("push numbers: sound", handle);
        if (is_short) {
            shorts++;
            expect("push back, no room", lezgauri_push_back(handle, vector, &item), LEZGAURI_BAD_ALLOC);
            pushed = 7;
            expect("push numbers, no room", lezgauri_push_numbers(handle, vector, given + all, 1, &pushed), LEZGAURI_BAD_ALLOC);
            expect("push numbers, no room: how many", pushed, 0);
            expect("push numbers, no room", lezgauri_push_numbers(handle, vector, given + all, 1, NULL), LEZGAURI_BAD_ALLOC);
            done("grow", lezgauri_grow(handle, PAGE / 4, NULL));
        }
    }
    expect("push numbers: out of memory", shorts > 0, 1);
    done("numbers", lezgauri_numbers(handle, vector, &bytes));
    expect("push numbers: length", bytes.len, 8 * COUNT);
    for (int i = 0; i < COUNT && bytes.len == 8 * COUNT; i++) {
        expect("push numbers: a number", number_in(bytes.bytes + 8 * i), (uint64_t)given[i]);
    }
    lezgauri_close(handle);
}

/* Keys are put by calls of several ones, until the segment is out of memory, and then the others after it has grown. They come in an order
 * in which each comes several times, the last time with the number that counts. */
static void putting(uint32_t type)
{
    enum { COUNT = 1000, KEYS = 600, MORE = 37, STEP = 7 };
    static lezgauri_pair given[COUNT];
    int64_t last[KEYS];
    bool is_there[KEYS] = {false};
    lezgauri_handle *handle = NULL;
    lezgauri_place map, value;
    size_t put = 7, all = 0;
    uint32_t shorts = 0, keys = 0;
    for (int i = 0; i < COUNT; i++) {
        given[i] = (lezgauri_pair){i * STEP % KEYS - KEYS / 2, i % 2 == 0 ? INT64_MIN + i : INT64_MAX - i};
    }
    done("create", lezgauri_create(PAGE, LEZGAURI_BEST_FIT, LEZGAURI_TREE_INDEX, &handle));
    done("add types", lezgauri_add_types(handle, table, TYPES, NULL));
    done("construct", lezgauri_construct(handle, "map", type, 1, &map));
    done("put no numbers", lezgauri_put_numbers(handle, map, NULL, 0, &put));
    expect("put no numbers: how many", put, 0);
    done("put no numbers", lezgauri_put_numbers(handle, map, NULL, 0, NULL));
    expect("put no numbers: len", len_of(handle, map), 0);
    while (all < COUNT) {
        size_t count = COUNT - all < MORE ? COUNT - all : MORE;
        put = COUNT;
        uint32_t status = lezgauri_put_numbers(handle, map, given + all, count, &put);
        bool is_short = status == LEZGAURI_BAD_ALLOC && put < count;
        expect("put numbers", is_short || (status == LEZGAURI_OK && put == count), 1);
        for (size_t i = all; i < all + put; i++) {
            int64_t key = given[i].key + KEYS / 2;
            keys += !is_there[key];
            is_there[key] = true;
            last[key] = given[i].number;
        }
        all += put;
        expect("put numbers: len", len_of(handle, map), keys);
        is_sound("put numbers: sound", handle);
        if (is_short) {
            shorts++;
            expect("put, no room", lezgauri_put(handle, map, given[all].key, &value), LEZGAURI_BAD_ALLOC);
            put = 7;
            expect("put numbers, no room", lezgauri_put_numbers(handle, map, given + all, 1, &put), LEZGAURI_BAD_ALLOC);
            expect("put numbers, no room: how many", put, 0);
            expect("put numbers, no room", lezgauri_put_numbers(handle, map, given + all, 1, NULL), LEZGAURI_BAD_ALLOC);
            done("put numbers of a key that is there", lezgauri_put_numbers(handle, map, given, 1, &put));
            last[given[0].key + KEYS / 2] = given[0].number;
            done("grow", lezgauri_grow(handle, PAGE / 4, NULL));
        }
    }
    expect("put numbers: out of memory", shorts > 0, 1);
    for (int i = 0; i < KEYS; i++) {
        done("get", lezgauri_get(handle, map, i - KEYS / 2, &value));
        expect("put numbers: a number", (uint64_t)number_at(handle, value), (uint64_t)last[i]);
    }
    lezgauri_close(handle);
}

/* ---- each call with the same arguments */

/* The arguments of a call. Each call uses some of them. */
typedef struct given {
    lezgauri_handle *handle;
    const char *name;
    lezgauri_place place;
    uint32_t index;
    void *result;
} given;

static uint32_t make_find(const given *g) { return lezgauri_find(g->handle, g->name, g->place.type, g->result); }
static uint32_t make_find_item(const given *g)
{
    return lezgauri_find_item(g->handle, g->name, g->place.type, g->index, g->result);
}
static uint32_t make_named_object(const given *g) { return lezgauri_named_object(g->handle, g->name, g->result); }
static uint32_t make_next_name(const given *g) { return lezgauri_next_name(g->handle, g->name, g->result); }
static uint32_t make_find_unique(const given *g) { return lezgauri_find_unique(g->handle, g->place.type, g->result); }
static uint32_t make_load(const given *g) { return lezgauri_load(g->handle, g->place, g->result); }
static uint32_t make_field(const given *g) { return lezgauri_field(g->handle, g->place, g->index, g->result); }
static uint32_t make_len(const given *g) { return lezgauri_len(g->handle, g->place, g->result); }
static uint32_t make_text(const given *g) { return lezgauri_text(g->handle, g->place, g->result); }
static uint32_t make_numbers(const given *g) { return lezgauri_numbers(g->handle, g->place, g->result); }
static uint32_t make_pairs(const given *g) { return lezgauri_pairs(g->handle, g->place, g->result); }
static uint32_t make_item(const given *g) { return lezgauri_item(g->handle, g->place, g->index, g->result); }
static lezgauri_place item_of(const given *g) { return (lezgauri_place){g->index, NUMBER}; }
static uint32_t make_next_item(const given *g) { return lezgauri_next_item(g->handle, g->place, item_of(g), g->result); }
static uint32_t make_previous_item(const given *g) { return lezgauri_previous_item(g->handle, g->place, item_of(g), g->result); }
static uint32_t make_get(const given *g) { return lezgauri_get(g->handle, g->place, g->index, g->result); }
static uint32_t make_first_key(const given *g) { return lezgauri_next_key(g->handle, g->place, NULL, g->result); }
static uint32_t make_last_key(const given *g) { return lezgauri_previous_key(g->handle, g->place, NULL, g->result); }
static uint32_t make_next_key(const given *g)
{
    int64_t after = g->index;
    return lezgauri_next_key(g->handle, g->place, &after, g->result);
}
static uint32_t make_previous_key(const given *g)
{
    int64_t before = g->index;
    return lezgauri_previous_key(g->handle, g->place, &before, g->result);
}
typedef uint32_t entry_call(const lezgauri_handle *handle, lezgauri_place map, const int64_t *from, int64_t *key, lezgauri_place *value);

/* The place of the value follows the key. */
static uint32_t make_entry(const given *g, const int64_t *from, entry_call *call)
{
    char *key = g->result;
    return call(g->handle, g->place, from, (int64_t *)key, (lezgauri_place *)(key == NULL ? NULL : key + sizeof(int64_t)));
}
static uint32_t make_first_entry(const given *g) { return make_entry(g, NULL, lezgauri_next_entry); }
static uint32_t make_last_entry(const given *g) { return make_entry(g, NULL, lezgauri_previous_entry); }
static uint32_t make_next_entry(const given *g) { return make_entry(g, &(int64_t){g->index}, lezgauri_next_entry); }
static uint32_t make_previous_entry(const given *g) { return make_entry(g, &(int64_t){g->index}, lezgauri_previous_entry); }

/* What a call on several entries returns. */
enum { BATCH = 3 };
typedef struct batch {
    lezgauri_entry entries[BATCH];
    size_t count;
} batch;

static uint32_t make_entries(const given *g, const int64_t *after)
{
    char *entries = g->result;
    size_t *count = (size_t *)(entries == NULL ? NULL : entries + offsetof(batch, count));
    return lezgauri_next_entries(g->handle, g->place, after, (lezgauri_entry *)entries, BATCH, count);
}
static uint32_t make_first_entries(const given *g) { return make_entries(g, NULL); }
static uint32_t make_next_entries(const given *g) { return make_entries(g, &(int64_t){g->index}); }
static uint32_t make_content(const given *g) { return lezgauri_content(g->handle, g->place, g->result); }

static uint32_t make_add_types(const given *g) { return lezgauri_add_types(g->handle, table, TYPES, NULL); }
static uint32_t make_upgrade(const given *g) { return lezgauri_upgrade(g->handle); }
static uint32_t make_construct(const given *g) { return lezgauri_construct(g->handle, g->name, g->place.type, 1 + g->index % 3, g->result); }
static uint32_t make_find_or_construct(const given *g)
{
    return lezgauri_find_or_construct(g->handle, g->name, g->place.type, g->result);
}
static uint32_t make_destroy(const given *g) { return lezgauri_destroy(g->handle, g->name, g->place.type); }
static uint32_t make_construct_unique(const given *g) { return lezgauri_construct_unique(g->handle, g->place.type, g->result); }
static uint32_t make_find_or_construct_unique(const given *g)
{
    return lezgauri_find_or_construct_unique(g->handle, g->place.type, g->result);
}
static uint32_t make_destroy_unique(const given *g) { return lezgauri_destroy_unique(g->handle, g->place.type); }
static uint32_t make_construct_anonymous(const given *g) { return lezgauri_construct_anonymous(g->handle, g->place.type, g->result); }
static uint32_t make_destroy_anonymous(const given *g) { return lezgauri_destroy_anonymous(g->handle, g->place); }
static uint32_t make_store(const given *g) { return lezgauri_store(g->handle, g->place, -1); }
static uint32_t make_assign(const given *g) { return lezgauri_assign(g->handle, g->place, "some bytes", g->index % 11); }
static uint32_t make_append(const given *g) { return lezgauri_append(g->handle, g->place, "some bytes", g->index % 11); }
static uint32_t make_push_back(const given *g) { return lezgauri_push_back(g->handle, g->place, g->result); }
static uint32_t make_push_numbers(const given *g)
{
    static const int64_t numbers[] = {INT64_MIN, -1, 0, 1, INT64_MAX};
    return lezgauri_push_numbers(g->handle, g->place, numbers, g->index % 6, NULL);
}
static uint32_t make_push_front(const given *g) { return lezgauri_push_front(g->handle, g->place, g->result); }
static uint32_t make_pop_back(const given *g) { return lezgauri_pop_back(g->handle, g->place); }
static uint32_t make_pop_front(const given *g) { return lezgauri_pop_front(g->handle, g->place); }
static uint32_t make_put(const given *g) { return lezgauri_put(g->handle, g->place, g->index, g->result); }
static uint32_t make_put_numbers(const given *g)
{
    static const lezgauri_pair pairs[] = {{INT64_MIN, 0}, {-1, 1}, {0, INT64_MIN}, {-1, INT64_MAX}, {INT64_MAX, -1}};
    return lezgauri_put_numbers(g->handle, g->place, pairs, g->index % 6, NULL);
}
static uint32_t make_remove(const given *g) { return lezgauri_remove(g->handle, g->place, g->index); }
static uint32_t make_put_content(const given *g) { return lezgauri_put_content(g->handle, g->place, g->result); }
static uint32_t make_clear(const given *g) { return lezgauri_clear(g->handle, g->place); }
static uint32_t make_shrink_to_fit(const given *g) { return lezgauri_shrink_to_fit(g->handle, g->place); }
static uint32_t make_freeze(const given *g) { return lezgauri_freeze(g->handle, g->place, (lezgauri_place){g->index, SHARED}); }
static uint32_t make_share(const given *g) { return lezgauri_share(g->handle, g->place, (lezgauri_place){g->index, SHARED}); }

/* A call: what it returns besides its status, whether it takes a name, and whether it changes the segment. */
typedef struct call {
    const char *name;
    uint32_t (*make)(const given *given);
    size_t size;  /* of what it returns, or 0 */
    size_t align; /* of what it returns */
    bool takes_name;
    bool changes;
} call;

#define RETURNS(type) sizeof(type), alignof(type)

static const call calls[] = {
    {"find", make_find, RETURNS(lezgauri_place), true, false},
    {"find item", make_find_item, RETURNS(lezgauri_place), true, false},
    {"named object", make_named_object, RETURNS(lezgauri_named), true, false},
    {"next name", make_next_name, RETURNS(lezgauri_named), false, false},
    {"find unique", make_find_unique, RETURNS(lezgauri_place), false, false},
    {"load", make_load, RETURNS(int64_t), false, false},
    {"field", make_field, RETURNS(lezgauri_place), false, false},
    {"len", make_len, RETURNS(uint32_t), false, false},
    {"text", make_text, RETURNS(lezgauri_bytes), false, false},
    {"numbers", make_numbers, RETURNS(lezgauri_bytes), false, false},
    {"pairs", make_pairs, RETURNS(lezgauri_bytes), false, false},
    {"item", make_item, RETURNS(lezgauri_place), false, false},
    {"next item", make_next_item, RETURNS(lezgauri_place), false, false},
    {"previous item", make_previous_item, RETURNS(lezgauri_place), false, false},
    {"get", make_get, RETURNS(lezgauri_place), false, false},
    {"first key", make_first_key, RETURNS(int64_t), false, false},
    {"last key", make_last_key, RETURNS(int64_t), false, false},
    {"next key", make_next_key, RETURNS(int64_t), false, false},
    {"previous key", make_previous_key, RETURNS(int64_t), false, false},
    {"first entry", make_first_entry, RETURNS(lezgauri_entry), false, false},
    {"last entry", make_last_entry, RETURNS(lezgauri_entry), false, false},
    {"next entry", make_next_entry, RETURNS(lezgauri_entry), false, false},
    {"previous entry", make_previous_entry, RETURNS(lezgauri_entry), false, false},
    {"first entries", make_first_entries, RETURNS(batch), false, false},
    {"next entries", make_next_entries, RETURNS(batch), false, false},
    {"content", make_content, RETURNS(lezgauri_place), false, false},
    {"add types", make_add_types, 0, 1, false, true},
    {"upgrade", make_upgrade, 0, 1, false, true},
    {"construct", make_construct, RETURNS(lezgauri_place), true, true},
    {"find or construct", make_find_or_construct, RETURNS(lezgauri_place), true, true},
    {"destroy", make_destroy, 0, 1, true, true},
    {"construct unique", make_construct_unique, RETURNS(lezgauri_place), false, true},
    {"find or construct unique", make_find_or_construct_unique, RETURNS(lezgauri_place), false, true},
    {"destroy unique", make_destroy_unique, 0, 1, false, true},
    {"construct anonymous", make_construct_anonymous, RETURNS(lezgauri_place), false, true},
    {"destroy anonymous", make_destroy_anonymous, 0, 1, false, true},
    {"store", make_store, 0, 1, false, true},
    {"assign", make_assign, 0, 1, false, true},
    {"append", make_append, 0, 1, false, true},
    {"push back", make_push_back, RETURNS(lezgauri_place), false, true},
    {"push numbers", make_push_numbers, 0, 1, false, true},
    {"push front", make_push_front, RETURNS(lezgauri_place), false, true},
    {"pop back", make_pop_back, 0, 1, false, true},
    {"pop front", make_pop_front, 0, 1, false, true},
    {"put", make_put, RETURNS(lezgauri_place), false, true},
    {"put numbers", make_put_numbers, 0, 1, false, true},
    {"remove", make_remove, 0, 1, false, true},
    {"put content", make_put_content, RETURNS(lezgauri_place), false, true},
    {"clear", make_clear, 0, 1, false, true},
    {"shrink to fit", make_shrink_to_fit, 0, 1, false, true},
    {"freeze", make_freeze, 0, 1, false, true},
    {"share", make_share, 0, 1, false, true},
};

enum { CALLS = sizeof calls / sizeof *calls };

/* Room for what any call returns. */
typedef union result {
    lezgauri_place place;
    lezgauri_named named;
    lezgauri_bytes bytes;
    batch batch;
    int64_t number;
    uint32_t len;
    uint8_t all[sizeof(lezgauri_named)];
} result;

/* A segment with a value of each type, and the places of these values. */
static lezgauri_handle *filled(uint8_t *memory, uint32_t allocator, uint32_t index, lezgauri_place places[TYPES])
{
    static const char *const names[TYPES] = {"number", "string", "numbers", "list", "flat_map", "map", "own", "pair", "shared", "pairs",
                                             "names", "strings", "flat_names"};
    lezgauri_handle *handle = new_segment(memory, allocator, index);
    lezgauri_place item;
    for (uint32_t type = 0; type < TYPES; type++) {
        places[type] = constructed(handle, names[type], type);
    }
    for (int i = 0; i < 10; i++) {
        done("push back", lezgauri_push_back(handle, places[NUMBERS], &item));
        done("push back", lezgauri_push_back(handle, places[LIST], &item));
        done("put", lezgauri_put(handle, places[FLAT_MAP], 10 * i, &item));
        done("put", lezgauri_put(handle, places[MAP], 10 * i, &item));
        done("push back", lezgauri_push_back(handle, places[PAIRS], &item));
        done("put", lezgauri_put(handle, places[NAMES], i, &item));
        done("assign", lezgauri_assign(handle, item, "a name in a map", 15));
        done("put", lezgauri_put(handle, places[FLAT_NAMES], i, &item));
        done("push back", lezgauri_push_back(handle, places[STRINGS], &item));
        done("assign", lezgauri_assign(handle, item, "a string in a list", 18));
    }
    done("store", lezgauri_store(handle, places[NUMBER], 41));
    done("assign", lezgauri_assign(handle, places[STRING], "text", 4));
    done("put content", lezgauri_put_content(handle, places[OWN], &item));
    done("assign", lezgauri_assign(handle, item, "frozen", 6));
    done("freeze", lezgauri_freeze(handle, places[OWN], places[SHARED]));
    done("put content", lezgauri_put_content(handle, places[OWN], &item));
    done("unique", lezgauri_construct_unique(handle, NUMBER, &item));
    is_sound("filled: sound", handle);
    return handle;
}

/* Makes a call that is refused. What it returns, and the segment, must be as before. */
static void refused(const call *of, const char *how, given with, uint32_t status, const uint8_t *memory)
{
    static uint8_t before[SIZE];
    char what[80];
    snprintf(what, sizeof what, "%s, %s", of->name, how);
    memcpy(before, memory, SIZE);
    expect(what, of->make(&with), status);
    expect(what, (uint64_t)memcmp(before, memory, SIZE), 0);
}

static void has_untouched(const char *what, const result *there)
{
    for (size_t i = 0; i < sizeof *there; i++) {
        if (there->all[i] != 0x55) {
            expect(what, there->all[i], 0x55);
            return;
        }
    }
}

/* Null pointers, pointers that aren't aligned, and results and names in the segment or its handle. */
static void arguments(void)
{
    uint8_t *memory = new_memory();
    lezgauri_place places[TYPES];
    lezgauri_handle *handle = filled(memory, LEZGAURI_BEST_FIT, LEZGAURI_TREE_INDEX, places);
    result there;
    memset(&there, 0x55, sizeof there);
    memcpy(memory + SIZE - 16, "number", 7);
    for (size_t i = 0; i < CALLS; i++) {
        const call *of = &calls[i];
        given with = {handle, "number", places[NUMBER], 0, &there};
        with.handle = NULL;
        refused(of, "no segment", with, LEZGAURI_BAD_ARGUMENT, memory);
        with.handle = handle;
        if (of->takes_name) {
            with.name = NULL;
            refused(of, "no name", with, LEZGAURI_BAD_ARGUMENT, memory);
            with.name = (const char *)handle;
            if (of->changes) {
                refused(of, "the name in the handle", with, LEZGAURI_BAD_ARGUMENT, memory);
                with.name = (const char *)memory + SIZE - 16;
                refused(of, "the name in the segment", with, LEZGAURI_BAD_ARGUMENT, memory);
            }
            with.name = "number";
        }
        if (of->size > 0) {
            with.result = NULL;
            refused(of, "no result", with, LEZGAURI_BAD_ARGUMENT, memory);
            with.result = there.all + of->align / 2;
            refused(of, "a result that isn't aligned", with, LEZGAURI_BAD_ARGUMENT, memory);
            with.result = handle;
            refused(of, "the result in the handle", with, LEZGAURI_BAD_ARGUMENT, memory);
            with.result = memory;
            refused(of, "the result at the start of the segment", with, LEZGAURI_BAD_ARGUMENT, memory);
            with.result = memory + SIZE - of->align;
            refused(of, "the result at the end of the segment", with, LEZGAURI_BAD_ARGUMENT, memory);
        }
        if (of->takes_name && of->size > 0 && of->make != make_named_object) {
            memcpy(&there, "number", 7);
            with.name = (const char *)&there;
            with.result = &there;
            refused(of, "the result over the name", with, LEZGAURI_BAD_ARGUMENT, memory);
            expect("the name is as before", (uint64_t)memcmp(&there, "number", 7), 0);
            memset(&there, 0x55, sizeof there);
        }
        has_untouched(of->name, &there);
    }
    expect("assign, null and a length", lezgauri_assign(handle, places[STRING], NULL, 1), LEZGAURI_BAD_ARGUMENT);
    expect("assign, no length", lezgauri_assign(handle, places[STRING], "a", SIZE_MAX), LEZGAURI_BAD_ARGUMENT);
    expect("assign, bytes of the segment", lezgauri_assign(handle, places[STRING], memory + 800, 10), LEZGAURI_BAD_ARGUMENT);
    expect("append, bytes of the handle", lezgauri_append(handle, places[STRING], handle, 1), LEZGAURI_BAD_ARGUMENT);
    int64_t keys[2] = {0, 7};
    expect("next key, from a number that isn't aligned", lezgauri_next_key(handle, places[MAP], (int64_t *)((char *)keys + 4), &keys[1]),
           LEZGAURI_BAD_ARGUMENT);
    expect("next key, refused: as before", (uint64_t)keys[1], 7);
    lezgauri_place value;
    expect("next entry, from a number that isn't aligned",
           lezgauri_next_entry(handle, places[MAP], (int64_t *)((char *)keys + 4), &keys[1], &value), LEZGAURI_BAD_ARGUMENT);
    expect("next entry, no key", lezgauri_next_entry(handle, places[MAP], NULL, NULL, &value), LEZGAURI_BAD_ARGUMENT);
    expect("next entry, no value", lezgauri_next_entry(handle, places[MAP], NULL, &keys[1], NULL), LEZGAURI_BAD_ARGUMENT);
    expect("next entry, the value over the key",
           lezgauri_next_entry(handle, places[MAP], NULL, &keys[1], (lezgauri_place *)((char *)keys + 4)), LEZGAURI_BAD_ARGUMENT);
    expect("next entry, the value in the segment",
           lezgauri_next_entry(handle, places[MAP], NULL, &keys[1], (lezgauri_place *)(memory + 704)), LEZGAURI_BAD_ARGUMENT);
    expect("next entry, refused: as before", (uint64_t)keys[1], 7);
    batch several = {.count = 7};
    lezgauri_entry *entries = several.entries;
    size_t *count = &several.count;
    expect("next entries, null and a room", lezgauri_next_entries(handle, places[MAP], NULL, NULL, 1, count), LEZGAURI_BAD_ARGUMENT);
    expect("next entries, no count", lezgauri_next_entries(handle, places[MAP], NULL, entries, BATCH, NULL), LEZGAURI_BAD_ARGUMENT);
    expect("next entries, no count and no room", lezgauri_next_entries(handle, places[MAP], NULL, NULL, 0, NULL), LEZGAURI_BAD_ARGUMENT);
    expect("next entries, from a number that isn't aligned",
           lezgauri_next_entries(handle, places[MAP], (int64_t *)((char *)keys + 4), entries, BATCH, count), LEZGAURI_BAD_ARGUMENT);
    expect("next entries that aren't aligned",
           lezgauri_next_entries(handle, places[MAP], NULL, (lezgauri_entry *)((char *)entries + 4), 1, count), LEZGAURI_BAD_ARGUMENT);
    expect("next entries, a count that isn't aligned",
           lezgauri_next_entries(handle, places[MAP], NULL, entries, 1, (size_t *)((char *)count + 4)), LEZGAURI_BAD_ARGUMENT);
    static const size_t rooms[] = {SIZE_MAX, SIZE_MAX / sizeof *entries + 2, PTRDIFF_MAX / sizeof *entries + 1};
    for (size_t i = 0; i < sizeof rooms / sizeof *rooms; i++) {
        expect("next entries, too much room", lezgauri_next_entries(handle, places[MAP], NULL, entries, rooms[i], count),
               LEZGAURI_BAD_ARGUMENT);
    }
    expect("next entries, the count in the last one",
           lezgauri_next_entries(handle, places[MAP], NULL, entries, BATCH, (size_t *)&entries[BATCH - 1].value), LEZGAURI_BAD_ARGUMENT);
    expect("next entries, the last one over the count", lezgauri_next_entries(handle, places[MAP], NULL, entries, BATCH + 1, count),
           LEZGAURI_BAD_ARGUMENT);
    expect("next entries, the last one over the segment",
           lezgauri_next_entries(handle, places[MAP], NULL, (lezgauri_entry *)(memory - 16), 2, count), LEZGAURI_BAD_ARGUMENT);
    expect("next entries in the handle", lezgauri_next_entries(handle, places[MAP], NULL, (lezgauri_entry *)handle, 1, count),
           LEZGAURI_BAD_ARGUMENT);
    expect("next entries, the count in the segment",
           lezgauri_next_entries(handle, places[MAP], NULL, entries, BATCH, (size_t *)(memory + 704)), LEZGAURI_BAD_ARGUMENT);
    expect("next entries, the count in the handle", lezgauri_next_entries(handle, places[MAP], NULL, entries, BATCH, (size_t *)handle),
           LEZGAURI_BAD_ARGUMENT);
    expect("next entries, refused: as before", entries[0].key == 0 && entries[2].key == 0 && *count == 7, 1);
    done("next entries, up to the count", lezgauri_next_entries(handle, places[MAP], NULL, entries, BATCH, count));
    expect("next entries, up to the count", entries[0].key == 0 && entries[1].key == 10 && entries[2].key == 20 && *count == 3, 1);
    struct {
        int64_t numbers[3];
        size_t count;
    } several_numbers = {{1, 2, 3}, 7};
    int64_t *numbers = several_numbers.numbers;
    size_t *pushed = &several_numbers.count;
    lezgauri_place vector = places[NUMBERS];
    expect("push numbers, no segment", lezgauri_push_numbers(NULL, vector, numbers, 3, pushed), LEZGAURI_BAD_ARGUMENT);
    expect("push numbers, null and a count", lezgauri_push_numbers(handle, vector, NULL, 1, pushed), LEZGAURI_BAD_ARGUMENT);
    expect("push numbers that aren't aligned", lezgauri_push_numbers(handle, vector, (int64_t *)((char *)numbers + 4), 1, pushed),
           LEZGAURI_BAD_ARGUMENT);
    expect("push numbers, a count that isn't aligned",
           lezgauri_push_numbers(handle, vector, numbers, 1, (size_t *)((char *)pushed + 4)), LEZGAURI_BAD_ARGUMENT);
    static const size_t counts[] = {SIZE_MAX, SIZE_MAX / 8 + 2, PTRDIFF_MAX / 8 + 1};
    for (size_t i = 0; i < sizeof counts / sizeof *counts; i++) {
        expect("push too many numbers", lezgauri_push_numbers(handle, vector, numbers, counts[i], pushed), LEZGAURI_BAD_ARGUMENT);
    }
    expect("push numbers, the count in the last one",
           lezgauri_push_numbers(handle, vector, numbers, 3, (size_t *)&numbers[2]), LEZGAURI_BAD_ARGUMENT);
    expect("push numbers, the last one is the count", lezgauri_push_numbers(handle, vector, numbers, 4, pushed),
           LEZGAURI_BAD_ARGUMENT);
    expect("push numbers of the segment", lezgauri_push_numbers(handle, vector, (int64_t *)(memory + 704), 1, pushed), LEZGAURI_BAD_ARGUMENT);
    expect("push numbers, the last one in the segment", lezgauri_push_numbers(handle, vector, (int64_t *)(memory - 8), 2, pushed),
           LEZGAURI_BAD_ARGUMENT);
    expect("push numbers of the handle", lezgauri_push_numbers(handle, vector, (int64_t *)handle, 1, pushed), LEZGAURI_BAD_ARGUMENT);
    expect("push numbers, the count in the segment", lezgauri_push_numbers(handle, vector, numbers, 3, (size_t *)(memory + 704)),
           LEZGAURI_BAD_ARGUMENT);
    expect("push numbers, the count in the handle", lezgauri_push_numbers(handle, vector, numbers, 3, (size_t *)handle),
           LEZGAURI_BAD_ARGUMENT);
    expect("push numbers, refused: as before", numbers[0] == 1 && numbers[1] == 2 && numbers[2] == 3 && *pushed == 7, 1);
    expect("push numbers, refused: len", len_of(handle, vector), 10);
    done("push numbers, up to the count", lezgauri_push_numbers(handle, vector, numbers, 3, pushed));
    expect("push numbers, up to the count", *pushed == 3 && len_of(handle, vector) == 13, 1);
    struct {
        lezgauri_pair pairs[2];
        size_t count;
        size_t after;
    } several_pairs = {{{1, 2}, {3, 4}}, 7, 8};
    lezgauri_pair *pairs = several_pairs.pairs;
    size_t *put = &several_pairs.count;
    lezgauri_place map = places[MAP];
    uint32_t keys_before = len_of(handle, map);
    expect("put numbers, no segment", lezgauri_put_numbers(NULL, map, pairs, 2, put), LEZGAURI_BAD_ARGUMENT);
    expect("put numbers, null and a count", lezgauri_put_numbers(handle, map, NULL, 1, put), LEZGAURI_BAD_ARGUMENT);
    expect("put numbers that aren't aligned", lezgauri_put_numbers(handle, map, (lezgauri_pair *)((char *)pairs + 4), 1, put),
           LEZGAURI_BAD_ARGUMENT);
    expect("put numbers, a count that isn't aligned", lezgauri_put_numbers(handle, map, pairs, 1, (size_t *)((char *)put + 4)),
           LEZGAURI_BAD_ARGUMENT);
    static const size_t many[] = {SIZE_MAX, SIZE_MAX / 16 + 2, PTRDIFF_MAX / 16 + 1};
    for (size_t i = 0; i < sizeof many / sizeof *many; i++) {
        expect("put too many numbers", lezgauri_put_numbers(handle, map, pairs, many[i], put), LEZGAURI_BAD_ARGUMENT);
    }
    expect("put numbers, the count in the last one", lezgauri_put_numbers(handle, map, pairs, 2, (size_t *)&pairs[1].number),
           LEZGAURI_BAD_ARGUMENT);
    expect("put numbers, the last one has the count", lezgauri_put_numbers(handle, map, pairs, 3, put), LEZGAURI_BAD_ARGUMENT);
    expect("put numbers of the segment", lezgauri_put_numbers(handle, map, (lezgauri_pair *)(memory + 704), 1, put), LEZGAURI_BAD_ARGUMENT);
    expect("put numbers of the handle", lezgauri_put_numbers(handle, map, (lezgauri_pair *)handle, 1, put), LEZGAURI_BAD_ARGUMENT);
    expect("put numbers, the count in the segment", lezgauri_put_numbers(handle, map, pairs, 2, (size_t *)(memory + 704)),
           LEZGAURI_BAD_ARGUMENT);
    expect("put numbers, the count in the handle", lezgauri_put_numbers(handle, map, pairs, 2, (size_t *)handle), LEZGAURI_BAD_ARGUMENT);
    expect("put numbers, refused: as before", pairs[0].key == 1 && pairs[1].number == 4 && *put == 7, 1);
    expect("put numbers, refused: len", len_of(handle, map), keys_before);
    done("put numbers, up to the count", lezgauri_put_numbers(handle, map, pairs, 2, put));
    expect("put numbers, up to the count", *put == 2 && len_of(handle, map) == keys_before + 2, 1);
    lezgauri_fault fault = {.number = 7};
    expect("add types, null and a count", lezgauri_add_types(handle, NULL, 1, &fault), LEZGAURI_BAD_ARGUMENT);
    expect("add types, null and a count: number", fault.number, LEZGAURI_BAD_ARGUMENT);
    expect("add types, no count", lezgauri_add_types(handle, table, SIZE_MAX / 8, &fault), LEZGAURI_BAD_ARGUMENT);
    expect("add types of the segment", lezgauri_add_types(handle, (lezgauri_type *)(memory + 64), TYPES, &fault), LEZGAURI_BAD_ARGUMENT);
    expect("add types, the fault in the segment", lezgauri_add_types(handle, table, TYPES, (lezgauri_fault *)(memory + 704)),
           LEZGAURI_BAD_ARGUMENT);
    expect("add types, the fault in the segment: as before", lezgauri_check(memory, SIZE, NULL), LEZGAURI_OK);
    lezgauri_handle *other = handle;
    expect("reader of a segment that is changed", lezgauri_reader(handle, &other), LEZGAURI_BAD_ARGUMENT);
    expect("reader of a segment that is changed: none", other != NULL, 0);
    expect("reader, no place", lezgauri_reader(handle, NULL), LEZGAURI_BAD_ARGUMENT);
    other = handle;
    expect("reader of none", lezgauri_reader(NULL, &other), LEZGAURI_BAD_ARGUMENT);
    expect("reader of none: none", other != NULL, 0);
    other = handle;
    expect("read of null", lezgauri_read(NULL, SIZE, &other, &fault), LEZGAURI_BAD_ARGUMENT);
    expect("read of null: none", other != NULL, 0);
    expect("read, no place", lezgauri_read(memory, SIZE, NULL, &fault), LEZGAURI_BAD_ARGUMENT);
    expect("read of an image that is too long", lezgauri_read(memory, ((size_t)1 << 30) + 1, &other, &fault), LEZGAURI_BAD_HEADER);
    expect("read, the handle in the image", lezgauri_read(memory, SIZE, (lezgauri_handle **)memory, &fault), LEZGAURI_BAD_ARGUMENT);
    expect("read of nothing", lezgauri_read(NULL, 0, &other, &fault), LEZGAURI_BAD_HEADER);
    is_sound("arguments: sound", handle);
    lezgauri_close(handle);
    free_memory(memory);
}

/* ---- invalid places */

static const uint32_t numbers_of_types[] = {NUMBER, STRING, NUMBERS, LIST, FLAT_MAP, MAP, OWN, PAIR, SHARED, PAIRS, NAMES, STRINGS,
                                            FLAT_NAMES, NO_TYPE, 31, 32, 255, 256, UINT32_MAX};

/* Positions in and beyond an image. */
static uint32_t position(uint32_t seed)
{
    static const uint32_t special[] = {0, 1, 7, 8, 64, 576, 703, 704, 712, 720, SIZE - 16, SIZE - 8, SIZE - 7, SIZE - 1, SIZE,
                                       SIZE + 1, 1 << 30, INT32_MAX, UINT32_MAX - 8, UINT32_MAX};
    uint32_t count = sizeof special / sizeof *special;
    return seed % 2 == 0 ? special[seed / 2 % count] : 704 + seed * 40503u % (SIZE - 704) / 8 * 8;
}

/* A range that a call returned must be in the image, a name must end, and entries must have had room. */
static void is_inside(const call *of, const result *there, const uint8_t *memory)
{
    if (of->make == make_text || of->make == make_numbers || of->make == make_pairs) {
        bool is = there->bytes.len == 0 || (there->bytes.bytes >= memory && there->bytes.bytes + there->bytes.len <= memory + SIZE);
        expect(of->name, is, 1);
    }
    if (of->make == make_named_object || of->make == make_next_name) {
        expect(of->name, there->named.name[63], 0);
    }
    if (of->make == make_first_entries || of->make == make_next_entries) {
        expect(of->name, there->batch.count <= BATCH, 1);
    }
}

/* Makes each call that reads, with invalid places of each type. */
static void read_everything(lezgauri_handle *handle, const uint8_t *memory)
{
    for (size_t i = 0; i < CALLS; i++) {
        if (calls[i].changes) {
            continue;
        }
        for (uint32_t seed = 0; seed < 60; seed++) {
            for (size_t k = 0; k < sizeof numbers_of_types / sizeof *numbers_of_types; k++) {
                result there;
                memset(&there, 0x55, sizeof there);
                given with = {handle, seed % 3 == 0 ? "map" : "numbers", {position(seed), numbers_of_types[k]}, position(seed * 7 + 1), &there};
                if (calls[i].make(&with) == LEZGAURI_OK) {
                    is_inside(&calls[i], &there, memory);
                } else {
                    has_untouched(calls[i].name, &there);
                }
            }
        }
    }
}

static uint32_t random_state = 1;

static uint32_t next_random(void)
{
    random_state = random_state * 1664525 + 1013904223;
    return random_state >> 8;
}

/* In a mapping that can't be written each reading call works, and no other call changes anything. */
static void read_only(uint32_t allocator, uint32_t index)
{
    uint8_t *memory = new_memory();
    lezgauri_place places[TYPES], found;
    lezgauri_handle *handle = NULL;
    result there;
    lezgauri_close(filled(memory, allocator, index, places));
    uint8_t header[16];
    memcpy(header, memory, sizeof header);
    allow(memory, PROT_READ);
    watch(0, NULL);
    done("read", lezgauri_read(memory, SIZE, &handle, NULL));
    expect("read: the image is there", image_of(handle).bytes == memory, 1);
    done("find", lezgauri_find(handle, "number", NUMBER, &found));
    expect("find: place", is_same(found, places[NUMBER]), 1);
    expect("load", (uint64_t)number_at(handle, found), 41);
    done("find", lezgauri_find(handle, "shared", SHARED, &found));
    done("content", lezgauri_content(handle, found, &found));
    has_text("content", handle, found, "frozen");
    requests = 0;
    read_everything(handle, memory);
    expect("reading: no request for memory", requests, 0);
    memset(&there, 0x55, sizeof there);
    for (size_t i = 0; i < CALLS; i++) {
        given with = {handle, "number", places[NUMBER], 0, &there};
        if (calls[i].changes) {
            refused(&calls[i], "only for reading", with, LEZGAURI_READ_ONLY, memory);
            has_untouched(calls[i].name, &there);
        }
    }
    static const uint8_t no_client[20] = {'S', 'E', 'G', 'C', 1};
    lezgauri_client *client = NULL;
    lezgauri_fault fault;
    size_t size = 7;
    expect("run on, only for reading", lezgauri_run_on(handle, no_client, sizeof no_client, NULL, 0, NULL, 0, &size, NULL, &fault),
           LEZGAURI_READ_ONLY);
    expect("run on, only for reading: number", fault.number, LEZGAURI_READ_ONLY);
    expect("run whole, only for reading", lezgauri_run_whole(handle, no_client, sizeof no_client, NULL, 0, NULL, 0, &size, NULL, NULL),
           LEZGAURI_READ_ONLY);
    done("prepare", lezgauri_prepare(handle, no_client, sizeof no_client, &client, NULL));
    expect("run client, only for reading", lezgauri_run_client(handle, client, NULL, 0, NULL, 0, &size, NULL, NULL), LEZGAURI_READ_ONLY);
    lezgauri_client_close(client);
    expect("grow, only for reading", lezgauri_grow(handle, 0, &size), LEZGAURI_READ_ONLY);
    expect("shrink, only for reading", lezgauri_shrink(handle, &size), LEZGAURI_READ_ONLY);
    expect("add types, only for reading", lezgauri_add_types(handle, table, TYPES, &fault), LEZGAURI_READ_ONLY);
    expect("add types, only for reading: number", fault.number, LEZGAURI_READ_ONLY);
    expect("refused: size", size, 7);
    lezgauri_type types_there[LEZGAURI_MOST_TYPES];
    done("types", lezgauri_types(handle, types_there, LEZGAURI_MOST_TYPES, &size));
    expect("types", size == TYPES && memcmp(types_there, table, sizeof table) == 0, 1);
    done("free memory", lezgauri_free_memory(handle, &size, NULL));
    uint8_t *saved = malloc(SIZE);
    done("save", lezgauri_save(handle, saved, SIZE, NULL));
    expect("save", (uint64_t)memcmp(saved, memory, SIZE), 0);
    free(saved);
    lezgauri_handle *other = NULL;
    done("reader", lezgauri_reader(handle, &other));
    lezgauri_close(handle);
    done("reader of a reader", lezgauri_reader(other, &handle));
    has_text("reader: text", other, places[STRING], "text");
    lezgauri_close(other);
    has_text("reader of a reader: text", handle, places[STRING], "text");
    lezgauri_close(handle);
    /* an image that is broken is refused, without a write */
    allow(memory, PROT_READ | PROT_WRITE);
    memory[708] ^= 1;
    allow(memory, PROT_READ);
    handle = other;
    expect("read of a broken image", lezgauri_read(memory, SIZE, &handle, &fault), LEZGAURI_BAD_BLOCK);
    expect("read of a broken image: none", handle != NULL, 0);
    expect("read of a broken image: position", fault.position, 704);
    free_memory(memory);
}

/* Breaks the image that a handle reads, which its owner has promised not to. The calls still read only the image. */
static void broken_images(void)
{
    uint8_t *memory = new_memory();
    lezgauri_place places[TYPES];
    lezgauri_handle *handle = NULL;
    static uint8_t sound[SIZE];
    for (uint32_t round = 0; round < 40; round++) {
        lezgauri_close(filled(memory, round % 2, round / 2 % 2, places));
        memcpy(sound, memory, SIZE);
        done("read", lezgauri_read(memory, SIZE, &handle, NULL));
        for (uint32_t i = 0; i <= round * 8; i++) {
            /* mostly in the header and in the first blocks, which are used */
            memory[next_random() % (round % 4 == 0 ? 704 : 4096)] = (uint8_t)(round % 3 == 0 ? 0xFF : next_random());
        }
        allow(memory, PROT_READ);
        read_everything(handle, memory);
        allow(memory, PROT_READ | PROT_WRITE);
        lezgauri_close(handle);
    }
    free_memory(memory);
}

/* Changes with invalid places, in an image that they break more and more. The calls change only the image. */
static void invalid_changes(void)
{
    uint8_t *memory = new_memory();
    lezgauri_place places[TYPES];
    for (uint32_t round = 0; round < 20; round++) {
        lezgauri_handle *handle = filled(memory, round % 2, round / 2 % 2, places);
        for (int i = 0; i < 3000; i++) {
            result there;
            memset(&there, 0x55, sizeof there);
            const call *of = &calls[next_random() % CALLS];
            uint32_t kinds = sizeof numbers_of_types / sizeof *numbers_of_types;
            given with = {handle, next_random() % 2 ? "number" : "new", {position(next_random()), numbers_of_types[next_random() % kinds]},
                          position(next_random()), &there};
            if (next_random() % 2) {
                with.place = places[next_random() % TYPES];
            }
            if (of->make(&with) == LEZGAURI_OK) {
                is_inside(of, &there, memory);
            } else {
                has_untouched(of->name, &there);
            }
        }
        lezgauri_close(handle);
    }
    free_memory(memory);
}

/* ---- segments that other calls use, and memory that is refused */

static lezgauri_handle *busy;
static lezgauri_place busy_places[TYPES];

static void use_meanwhile(void)
{
    at_request = NULL;
    result there;
    memset(&there, 0x55, sizeof there);
    for (size_t i = 0; i < CALLS; i++) {
        given with = {busy, "number", busy_places[NUMBER], 0, &there};
        expect(calls[i].name, calls[i].make(&with), LEZGAURI_BUSY);
        has_untouched(calls[i].name, &there);
    }
}

/* While a call uses a segment, each other call returns LEZGAURI_BUSY. */
static void busy_calls(void)
{
    static const uint8_t no_client[20] = {'S', 'E', 'G', 'C', 1};
    uint8_t *memory = new_memory();
    busy = filled(memory, LEZGAURI_SEQ_FIT, LEZGAURI_FLAT_INDEX, busy_places);
    watch(0, use_meanwhile);
    done("run on", lezgauri_run_on(busy, no_client, sizeof no_client, NULL, 0, NULL, 0, NULL, NULL, NULL));
    expect("run on: it asked for memory", requests > 0, 1);
    watch(0, NULL);
    expect("no longer busy", (uint64_t)number_at(busy, busy_places[NUMBER]), 41);
    is_sound("busy: sound", busy);
    lezgauri_close(busy);
    free_memory(memory);
}

/* Refuses each request for memory in turn. */
static void refused_memory(void)
{
    uint8_t *memory = new_memory();
    lezgauri_place places[TYPES], place;
    lezgauri_handle *handle = NULL, *other = NULL;
    lezgauri_close(filled(memory, LEZGAURI_BEST_FIT, LEZGAURI_FLAT_INDEX, places));
    watch(0, NULL);
    done("read", lezgauri_read(memory, SIZE, &handle, NULL));
    size_t all = requests;
    requests = 0;
    done("reader", lezgauri_reader(handle, &other));
    size_t for_reader = requests;
    lezgauri_close(other);
    for (size_t i = 1; i <= for_reader; i++) {
        watch(i, NULL);
        other = handle;
        expect("reader, no memory", lezgauri_reader(handle, &other), LEZGAURI_MEMORY);
        expect("reader, no memory: none", other != NULL, 0);
    }
    watch(0, NULL);
    lezgauri_close(handle);
    for (size_t i = 1; i <= all; i++) {
        lezgauri_fault fault;
        watch(i, NULL);
        handle = (lezgauri_handle *)memory;
        expect("read, no memory", lezgauri_read(memory, SIZE, &handle, &fault), LEZGAURI_MEMORY);
        expect("read, no memory: number", fault.number, LEZGAURI_MEMORY);
        expect("read, no memory: none", handle != NULL, 0);
    }
    watch(0, NULL);
    done("open in", lezgauri_open_in(memory, SIZE, SIZE, &handle, NULL));
    for (size_t i = 0; i < CALLS; i++) {
        result there;
        given with = {handle, "number", places[NUMBER], 0, &there};
        memset(&there, 0x55, sizeof there);
        watch(1, NULL);
        uint32_t status = calls[i].make(&with);
        if (requests > 0) {
            expect(calls[i].name, status, LEZGAURI_MEMORY);
            has_untouched(calls[i].name, &there);
        } else {
            expect(calls[i].name, status != LEZGAURI_MEMORY, 1);
        }
        watch(0, NULL);
        lezgauri_close(handle);
        lezgauri_close(filled(memory, LEZGAURI_BEST_FIT, LEZGAURI_FLAT_INDEX, places));
        done("open in", lezgauri_open_in(memory, SIZE, SIZE, &handle, NULL));
    }
    /* once the types are known, no call takes memory */
    watch(1, NULL);
    expect("find, no memory", lezgauri_find(handle, "number", NUMBER, &place), LEZGAURI_MEMORY);
    done("find, memory", lezgauri_find(handle, "number", NUMBER, &place));
    watch(1, NULL);
    for (int i = 0; i < 100; i++) {
        int64_t number;
        done("load", lezgauri_load(handle, place, &number));
        done("store", lezgauri_store(handle, place, number + 1));
        done("put", lezgauri_put(handle, places[MAP], i, &places[NAMES]));
    }
    expect("known types: no request for memory", requests, 0);
    lezgauri_type more[TYPES + 1];
    memcpy(more, table, sizeof table);
    more[TYPES] = table[STRING];
    done("add types", lezgauri_add_types(handle, more, TYPES + 1, NULL));
    watch(1, NULL);
    expect("load after more types", (uint64_t)number_at(handle, place), 141);
    expect("load after more types: no request for memory", requests, 0);
    watch(0, NULL);
    lezgauri_close(handle);
    free_memory(memory);
}

/* The first call on a client takes memory for a segment's types. Once they are known, a run of a prepared client takes none. */
static void memory_of_clients(void)
{
    static const uint8_t no_client[20] = {'S', 'E', 'G', 'C', 1};
    uint8_t *memory = new_memory();
    lezgauri_place places[TYPES];
    lezgauri_handle *handle = NULL, *other = NULL;
    lezgauri_client *client = NULL;
    lezgauri_fault fault;
    lezgauri_close(filled(memory, LEZGAURI_BEST_FIT, LEZGAURI_FLAT_INDEX, places));
    done("open in", lezgauri_open_in(memory, SIZE, SIZE, &handle, NULL));
    done("open in", lezgauri_open_in(memory, SIZE, SIZE, &other, NULL));
    watch(1, NULL);
    expect("prepare, no memory", lezgauri_prepare(handle, no_client, sizeof no_client, &client, &fault), LEZGAURI_MEMORY);
    expect("prepare, no memory: number", fault.number, LEZGAURI_MEMORY);
    expect("prepare, no memory: none", client != NULL, 0);
    watch(0, NULL);
    done("prepare", lezgauri_prepare(handle, no_client, sizeof no_client, &client, NULL));
    watch(1, NULL);
    expect("run client, no memory", lezgauri_run_client(other, client, NULL, 0, NULL, 0, NULL, NULL, &fault), LEZGAURI_MEMORY);
    expect("run client, no memory: number", fault.number, LEZGAURI_MEMORY);
    watch(1, NULL);
    expect("run on, no memory", lezgauri_run_on(other, no_client, sizeof no_client, NULL, 0, NULL, 0, NULL, NULL, &fault),
           LEZGAURI_MEMORY);
    expect("run on, no memory: number", fault.number, LEZGAURI_MEMORY);
    watch(1, NULL);
    done("run client, known types", lezgauri_run_client(handle, client, NULL, 0, NULL, 0, NULL, NULL, NULL));
    expect("run client, known types: no request for memory", requests, 0);
    watch(0, NULL);
    done("run client, memory", lezgauri_run_client(other, client, NULL, 0, NULL, 0, NULL, NULL, NULL));
    expect("run client, memory: requests", requests, 1);
    lezgauri_client_close(client);
    lezgauri_close(handle);
    lezgauri_close(other);
    free_memory(memory);
}

/* ---- threads that read one image */

enum { THREADS = 4, ROUNDS = 2000 };

/* A thread's handle, and how many numbers it read rightly. */
typedef struct reading {
    lezgauri_handle *handle;
    int right;
} reading;

static void *read_often(void *given_reading)
{
    reading *of = given_reading;
    for (int i = 0; i < ROUNDS; i++) {
        lezgauri_place map, value;
        int64_t number = 0, key = i % 100;
        bool is_right = lezgauri_find(of->handle, "map", MAP, &map) == LEZGAURI_OK &&
                        lezgauri_get(of->handle, map, key, &value) == LEZGAURI_OK &&
                        lezgauri_load(of->handle, value, &number) == LEZGAURI_OK && number == key * key;
        of->right += is_right;
    }
    return NULL;
}

static void threads(void)
{
    uint8_t *memory = new_memory();
    lezgauri_handle *handle = new_segment(memory, LEZGAURI_SEQ_FIT, LEZGAURI_TREE_INDEX);
    lezgauri_place map = constructed(handle, "map", MAP), value;
    for (int64_t key = 0; key < 100; key++) {
        done("put", lezgauri_put(handle, map, key, &value));
        done("store", lezgauri_store(handle, value, key * key));
    }
    lezgauri_close(handle);
    allow(memory, PROT_READ);
    reading of[THREADS];
    pthread_t thread[THREADS];
    done("read", lezgauri_read(memory, SIZE, &of[0].handle, NULL));
    for (int i = 1; i < THREADS; i++) {
        done("reader", lezgauri_reader(of[0].handle, &of[i].handle));
    }
    for (int i = 0; i < THREADS; i++) {
        of[i].right = 0;
        if (pthread_create(&thread[i], NULL, read_often, &of[i]) != 0) {
            fail("thread");
        }
    }
    for (int i = 0; i < THREADS; i++) {
        pthread_join(thread[i], NULL);
        expect("threads: numbers", (uint64_t)of[i].right, ROUNDS);
        lezgauri_close(of[i].handle);
    }
    free_memory(memory);
}

int main(void)
{
    for (uint32_t kinds = 0; kinds < 4; kinds++) {
        uint32_t allocator = kinds & 1 ? LEZGAURI_BEST_FIT : LEZGAURI_SEQ_FIT;
        uint32_t index = kinds & 2 ? LEZGAURI_TREE_INDEX : LEZGAURI_FLAT_INDEX;
        uint8_t *memory = new_memory();
        lezgauri_handle *handle = new_segment(memory, allocator, index);
        size_t all, largest;
        named_objects(handle);
        unique_objects(handle);
        anonymous_objects(handle);
        numbers_and_structs(handle);
        strings(handle);
        vectors(handle);
        lists(handle);
        maps(handle, FLAT_MAP);
        maps(handle, MAP);
        flat_map_of_strings(handle);
        owners(handle);
        used_up_numbers(handle, memory);
        done("free memory", lezgauri_free_memory(handle, &all, &largest));
        expect("all memory is free again", all == SIZE - 704 && largest == all, 1);
        lezgauri_close(handle);
        free_memory(memory);
        read_only(allocator, index);
    }
    types();
    growing();
    pushing();
    putting(MAP);
    putting(FLAT_MAP);
    arguments();
    broken_images();
    invalid_changes();
    busy_calls();
    refused_memory();
    memory_of_clients();
    threads();
    printf("%d calls and results on values, %d wrong\n", made, wrong);
    return wrong > 0;
}
