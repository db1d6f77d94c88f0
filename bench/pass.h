/* One pass over what a check has to read, without any test but what leads to the next byte: the header of each block in order of
 * positions; then the values, each with the header of its block. docs/FORMATS.md has the positions. */
#include <stddef.h>
#include <stdint.h>
#include <string.h>

enum { PASS_UNIT = 16, PASS_HEAP = 704, PASS_ALLOCATED_BIT = 31, PASS_NULL_DISTANCE = 1 };

/* positions in a map's node, in an entry of a flat map and in a cell */
enum { PASS_RIGHT = 4, PASS_TREE_FIELDS = 16, PASS_KEY = 8, PASS_PAIR = 16, PASS_COUNT = 4 };

/* The sums of the numbers that were read, so that the compiler leaves none out. */
static uint64_t headers_read, keys_read, values_read;

static uint32_t word_at(const uint8_t *image, size_t at)
{
    uint32_t word;
    memcpy(&word, image + at, sizeof word);
    return word;
}

static uint64_t number_at(const uint8_t *image, size_t at)
{
    uint64_t number;
    memcpy(&number, image + at, sizeof number);
    return number;
}

static size_t target_of(const uint8_t *image, size_t pointer)
{
    return (size_t)((int64_t)pointer + (int32_t)word_at(image, pointer));
}

/* Reads the header before a payload. */
static void read_header(const uint8_t *image, size_t payload)
{
    headers_read += number_at(image, payload - PASS_UNIT) + number_at(image, payload - PASS_UNIT / 2);
}

static void read_headers(const uint8_t *image, size_t len)
{
    for (size_t at = PASS_HEAP; at < len;) {
        read_header(image, at + PASS_UNIT);
        at += PASS_UNIT * (size_t)(word_at(image, at) & ~(1u << PASS_ALLOCATED_BIT));
    }
}

static void read_entry(const uint8_t *image, size_t at)
{
    keys_read += number_at(image, at);
    values_read += number_at(image, at + PASS_KEY);
}

/* Reads the subtree of a map to which a pointer refers, in order of the keys. */
static void read_tree(const uint8_t *image, size_t pointer)
{
    if (word_at(image, pointer) == PASS_NULL_DISTANCE) {
        return;
    }
    size_t node = target_of(image, pointer);
    read_header(image, node);
    read_tree(image, node);
    read_entry(image, node + PASS_TREE_FIELDS);
    read_tree(image, node + PASS_RIGHT);
}

/* Reads the buffer of a flat map's cell. */
static void read_buffer(const uint8_t *image, size_t cell)
{
    size_t buffer = target_of(image, cell), count = word_at(image, cell + PASS_COUNT);
    read_header(image, buffer);
    for (size_t i = 0; i < count; i++) {
        read_entry(image, buffer + PASS_PAIR * i);
    }
}
