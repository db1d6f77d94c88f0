/* Changes images, clients and texts, knowing where their fields are (docs/FORMATS.md). */
#include "fuzz.h"

#include <string.h>

enum { UNIT = 16, HEAP = 704, TYPES_AT = 64, UNIQUE_AT = 576, MOST_BLOCKS = 4096, CODE_AT = 20 };

static uint32_t get(const uint8_t *at)
{
    return at[0] | (uint32_t)at[1] << 8 | (uint32_t)at[2] << 16 | (uint32_t)at[3] << 24;
}

static void put(uint8_t *at, uint32_t number)
{
    for (int i = 0; i < 4; i++) {
        at[i] = (uint8_t)(number >> (8 * i));
    }
}

/* A number that tends to be a limit, or close to another one. */
static uint32_t near(choices *from, uint32_t number)
{
    static const uint32_t limits[] = {0,        1,          2,          16,         63,        64,
                                      255,      256,        4096,       65535,      65536,     1u << 26,
                                      1u << 30, 0x7fffffff, 0x80000000, 0xfffffffe, 0xffffffff};
    switch (choose(from, 4)) {
    case 0: return limits[choose(from, sizeof limits / sizeof *limits)];
    case 1: return number + choose(from, 33) - 16;
    case 2: return number ^ 1u << choose(from, 32);
    default: return choose(from, 0xffffffff);
    }
}

size_t mutate_bytes(choices *from, uint8_t *bytes, size_t len, size_t room)
{
    if (len == 0 || once_in(from, 8)) {
        size_t added = 1 + choose(from, 16), at = choose(from, (uint32_t)len + 1);
        if (len + added <= room) {
            memmove(bytes + at + added, bytes + at, len - at);
            for (size_t i = 0; i < added; i++) {
                bytes[at + i] = (uint8_t)choose(from, 256);
            }
            len += added;
        }
        return len;
    }
    size_t at = choose(from, (uint32_t)len);
    switch (choose(from, 4)) {
    case 0: bytes[at] ^= (uint8_t)(1u << choose(from, 8)); break;
    case 1: bytes[at] = (uint8_t)choose(from, 256); break;
    case 2: bytes[at] = (uint8_t)(bytes[at] + choose(from, 3) - 1); break;
    default: {
        size_t gone = 1 + choose(from, 16);
        gone = gone > len - at ? len - at : gone;
        memmove(bytes + at, bytes + at + gone, len - at - gone);
        len -= gone;
    }
    }
    return len;
}

/* ---- images */

/* The positions of the headers, as far as the sizes lead. */
static uint32_t find_blocks(const uint8_t *image, size_t len, uint32_t *blocks)
{
    uint32_t count = 0;
    for (size_t at = HEAP; at + UNIT <= len && count < MOST_BLOCKS;) {
        blocks[count++] = (uint32_t)at;
        size_t size = (size_t)(get(image + at) & 0x7fffffff) * UNIT;
        if (size == 0) {
            break;
        }
        at += size;
    }
    return count;
}

static void mutate_header(choices *from, uint8_t *image)
{
    static const uint8_t fields[] = {8, 12, 16, 20, 24, 28, 32, 36, 40, 60};
    uint32_t at = once_in(from, 8) ? choose(from, 16) * 4 : fields[choose(from, sizeof fields)];
    put(image + at, choose(from, 2) ? choose(from, 3) : near(from, get(image + at)));
}

static void mutate_table(choices *from, uint8_t *image)
{
    uint8_t *entry = image + TYPES_AT + UNIT * choose(from, choose(from, 2) ? 6 : 32);
    switch (choose(from, 4)) {
    case 0: entry[0] = (uint8_t)choose(from, 11); break;
    case 1: entry[1] = (uint8_t)choose(from, 10); break;
    case 2: entry[2 + choose(from, 8)] = (uint8_t)choose(from, 33); break;
    default: memmove(entry, image + TYPES_AT + UNIT * choose(from, 8), UNIT);
    }
}

/* Changes a field of a block's header, or a number in its payload. */
static void mutate_block(choices *from, uint8_t *image, size_t len, const uint32_t *blocks, uint32_t count)
{
    uint32_t header = blocks[choose(from, count)];
    uint8_t *at = image + header;
    size_t size = (size_t)(get(at) & 0x7fffffff) * UNIT;
    size = header + size > len ? len - header : size;
    switch (choose(from, 8)) {
    case 0: put(at, get(at) + choose(from, 3) - 1); break;
    case 1: put(at, get(at) ^ 0x80000000); break;
    case 2: put(at + 4, near(from, get(at + 4))); break;
    case 3: at[8] = (uint8_t)choose(from, 9); break;
    case 4: at[9] = (uint8_t)choose(from, 12); break;
    case 5: put(at + 12, near(from, get(at + 12))); break;
    default:
        if (size > UNIT) {
            uint32_t word = UNIT + 4 * choose(from, (uint32_t)(size - UNIT) / 4);
            put(at + word, near(from, get(at + word)));
        }
    }
}

/* Makes a pointer point to the payload of a random block, or to where another pointer points. */
static void mutate_pointer(choices *from, uint8_t *image, size_t len, const uint32_t *blocks, uint32_t count)
{
    static const uint32_t fixed[] = {24, 32};
    uint32_t at;
    switch (choose(from, 4)) {
    case 0: at = fixed[choose(from, 2)]; break;
    case 1: at = UNIQUE_AT + 4 * choose(from, 32); break;
    default: {
        uint32_t header = blocks[choose(from, count)];
        uint32_t words = (get(image + header) & 0x7fffffff) * (UNIT / 4);
        words = words > 64 ? 64 : words;
        at = header + 4 * choose(from, words + 1);
    }
    }
    if (at + 4 > len) {
        return;
    }
    uint32_t target = blocks[choose(from, count)] + UNIT;
    if (once_in(from, 6)) {
        target += UNIT * choose(from, 4);
    }
    put(image + at, once_in(from, 6) ? 1 : target - at);
}

/* Changes the length, with the header or without it. */
static size_t mutate_length(choices *from, uint8_t *image, size_t len, size_t room)
{
    size_t new_len = choose(from, 2) ? len - len / UNIT % 4 * UNIT : len + choose(from, 8) * UNIT + once_in(from, 4);
    new_len = new_len > room ? room : new_len;
    if (new_len > len) {
        memset(image + len, 0, new_len - len);
    }
    if (choose(from, 2) && new_len >= HEAP) {
        put(image + 12, (uint32_t)(new_len / UNIT));
    }
    return new_len;
}

size_t mutate_image(choices *from, uint8_t *image, size_t len, size_t room)
{
    static uint32_t blocks[MOST_BLOCKS];
    if (len < HEAP + 2 * UNIT) {
        return mutate_bytes(from, image, len, room);
    }
    uint32_t count = find_blocks(image, len, blocks);
    switch (choose(from, 16)) {
    case 0: mutate_header(from, image); break;
    case 1: mutate_table(from, image); break;
    case 2: return mutate_length(from, image, len, room);
    case 3: image[choose(from, (uint32_t)len)] ^= (uint8_t)(1u << choose(from, 8)); break;
    case 4:
        memmove(image + UNIT * choose(from, (uint32_t)len / UNIT), image + UNIT * choose(from, (uint32_t)len / UNIT),
                UNIT);
        break;
    case 5:
    case 6:
    case 7:
    case 8:
    case 9: mutate_pointer(from, image, len, blocks, count); break;
    default: mutate_block(from, image, len, blocks, count);
    }
    return len;
}

/* ---- clients */

/* Where the instructions begin, or 0 if the sections before them aren't whole. */
static size_t code_of(const uint8_t *client, size_t len)
{
    if (len < CODE_AT || get(client + 8) > 32 || get(client + 12) > 256) {
        return 0;
    }
    size_t at = CODE_AT + UNIT * (size_t)get(client + 8);
    for (uint32_t i = get(client + 12); i > 0 && at + 2 <= len; i--) {
        at += 2u + client[at + 1];
    }
    return at + 8 <= len ? at : 0;
}

size_t mutate_client(choices *from, uint8_t *client, size_t len, size_t room)
{
    size_t code = code_of(client, len);
    if (code == 0 || once_in(from, 10)) {
        return mutate_bytes(from, client, len, room);
    }
    uint32_t count = (uint32_t)((len - code) / 8);
    uint8_t *one = client + code + 8 * choose(from, count), *two = client + code + 8 * choose(from, count);
    uint8_t saved[8];
    switch (choose(from, 12)) {
    case 0: put(client + 4 * (1 + choose(from, 4)), choose(from, 40)); break;
    case 1: client[CODE_AT + choose(from, (uint32_t)(code - CODE_AT))] = (uint8_t)choose(from, 64); break;
    case 2: one[0] = (uint8_t)choose(from, 54); break;
    case 3: put(one + 4, near(from, get(one + 4))); break;
    case 4:
        memcpy(saved, one, 8);
        memmove(one, two, 8);
        memcpy(two, saved, 8);
        break;
    case 5: memmove(one, two, 8); break;
    case 6:
        memmove(one, one + 8, (size_t)(client + len - one) - 8);
        len -= 8;
        put(client + 16, count - 1);
        break;
    case 7:
        if (len + 8 <= room) {
            memmove(one + 8, one, (size_t)(client + len - one));
            len += 8;
            put(client + 16, count + 1);
        }
        break;
    default: one[1 + choose(from, 3)] = (uint8_t)choose(from, 18);
    }
    return len;
}

/* ---- texts */

size_t mutate_text(choices *from, uint8_t *text, size_t len, size_t room)
{
    static const char *const words[] = {" ",
                                        "\n",
                                        "\t",
                                        "r0",
                                        "r15",
                                        "r16",
                                        "-",
                                        "t0",
                                        "t31",
                                        "t32",
                                        "k0",
                                        "k255",
                                        "-1",
                                        "00",
                                        "+1",
                                        "2147483647",
                                        "-2147483648",
                                        "2147483648",
                                        "\\00",
                                        "\\",
                                        "type i64\n",
                                        "text \n",
                                        "name a\n",
                                        "END\n",
                                        "ELSE\n",
                                        ";",
                                        "WHILE r0 1\n",
                                        "\r\n",
                                        "FREEZE r0 r1 r2\n"};
    if (len < 2 || once_in(from, 6)) {
        return mutate_bytes(from, text, len, room);
    }
    size_t at = choose(from, (uint32_t)len);
    if (choose(from, 3) != 0) {
        const char *word = words[choose(from, sizeof words / sizeof *words)];
        size_t added = strlen(word), gone = choose(from, 2) ? choose(from, 4) : 0;
        gone = gone > len - at ? len - at : gone;
        if (len + added > room) {
            return len;
        }
        memmove(text + at + added, text + at + gone, len - at - gone);
        memcpy(text + at, word, added);
        return len + added - gone;
    }
    uint8_t *end = memchr(text + at, '\n', len - at);
    size_t line = end == NULL ? len - at : (size_t)(end - (text + at)) + 1;
    if (choose(from, 2)) {
        memmove(text + at, text + at + line, len - at - line);
        return len - line;
    }
    if (len + line > room) {
        return len;
    }
    memmove(text + at + line, text + at, len - at);
    return len + line;
}
