/* Makes and changes programs in the language for clients (docs/LANGUAGE.md). */
#include "fuzz.h"

#include <stdio.h>
#include <string.h>

enum { MOST_NAMES = 12, MOST_NEST = 4 };

/* All declarations; a program has some of them. */
static const char *const declarations[] = {
    "object i0: int\n",
    "object i1: int as \"another-name\"\n",
    "object t0: text\n",
    "object v0: vec<int>\n",
    "object l0: list<int>\n",
    "object m0: map<int>\n",
    "object m1: flat_map<int>\n",
    "object e0[3]: int\n",
    "family g0: int\n",
    "unique u0: map<int>\n",
    "struct S { a: int, b: text, c: vec<int> }\nobject s0: S\nobject o0: own<S>\nobject h0: shared<S>\nobject h1: shared<S>\n",
    "object d0: map<list<text>>\n",
    "fail { print \"no room\" }\n",
    "const K = 7\n",
    "fn f0(n) -> int { if n > 3 { return n * 2 } return n }\n",
    "fn f1(p: map<int>, n) { p[n] += 1 }\n",
};

/* In what follows, %e is an expression, %i a number's place, %t a text, %v a sequence of numbers, %m a map of numbers,
 * %k a small number, %n a new name of a number, %b a block, and %w an else part or none. */
static const char *const statements[] = {
    "%i = %e%w",
    "%i += %e%w",
    "%i /= %e%w",
    "%t = \"a\", %e%w",
    "%t += %e : 5, \"\\x00\\n\"%w",
    "%t += %t max 9%w",
    "print %e, \" \", %e",
    "write %e : 9",
    "print %t max 20",
    "print",
    "%v.push(%e)%w",
    "l0.push_front(%e)%w",
    "%v.pop() else { print \"none\" }",
    "%m[%e] = %e%w",
    "%m[%e] -= %e%w",
    "delete %m[%e]",
    "delete i0",
    "delete g0[%e]",
    "clear %v",
    "clear %m",
    "shrink %m",
    "if %e {\n%b}",
    "if %e {\n%b} else {\n%b}",
    "if let %n = %m[%e] {\n%b} else {\n%b}",
    "if let %n = %v.pop() {\n%b}",
    "if let %n = %i {\n%b}",
    "for %n in %k..%k {\n%b}",
    "for %n in %e..%e max %k {\n%b} else {\n%b}",
    "for %n in input max %k {\n%b}",
    "for %n in %v max %k {\n%b}",
    "for %n in %m max %k {\n%b}",
    "while %e max %k {\n%b}",
    "if %e { stop }",
    "while %e max %k {\n%bif %e { break }\n}",
    "let %n = %e",
    "let %n = %m.first else { stop }",
    "use %m {\n%b}%w",
    "e0[%k] = %e%w",
    "s0.b = \"b\", %e%w",
    "s0.c.push(%e)%w",
    "d0[%e].push()%w",
    "d0[%e][%k] += %e%w",
    "f1(%m, %e)",
    "if 1 {\nlet o = new S else { stop }\no.a = %e%w\no0 = o%w\n}",
    "if 1 {\nlet o = new S else { stop }\nfreeze h0 = o%w\nshare h1 = h0%w\n}",
    "if let o = take o0 {\nprint o.a\n}",
};

static const char *const expressions[] = {
    "%k",          "%k",          "-1",           "'a'",         "0x7fff_ffff_ffff_ffff", "K",
    "%i ?? %k",    "%m[%e] ?? 0", "%v[%k] ?? 0",  "%v.len",      "%m.len",                "%t.len",
    "(%e + %e)",   "(%e * %e)",   "(%e - %e)",    "(%e / %e)",   "(%e %% %e)",            "(%e < %e)",
    "(%e == %e)",  "(%e && %e)",  "(%e || !%e)",  "-%e",         "f0(%e)",                "%m.first ?? -1",
    "%m.after(%e) ?? 0", "(%t == \"a\")", "s0.a ?? 0",  "h0.a ?? 0", "e0[%k] ?? 1", "g0[%e] ?? 0",
};

typedef struct writer {
    choices *from;
    char *at, *end;
    uint32_t names, made; /* how many local names there are, and how many there were */
    uint32_t local[MOST_NAMES];
} writer;

static void put_text(writer *to, const char *text)
{
    size_t len = strlen(text);
    if (len < (size_t)(to->end - to->at)) {
        memcpy(to->at, text, len);
        to->at += len;
    }
}

#define ONE_OF(table) table[choose(to->from, sizeof table / sizeof *table)]

static void put_block(writer *to, uint32_t depth, uint32_t most);

static void put_expression(writer *to, uint32_t depth);

static void put_template(writer *to, const char *template, uint32_t depth)
{
    static const char *const numbers[] = {"i0", "i1", "s0.a", "e0[1]", "g0[2]", "i0"};
    static const char *const texts[] = {"t0", "t0", "s0.b", "d0[1][0]"};
    static const char *const sequences[] = {"v0", "l0", "v0", "s0.c"};
    static const char *const maps[] = {"m0", "m1", "u0"};
    char text[32];
    uint32_t names = to->names, added = 0;
    for (const char *it = template; *it != 0; it++) {
        if (*it != '%') {
            text[0] = *it, text[1] = 0;
            put_text(to, text);
            continue;
        }
        switch (*++it) {
        case 'e': put_expression(to, depth + 1); break;
        case 'i': put_text(to, ONE_OF(numbers)); break;
        case 't': put_text(to, ONE_OF(texts)); break;
        case 'v': put_text(to, ONE_OF(sequences)); break;
        case 'm': put_text(to, ONE_OF(maps)); break;
        case 'k':
            snprintf(text, sizeof text, "%u", choose(to->from, once_in(to->from, 8) ? 1000 : 6));
            put_text(to, text);
            break;
        case 'n':
            snprintf(text, sizeof text, "x%u", to->made);
            put_text(to, text);
            if (names < MOST_NAMES) {
                to->local[names] = to->made;
                added = 1;
            }
            to->made++;
            break;
        case 'b':
            /* only the first block has the new name */
            to->names = names + added;
            put_block(to, depth + 1, 3);
            to->names = names;
            added = 0;
            break;
        case 'w':
            if (choose(to->from, 2)) {
                put_text(to, " else { print \"full\" }");
            }
            break;
        default: text[0] = *it, text[1] = 0, put_text(to, text);
        }
    }
    to->names = names + added;
}

static void put_expression(writer *to, uint32_t depth)
{
    char text[16];
    if (to->names > 0 && choose(to->from, 3) == 0) {
        snprintf(text, sizeof text, "x%u", to->local[choose(to->from, to->names)]);
        put_text(to, text);
    } else {
        put_template(to, depth > MOST_NEST ? "1" : ONE_OF(expressions), depth);
    }
}

static void put_block(writer *to, uint32_t depth, uint32_t most)
{
    uint32_t names = to->names;
    for (uint32_t i = 1 + choose(to->from, most); i > 0; i--) {
        put_template(to, depth > MOST_NEST ? "print 1" : ONE_OF(statements), depth);
        put_text(to, "\n");
    }
    to->names = names;
}

size_t generate_program(choices *from, uint8_t *input)
{
    writer to = {from, (char *)input, (char *)input + MOST_PROGRAM, 0, 0, {0}};
    for (size_t i = 0; i < sizeof declarations / sizeof *declarations; i++) {
        if (!once_in(from, 16)) {
            put_text(&to, declarations[i]);
        }
    }
    put_block(&to, 0, 10);
    return (size_t)(to.at - (char *)input);
}

static bool is_word(uint8_t byte)
{
    uint8_t lower = byte | 32;
    return (lower >= 'a' && lower <= 'z') || (byte >= '0' && byte <= '9') || byte == '_';
}

/* The length of the word, or of the sign, at a place. */
static size_t word_at(const uint8_t *text, size_t len)
{
    size_t end = 1;
    while (end < len && is_word(text[0]) && is_word(text[end])) {
        end++;
    }
    return end < len ? end : len;
}

/* Changes words: removes one, doubles one, or puts another one in its place or before it. */
static size_t mutate_words(choices *from, uint8_t *text, size_t len, size_t room)
{
    static const char *const signs[] = {
        "{",     "}",      "(",       ")",      "[",     "]",      "\n",     ";",      ",",    "..",  "??",   "=",
        "+=",    "/=",     "==",      "!",      "&&",    ":",      ".len",   ".first", "else", "let", "new S", "take o0",
        "input", "max 3",  "\"a\"",   "\"",     "'",     "-",      "0x",     "9223372036854775807",   "x0",  "x1",
        "i0",    "m0",     "v0",      "t0",     "s0",    "o0",     "h0",     "d0",     "K",    "f0",  "fn f2() {", "const C = ",
        "for x9 in 0..3 {", "if 1 {", "use m0 {", "return", "print", "#", "//", "\\x00", "\xc3\xa9", "\xff", "\x1b",
    };
    uint8_t copied[64];
    size_t at = choose(from, (uint32_t)len);
    while (at > 0 && is_word(text[at]) && is_word(text[at - 1])) {
        at--;
    }
    size_t gone = word_at(text + at, len - at), added = 0;
    switch (choose(from, 4)) {
    case 0: break;
    case 1: gone = 0; /* fallthrough */
    case 2:
        added = word_at(text + at, len - at);
        if (choose(from, 2)) {
            const char *sign = signs[choose(from, sizeof signs / sizeof *signs)];
            added = strlen(sign);
            memcpy(copied, sign, added);
        } else {
            size_t other = choose(from, (uint32_t)len);
            added = word_at(text + other, len - other);
            added = added > sizeof copied ? sizeof copied : added;
            memcpy(copied, text + other, added);
        }
        break;
    default: gone = 0;
    }
    if (len - gone + added > room) {
        return len;
    }
    memmove(text + at + added, text + at + gone, len - at - gone);
    memcpy(text + at, copied, added);
    return len - gone + added;
}

size_t mutate_program(choices *from, uint8_t *text, size_t len, size_t room)
{
    room = room > MOST_PROGRAM ? MOST_PROGRAM : room;
    if (len == 0 || len > room || once_in(from, 8)) {
        return len > room ? room : mutate_bytes(from, text, len, room);
    }
    return mutate_words(from, text, len, room);
}
