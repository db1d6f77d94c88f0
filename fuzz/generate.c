/* Makes random type tables, clients and images. The generator of clients follows the rules of the verifier
 * (docs/FORMATS.md), so that most clients are accepted. */
#include "fuzz.h"

#include <stdio.h>
#include <string.h>

enum operation {
    CONST = 1,
    MOV,
    ADD,
    SUB,
    MUL,
    LT,
    EQ,
    IF,
    WHILE,
    ELSE,
    END,
    OUTI,
    OUTS,
    OUTC,
    GETB,
    MAKE,
    FIND,
    FINDOR,
    COUNT,
    KILL,
    UMAKE,
    UFIND,
    UFINDOR,
    UKILL,
    NEW,
    DROP,
    REF,
    PUT,
    TAKE,
    CONTENT,
    CLEAR,
    FORGET,
    LOAD,
    STORE,
    FIELD,
    LEN,
    AT,
    PUSH,
    PUSHF,
    POP,
    POPF,
    SETS,
    ADDS,
    ADDB,
    SHRINK,
    GETK,
    PUTK,
    DELK,
    FIRSTK,
    NEXTK,
    FREEZE,
    SHARE
};

enum {
    REGISTERS = 16,
    NONE = 16,
    MOST_CODE = 400,
    MOST_PARTS = 7,
    TEXTS_COUNT = 4,
    NAMES_COUNT = 6,
    FAMILIES_COUNT = 2
};

/* ---- types */

uint32_t size_of_type(const lezgauri_type *types, uint32_t type)
{
    if (types[type].kind != LEZGAURI_KIND_STRUCT) {
        return 8;
    }
    uint32_t size = 0;
    for (int i = 0; i < types[type].count; i++) {
        size += size_of_type(types, types[type].components[i]);
    }
    return size;
}

uint32_t generate_types(choices *from, lezgauri_type *types)
{
    uint32_t count = 2 + choose(from, once_in(from, 8) ? 31 : 12);
    memset(types, 0, count * sizeof *types);
    types[0].kind = LEZGAURI_KIND_I64;
    types[1].kind = LEZGAURI_KIND_STR;
    for (uint32_t i = 2; i < count; i++) {
        lezgauri_type *it = &types[i];
        it->kind = (uint8_t)(1 + choose(from, 9));
        if (it->kind == LEZGAURI_KIND_STRUCT) {
            it->count = (uint8_t)(1 + choose(from, 4));
            for (int k = 0; k < it->count; k++) {
                it->components[k] = (uint8_t)choose(from, i);
            }
            if (size_of_type(types, i) > MOST_SIZE) {
                *it = (lezgauri_type){LEZGAURI_KIND_STR, 0, {0}, {0}};
            }
        } else if (it->kind > LEZGAURI_KIND_STR) {
            it->count = 1;
            it->components[0] = (uint8_t)choose(from, count);
        }
    }
    return count;
}

/* ---- clients */

typedef enum { UNDEFINED, INT, REFERENCE, READ_ONLY, OWNED } holds;

/* What a register contains: the type and the class of a reference. */
typedef struct state {
    uint8_t holds, type;
    uint16_t class;
} state;

/* Which objects a reference may refer into: a name constant, or these. */
enum { UNIQUE_CLASS = 256, OWNED_CLASS = 512 };

/* What may happen to a register in a part: anything, only numbers, or nothing, since its object is owned outside. */
typedef enum { FREE, ONLY_INT, KEPT } lock;

typedef struct generator {
    choices *from;
    const lezgauri_type *types;
    uint32_t type_count;
    uint8_t *code;
    uint32_t len;
    state now[REGISTERS];
    lock locks[REGISTERS];
    uint32_t parts, turns;
} generator;

static void emit(generator *g, int operation, uint32_t a, uint32_t b, uint32_t c, int32_t number)
{
    uint8_t *at = g->code + 8 * (size_t)g->len++;
    at[0] = (uint8_t)operation, at[1] = (uint8_t)a, at[2] = (uint8_t)b, at[3] = (uint8_t)c;
    for (int i = 0; i < 4; i++) {
        at[4 + i] = (uint8_t)((uint32_t)number >> (8 * i));
    }
}

static bool is_full(const generator *g)
{
    return g->len > MOST_CODE;
}

/* A random register for which a test is true, or NONE. */
static uint32_t pick(generator *g, bool (*fits)(const generator *g, uint32_t r, int kind), int kind)
{
    uint32_t first = choose(g->from, REGISTERS);
    for (uint32_t i = 0; i < REGISTERS; i++) {
        uint32_t r = (first + i) % REGISTERS;
        if (fits(g, r, kind)) {
            return r;
        }
    }
    return NONE;
}

static bool is_int(const generator *g, uint32_t r, int kind)
{
    (void)kind;
    return g->now[r].holds == INT;
}

/* A register that may be set to a number, or to anything. */
static bool takes_int(const generator *g, uint32_t r, int kind)
{
    (void)kind;
    return g->now[r].holds != OWNED && g->locks[r] != KEPT;
}

static bool takes_any(const generator *g, uint32_t r, int kind)
{
    (void)kind;
    return g->now[r].holds != OWNED && g->locks[r] == FREE;
}

static bool is_owned(const generator *g, uint32_t r, int kind)
{
    (void)kind;
    return g->now[r].holds == OWNED && g->locks[r] == FREE;
}

/* A reference to a type of this kind; kind 0 is any. */
static bool is_reference(const generator *g, uint32_t r, int kind)
{
    return g->now[r].holds == REFERENCE && (kind == 0 || g->types[g->now[r].type].kind == kind);
}

static bool is_readable(const generator *g, uint32_t r, int kind)
{
    return (g->now[r].holds == REFERENCE || g->now[r].holds == READ_ONLY) &&
           (kind == 0 || g->types[g->now[r].type].kind == kind);
}

static void set(generator *g, uint32_t r, holds what, uint32_t type, uint32_t class)
{
    g->now[r] = (state){(uint8_t)what, (uint8_t)type, (uint16_t) class};
}

static void end_class(generator *g, uint32_t class, uint32_t but)
{
    for (uint32_t r = 0; r < REGISTERS; r++) {
        if (r != but && (g->now[r].holds == REFERENCE || g->now[r].holds == READ_ONLY) && g->now[r].class == class) {
            set(g, r, UNDEFINED, 0, 0);
        }
    }
}

static void drop(generator *g, uint32_t r)
{
    emit(g, DROP, 0, r, 0, 0);
    end_class(g, OWNED_CLASS + r, NONE);
    set(g, r, UNDEFINED, 0, 0);
}

static void generate_part(generator *g, uint32_t instructions);

/* The parts after an opener whose success has set the registers. `failed` are the registers of the else part. */
static void finish_opener(generator *g, const state *failed)
{
    lock locks[REGISTERS];
    memcpy(locks, g->locks, sizeof locks);
    g->parts++;
    generate_part(g, choose(g->from, 6));
    for (uint32_t r = 0; r < REGISTERS; r++) {
        bool stays = failed[r].holds == OWNED && failed[r].type == g->now[r].type;
        if (g->now[r].holds == OWNED && !stays) {
            drop(g, r);
        }
    }
    state done[REGISTERS];
    memcpy(done, g->now, sizeof done);
    memcpy(g->now, failed, sizeof done);
    emit(g, ELSE, 0, 0, 0, 0);
    for (uint32_t r = 0; r < REGISTERS; r++) {
        if (done[r].holds == OWNED) {
            g->locks[r] = KEPT;
        } else if (g->now[r].holds == OWNED) {
            drop(g, r);
        }
    }
    generate_part(g, choose(g->from, 3));
    for (uint32_t r = 0; r < REGISTERS; r++) {
        if (g->now[r].holds == OWNED && done[r].holds != OWNED) {
            drop(g, r);
        }
    }
    emit(g, END, 0, 0, 0, 0);
    g->parts--;
    memcpy(g->locks, locks, sizeof locks);
    for (uint32_t r = 0; r < REGISTERS; r++) {
        if (memcmp(&g->now[r], &done[r], sizeof done[r]) != 0) {
            set(g, r, UNDEFINED, 0, 0);
        }
    }
}

/* Emits an opener that sets register a. */
static void open_with(generator *g, int operation, uint32_t a, uint32_t b, uint32_t c, int32_t number, state got)
{
    state failed[REGISTERS];
    emit(g, operation, a, b, c, number);
    memcpy(failed, g->now, sizeof failed);
    failed[a] = (state){INT, 0, 0};
    g->now[a] = got;
    finish_opener(g, failed);
}

static state as_int(void)
{
    return (state){INT, 0, 0};
}

static state reference(uint32_t type, uint32_t class)
{
    return (state){REFERENCE, (uint8_t)type, (uint16_t) class};
}

static void generate_loop(generator *g)
{
    uint32_t turns = 1 + choose(g->from, 8);
    if (g->parts >= MOST_PARTS || g->turns * turns > 64) {
        return;
    }
    uint32_t b = pick(g, is_int, 0);
    if (b == NONE) {
        return;
    }
    lock locks[REGISTERS];
    memcpy(locks, g->locks, sizeof locks);
    for (uint32_t r = 0; r < REGISTERS; r++) {
        if (g->now[r].holds == OWNED && g->locks[r] == FREE) {
            drop(g, r);
        }
        if (g->now[r].holds == REFERENCE || g->now[r].holds == READ_ONLY) {
            if (g->locks[r] != FREE) {
                memcpy(g->locks, locks, sizeof locks);
                return;
            }
            emit(g, FORGET, 0, r, 0, 0);
            set(g, r, UNDEFINED, 0, 0);
        }
        if (g->now[r].holds == INT) {
            g->locks[r] = ONLY_INT;
        } else if (g->now[r].holds == OWNED) {
            g->locks[r] = KEPT;
        }
    }
    state before[REGISTERS];
    memcpy(before, g->now, sizeof before);
    emit(g, WHILE, 0, b, 0, (int32_t)turns);
    g->parts++;
    g->turns *= turns;
    generate_part(g, 1 + choose(g->from, 8));
    for (uint32_t r = 0; r < REGISTERS; r++) {
        if (g->now[r].holds == OWNED && before[r].holds != OWNED) {
            drop(g, r);
        }
    }
    emit(g, END, 0, 0, 0, 0);
    g->parts--;
    g->turns /= turns;
    memcpy(g->now, before, sizeof before);
    memcpy(g->locks, locks, sizeof locks);
}

/* A name constant, and the operand b for it: none, or a register with the number of a family's name. */
static uint32_t pick_name(generator *g, uint32_t *b)
{
    *b = NONE;
    if (once_in(g->from, 4)) {
        *b = pick(g, is_int, 0);
        if (*b != NONE) {
            return TEXTS_COUNT + NAMES_COUNT + choose(g->from, FAMILIES_COUNT);
        }
    }
    return TEXTS_COUNT + choose(g->from, NAMES_COUNT);
}

/* Instructions on names. Types mostly go with names, so that objects are found. */
static void generate_named(generator *g, int operation)
{
    uint32_t b, name = pick_name(g, &b), a = pick(g, takes_any, 0);
    uint32_t type = once_in(g->from, 4) ? choose(g->from, g->type_count) : name * 7 % g->type_count;
    int32_t number = (int32_t)(256 * type + name);
    if (operation == KILL) {
        a = pick(g, takes_int, 0);
    }
    if (a == NONE) {
        return;
    }
    if (operation == KILL) {
        emit(g, KILL, a, b, 0, number);
        end_class(g, name, NONE);
        g->now[a] = as_int();
    } else if (operation == COUNT) {
        open_with(g, COUNT, a, b, 0, number, as_int());
    } else if (operation == FINDOR) {
        open_with(g, FINDOR, a, b, 0, number, reference(type, name));
    } else {
        uint32_t c = once_in(g->from, 3) ? pick(g, is_int, 0) : NONE;
        open_with(g, operation, a, b, c, number, reference(type, name));
    }
}

static void generate_unique(generator *g, int operation)
{
    uint32_t type = choose(g->from, g->type_count), a = pick(g, operation == UKILL ? takes_int : takes_any, 0);
    if (a == NONE) {
        return;
    }
    if (operation == UKILL) {
        emit(g, UKILL, a, 0, 0, (int32_t)type);
        end_class(g, UNIQUE_CLASS + type, NONE);
        g->now[a] = as_int();
    } else if (operation == NEW) {
        open_with(g, NEW, a, 0, 0, (int32_t)type, (state){OWNED, (uint8_t)type, 0});
    } else {
        open_with(g, operation, a, 0, 0, (int32_t)type, reference(type, UNIQUE_CLASS + type));
    }
}

/* Instructions on a container. Each ends the other references of its class. */
static void generate_container(generator *g, int operation)
{
    static const uint8_t kinds[] = {LEZGAURI_KIND_STR, LEZGAURI_KIND_VEC, LEZGAURI_KIND_LIST, LEZGAURI_KIND_FLAT_MAP,
                                    LEZGAURI_KIND_MAP};
    uint32_t first = 1, last = 2;
    bool is_changing = operation != AT && operation != GETK && operation != FIRSTK && operation != NEXTK &&
                       operation != LEN && operation != SETS && operation != ADDS && operation != ADDB &&
                       operation != SHRINK;
    switch (operation) {
    case LEN: first = 0, last = 4; break;
    case AT:
    case POP: first = 0; break;
    case PUSHF:
    case POPF: first = 2; break;
    case SETS:
    case ADDS:
    case ADDB: first = last = 0; break;
    case SHRINK: first = 0, last = choose(g->from, 2) ? 1 : 0; break;
    case GETK:
    case PUTK:
    case DELK:
    case FIRSTK:
    case NEXTK: first = 3, last = 4; break;
    default: break;
    }
    int kind = kinds[first + choose(g->from, last - first + 1)];
    bool reads = operation == LEN || operation == AT || operation == GETK || operation == FIRSTK || operation == NEXTK;
    uint32_t b = pick(g, reads ? is_readable : is_reference, kind), c = pick(g, is_int, 0);
    if (b == NONE) {
        return;
    }
    bool gives_place = (operation == AT && kind != LEZGAURI_KIND_STR) || operation == PUSH || operation == PUSHF ||
                       operation == GETK || operation == PUTK;
    uint32_t a = pick(g, gives_place ? takes_any : takes_int, 0);
    bool needs_c = operation == AT || operation == ADDB || operation == GETK || operation == PUTK ||
                   operation == DELK || operation == NEXTK;
    if (a == NONE || (needs_c && c == NONE) || (a == b && g->locks[b] != FREE)) {
        return;
    }
    state item = g->now[b];
    item.type = g->types[item.type].components[0];
    if (is_changing) {
        end_class(g, item.class, b);
    }
    if (operation == LEN) {
        emit(g, LEN, a, b, 0, 0);
        g->now[a] = as_int();
    } else if (operation == SHRINK) {
        emit(g, SHRINK, 0, b, 0, 0);
    } else if (operation == DELK) {
        emit(g, DELK, a, b, c, 0);
        g->now[a] = as_int();
    } else {
        int32_t number = operation == SETS || operation == ADDS ? (int32_t)choose(g->from, TEXTS_COUNT) : 0;
        open_with(g, operation, a, b, needs_c ? c : 0, number, gives_place ? item : as_int());
    }
}

/* Instructions on owned and shared objects. */
static void generate_owner(generator *g, int operation)
{
    uint32_t c = pick(g, is_owned, 0), b, a;
    switch (operation) {
    case DROP:
        if (c != NONE) {
            drop(g, c);
        }
        break;
    case REF:
        a = pick(g, takes_any, 0);
        if (c != NONE && a != NONE) {
            emit(g, REF, a, c, 0, 0);
            g->now[a] = reference(g->now[c].type, OWNED_CLASS + c);
        }
        break;
    case PUT:
    case FREEZE:
        b = pick(g, is_reference, operation == PUT ? LEZGAURI_KIND_OWN : LEZGAURI_KIND_SHARED);
        a = pick(g, takes_int, 0);
        if (c == NONE || b == NONE || a == NONE || g->now[b].class == OWNED_CLASS + c ||
            g->types[g->now[b].type].components[0] != g->now[c].type) {
            return;
        }
        end_class(g, g->now[b].class, b);
        end_class(g, OWNED_CLASS + c, NONE);
        state owned = g->now[c];
        set(g, c, UNDEFINED, 0, 0);
        if (operation == PUT) {
            emit(g, PUT, 0, b, c, 0);
        } else if (g->locks[a] == FREE && a != c) {
            state failed[REGISTERS];
            emit(g, FREEZE, a, b, c, 0);
            memcpy(failed, g->now, sizeof failed);
            failed[a] = as_int();
            failed[c] = owned;
            g->now[a] = as_int();
            finish_opener(g, failed);
        } else {
            g->now[c] = owned;
        }
        break;
    case TAKE:
        b = pick(g, is_reference, LEZGAURI_KIND_OWN);
        a = pick(g, takes_any, 0);
        if (b != NONE && a != NONE && a != b) {
            uint32_t type = g->types[g->now[b].type].components[0];
            end_class(g, g->now[b].class, b);
            open_with(g, TAKE, a, b, 0, 0, (state){OWNED, (uint8_t)type, 0});
        }
        break;
    case CONTENT:
        b = pick(g, is_readable, choose(g->from, 2) ? LEZGAURI_KIND_OWN : LEZGAURI_KIND_SHARED);
        a = pick(g, takes_any, 0);
        if (b != NONE && a != NONE) {
            state inner = g->now[b];
            if (g->types[inner.type].kind == LEZGAURI_KIND_SHARED) {
                inner.holds = READ_ONLY;
            }
            inner.type = g->types[inner.type].components[0];
            open_with(g, CONTENT, a, b, 0, 0, inner);
        }
        break;
    case SHARE:
        b = pick(g, is_reference, LEZGAURI_KIND_SHARED);
        c = pick(g, is_readable, LEZGAURI_KIND_SHARED);
        if (b != NONE && c != NONE && g->now[b].type == g->now[c].type) {
            emit(g, SHARE, 0, b, c, 0);
            end_class(g, g->now[b].class, b);
        }
        break;
    }
}

/* Instructions on numbers, places and the output. */
static void generate_plain(generator *g, int operation)
{
    uint32_t a = pick(g, takes_int, 0), b = pick(g, is_int, 0), c = pick(g, is_int, 0);
    static const int32_t numbers[] = {0, 1, 2, 3, 7, 100, 255, 256, 65535, 65536, -1, INT32_MIN, INT32_MAX};
    switch (operation) {
    case CONST:
        if (a != NONE) {
            emit(g, CONST, a, 0, 0, once_in(g->from, 3) ? numbers[choose(g->from, 13)] : (int32_t)choose(g->from, 10));
            g->now[a] = as_int();
        }
        break;
    case ADD:
    case SUB:
    case MUL:
    case LT:
    case EQ:
        if (a != NONE && b != NONE && c != NONE) {
            emit(g, operation, a, b, c, 0);
            g->now[a] = as_int();
        }
        break;
    case OUTI:
        if (b != NONE) {
            emit(g, OUTI, 0, b, 0, 0);
        }
        break;
    case OUTC: emit(g, OUTC, 0, 0, 0, (int32_t)choose(g->from, TEXTS_COUNT)); break;
    case OUTS:
        b = pick(g, is_readable, LEZGAURI_KIND_STR);
        if (b != NONE) {
            emit(g, OUTS, 0, b, 0, 0);
        }
        break;
    case GETB:
        if (a != NONE) {
            open_with(g, GETB, a, 0, 0, 0, as_int());
        }
        break;
    case IF:
        if (b != NONE) {
            state failed[REGISTERS];
            emit(g, IF, 0, b, 0, 0);
            memcpy(failed, g->now, sizeof failed);
            finish_opener(g, failed);
        }
        break;
    case MOV:
        b = pick(g, is_readable, 0);
        a = pick(g, takes_any, 0);
        if (a != NONE && b != NONE) {
            emit(g, MOV, a, b, 0, 0);
            g->now[a] = g->now[b];
        }
        break;
    case CLEAR:
        b = pick(g, is_reference, 0);
        if (b != NONE) {
            emit(g, CLEAR, 0, b, 0, 0);
            end_class(g, g->now[b].class, b);
        }
        break;
    case FORGET:
        b = pick(g, is_readable, 0);
        if (b != NONE && g->locks[b] == FREE) {
            emit(g, FORGET, 0, b, 0, 0);
            set(g, b, UNDEFINED, 0, 0);
        }
        break;
    case LOAD:
        b = pick(g, is_readable, LEZGAURI_KIND_I64);
        if (a != NONE && b != NONE) {
            emit(g, LOAD, a, b, 0, 0);
            g->now[a] = as_int();
        }
        break;
    case STORE:
        b = pick(g, is_reference, LEZGAURI_KIND_I64);
        if (b != NONE && c != NONE) {
            emit(g, STORE, 0, b, c, 0);
        }
        break;
    case FIELD:
        b = pick(g, is_readable, LEZGAURI_KIND_STRUCT);
        a = pick(g, takes_any, 0);
        if (a != NONE && b != NONE) {
            const lezgauri_type *type = &g->types[g->now[b].type];
            uint32_t index = choose(g->from, type->count);
            state field = g->now[b];
            field.type = type->components[index];
            emit(g, FIELD, a, b, 0, (int32_t)index);
            g->now[a] = field;
        }
        break;
    }
}

static void generate_instruction(generator *g)
{
    static const uint8_t named[] = {MAKE, FIND, FINDOR, FINDOR, FINDOR, COUNT, KILL};
    static const uint8_t unique[] = {UMAKE, UFIND, UFINDOR, UFINDOR, UKILL, NEW, NEW, NEW};
    static const uint8_t container[] = {LEN,  AT,     PUSH, PUSH, PUSHF, POP,  POPF,   SETS, ADDS,
                                        ADDB, SHRINK, GETK, PUTK, PUTK,  DELK, FIRSTK, NEXTK};
    static const uint8_t owner[] = {DROP,   REF,  PUT,     PUT,     PUT,   FREEZE, FREEZE,
                                    FREEZE, TAKE, CONTENT, CONTENT, SHARE, SHARE};
    static const uint8_t plain[] = {CONST, CONST, CONST, ADD,    SUB,  MUL,  LT,    EQ,    OUTI,  OUTI, OUTC,
                                    OUTS,  MOV,   CLEAR, FORGET, LOAD, LOAD, STORE, STORE, FIELD, FIELD};
    bool may_open = g->parts < MOST_PARTS;
    switch (choose(g->from, may_open ? 20 : 8)) {
    case 0:
    case 1:
    case 2:
    case 3:
    case 4:
    case 5:
    case 6:
    case 7: generate_plain(g, plain[choose(g->from, sizeof plain)]); break;
    case 8: generate_plain(g, IF); break;
    case 9: generate_plain(g, GETB); break;
    case 10: generate_loop(g); break;
    case 11:
    case 12: generate_named(g, named[choose(g->from, sizeof named)]); break;
    case 13: generate_unique(g, unique[choose(g->from, sizeof unique)]); break;
    case 14:
    case 15:
    case 16: generate_owner(g, owner[choose(g->from, sizeof owner)]); break;
    default: generate_container(g, container[choose(g->from, sizeof container)]); break;
    }
}

static void generate_part(generator *g, uint32_t instructions)
{
    for (uint32_t i = 0; i < instructions && !is_full(g); i++) {
        generate_instruction(g);
    }
}

static uint8_t *put_number(uint8_t *at, uint32_t number)
{
    for (int i = 0; i < 4; i++) {
        *at++ = (uint8_t)(number >> (8 * i));
    }
    return at;
}

size_t generate_client(choices *from, const lezgauri_type *types, uint32_t count, uint8_t *client)
{
    static uint8_t code[8 * (MOST_CODE + 4096)];
    bool is_version_2 = false;
    generator g = {from, types, count, code, 0, {{0, 0, 0}}, {FREE}, 0, 1};
    for (uint32_t i = 0; i < count; i++) {
        is_version_2 |= types[i].kind == LEZGAURI_KIND_SHARED;
    }
    generate_part(&g, 5 + choose(from, 60));
    for (uint32_t r = 0; r < REGISTERS; r++) {
        if (g.now[r].holds == OWNED && once_in(from, 2)) {
            drop(&g, r);
        }
    }
    memcpy(client, "SEGC", 4);
    uint8_t *at = put_number(client + 4, is_version_2 ? 2 : 1);
    at = put_number(at, count);
    at = put_number(at, TEXTS_COUNT + NAMES_COUNT + FAMILIES_COUNT);
    at = put_number(at, g.len);
    memcpy(at, types, count * sizeof *types);
    at += count * sizeof *types;
    for (uint32_t i = 0; i < TEXTS_COUNT; i++) {
        uint32_t len = choose(from, i == 0 ? 200 : 20);
        *at++ = 1, *at++ = (uint8_t)len;
        for (uint32_t k = 0; k < len; k++) {
            *at++ = (uint8_t)(once_in(from, 10) ? choose(from, 256) : 'a' + k % 26);
        }
    }
    for (uint32_t i = 0; i < NAMES_COUNT; i++) {
        uint32_t len = i == 0 ? 63 : 1;
        *at++ = 2, *at++ = (uint8_t)len;
        memset(at, 'a' + (int)i, len);
        at += len;
    }
    for (uint32_t i = 0; i < FAMILIES_COUNT; i++) {
        *at++ = 3, *at++ = 1, *at++ = (uint8_t)('x' + i);
    }
    memcpy(at, code, 8 * (size_t)g.len);
    return (size_t)(at - client) + 8 * (size_t)g.len;
}

/* ---- images */

size_t generate_image(choices *from, uint8_t *image, size_t room)
{
    static uint8_t client[MOST_CLIENT];
    static uint8_t output[4096];
    lezgauri_type types[LEZGAURI_MOST_TYPES];
    lezgauri_handle *segment;
    uint32_t count = generate_types(from, types);
    size_t size = 736 + 16 * choose(from, 16u << choose(from, 9));
    size = size > room ? room / 16 * 16 : size;
    NEED(lezgauri_create(size, choose(from, 2), choose(from, 2), &segment) == LEZGAURI_OK, "an image isn't made");
    for (uint32_t i = choose(from, 6); i > 0; i--) {
        size_t len = generate_client(from, types, count, client);
        lezgauri_run_on(segment, client, len, "input", 5, output, sizeof output, NULL, NULL, NULL);
    }
    if (once_in(from, 8)) {
        lezgauri_shrink(segment, NULL);
    }
    NEED(lezgauri_save(segment, image, room, &size) == LEZGAURI_OK, "an image isn't saved");
    lezgauri_close(segment);
    return size;
}
