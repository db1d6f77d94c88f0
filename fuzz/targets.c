/* The targets: each takes any bytes, makes calls of the library, and compares results that must agree. */
#include "fuzz.h"

#include <stdlib.h>
#include <string.h>

enum { MOST_OUTPUT = 1 << 16, MOST_BOUND = 20000, MOST_DEPTH = 40, MOST_VALUES = 20000, CONFIGS = 4, BATCH = 3 };

/* Clients run on one of so many sound images: they take much longer than the checks. */
enum { FITTING = 8 };

static const uint64_t START = 0xcbf29ce484222325u;

static uint32_t allocator_of(int config)
{
    return config & 1 ? LEZGAURI_BEST_FIT : LEZGAURI_SEQ_FIT;
}

static uint32_t index_of(int config)
{
    return config & 2 ? LEZGAURI_TREE_INDEX : LEZGAURI_FLAT_INDEX;
}

/* ---- the objects of a segment */

typedef struct walk {
    const lezgauri_handle *segment;
    lezgauri_type types[LEZGAURI_MOST_TYPES];
    size_t type_count;
    uint64_t hash;
    uint32_t values;
} walk;

static void add(walk *of, const void *bytes, size_t len)
{
    of->hash = hash_bytes(of->hash, bytes, len);
}

static void need_ok(const char *call, uint32_t status)
{
    NEED(status == LEZGAURI_OK, "%s returns %u on a sound image", call, status);
}

static void walk_value(walk *of, lezgauri_place place, uint32_t depth);

static void walk_items(walk *of, lezgauri_place place, bool is_list, uint32_t len, uint32_t depth)
{
    lezgauri_place item = {0, 0}, next;
    for (uint32_t i = 0; i < len && of->values < MOST_VALUES; i++) {
        if (is_list && i > 0) {
            need_ok("next_item", lezgauri_next_item(of->segment, place, item, &next));
            item = next;
        } else {
            need_ok("item", lezgauri_item(of->segment, place, i, &item));
        }
        walk_value(of, item, depth + 1);
        if (is_list && i == len - 1) {
            NEED(lezgauri_next_item(of->segment, place, item, &next) == LEZGAURI_NO_VALUE,
                 "a list doesn't end with its length");
        }
    }
}

static void walk_keys(walk *of, lezgauri_place place, uint32_t len, uint32_t depth)
{
    const lezgauri_type *type = &of->types[place.type];
    bool has_pairs = type->kind == LEZGAURI_KIND_FLAT_MAP && of->types[type->components[0]].kind == LEZGAURI_KIND_I64;
    int64_t key = 0, before;
    lezgauri_entry entries[BATCH];
    lezgauri_bytes pairs = {NULL, 0};
    size_t count = 0;
    uint32_t status = lezgauri_pairs(of->segment, place, &pairs);
    NEED(status == (has_pairs ? LEZGAURI_OK : LEZGAURI_OTHER_TYPE), "pairs returns %u", status);
    NEED(!has_pairs || pairs.len == 16 * (size_t)len, "pairs have another length");
    for (uint32_t i = 0; i < len && of->values < MOST_VALUES; i++) {
        lezgauri_place value, found;
        int64_t last = key, same;
        need_ok("next_key", lezgauri_next_key(of->segment, place, i == 0 ? NULL : &last, &key));
        if (i > 0) {
            need_ok("previous_key", lezgauri_previous_key(of->segment, place, &key, &before));
            NEED(before == last && key > last, "keys don't ascend");
        }
        add(of, &key, sizeof key);
        need_ok("get", lezgauri_get(of->segment, place, key, &value));
        need_ok("next_entry", lezgauri_next_entry(of->segment, place, i == 0 ? NULL : &last, &same, &found));
        NEED(same == key && found.at == value.at && found.type == value.type, "an entry isn't a key and its value");
        if (i % BATCH == 0) {
            need_ok("next_entries", lezgauri_next_entries(of->segment, place, i == 0 ? NULL : &last, entries, BATCH, &count));
            NEED(count == (len - i < BATCH ? len - i : BATCH), "a batch has another number of entries");
        }
        const lezgauri_entry *each = &entries[i % BATCH];
        NEED(each->key == key && each->value.at == value.at && each->value.type == value.type, "a batch has another entry");
        if (has_pairs) {
            int64_t pair[2], number;
            memcpy(pair, pairs.bytes + 16 * (size_t)i, sizeof pair);
            need_ok("load", lezgauri_load(of->segment, value, &number));
            NEED(pair[0] == key && pair[1] == number, "a pair isn't a key and its number");
        }
        walk_value(of, value, depth + 1);
        if (i == len - 1) {
            NEED(lezgauri_next_key(of->segment, place, &key, &last) == LEZGAURI_NO_VALUE,
                 "a map doesn't end with its length");
        }
    }
}

static void walk_value(walk *of, lezgauri_place place, uint32_t depth)
{
    const lezgauri_type *type = &of->types[place.type];
    lezgauri_bytes bytes;
    lezgauri_place inner;
    int64_t number;
    uint32_t len = 0;
    add(of, &place.type, sizeof place.type);
    if (++of->values > MOST_VALUES || depth > MOST_DEPTH) {
        return;
    }
    if (type->kind != LEZGAURI_KIND_I64 && type->kind != LEZGAURI_KIND_STRUCT) {
        uint32_t status = lezgauri_len(of->segment, place, &len);
        NEED(status == (type->kind == LEZGAURI_KIND_SHARED ? status : LEZGAURI_OK), "len returns %u", status);
        add(of, &len, sizeof len);
    }
    switch (type->kind) {
    case LEZGAURI_KIND_I64:
        need_ok("load", lezgauri_load(of->segment, place, &number));
        add(of, &number, sizeof number);
        break;
    case LEZGAURI_KIND_STR:
        need_ok("text", lezgauri_text(of->segment, place, &bytes));
        NEED(bytes.len == len, "a text has another length");
        add(of, bytes.bytes, bytes.len);
        break;
    case LEZGAURI_KIND_VEC:
    case LEZGAURI_KIND_LIST: walk_items(of, place, type->kind == LEZGAURI_KIND_LIST, len, depth); break;
    case LEZGAURI_KIND_FLAT_MAP:
    case LEZGAURI_KIND_MAP: walk_keys(of, place, len, depth); break;
    case LEZGAURI_KIND_STRUCT:
        for (uint32_t i = 0; i < type->count; i++) {
            need_ok("field", lezgauri_field(of->segment, place, i, &inner));
            walk_value(of, inner, depth + 1);
        }
        break;
    default: {
        uint32_t status = lezgauri_content(of->segment, place, &inner);
        NEED(status == LEZGAURI_OK || status == LEZGAURI_NO_VALUE, "content returns %u", status);
        add(of, &status, sizeof status);
        if (status == LEZGAURI_OK) {
            walk_value(of, inner, depth + 1);
        }
    }
    }
}

uint64_t hash_objects(const lezgauri_handle *segment)
{
    static walk of;
    lezgauri_named named;
    lezgauri_place place;
    const char *after = NULL;
    of.segment = segment, of.hash = START, of.values = 0;
    need_ok("types", lezgauri_types(segment, of.types, LEZGAURI_MOST_TYPES, &of.type_count));
    add(&of, of.types, of.type_count * sizeof *of.types);
    while (lezgauri_next_name(segment, after, &named) == LEZGAURI_OK) {
        add(&of, &named, sizeof named);
        for (uint32_t i = 0; i < named.count && of.values < MOST_VALUES; i++) {
            need_ok("find_item", lezgauri_find_item(segment, named.name, named.type, i, &place));
            walk_value(&of, place, 0);
        }
        after = named.name;
    }
    for (uint32_t type = 0; type < of.type_count; type++) {
        if (lezgauri_find_unique(segment, type, &place) == LEZGAURI_OK) {
            walk_value(&of, place, 0);
        }
    }
    return of.hash;
}

/* ---- runs */

/* What a run did. */
typedef struct outcome {
    uint32_t status;
    size_t written;
    lezgauri_report report;
    uint64_t output, image, objects;
} outcome;

static uint8_t printed[MOST_OUTPUT];

static void need_same(const char *what, const outcome *one, const outcome *two)
{
    NEED(one->status == two->status, "%s: status %u and %u", what, one->status, two->status);
    NEED(one->written == two->written && one->output == two->output, "%s: another output", what);
    NEED(one->report.steps == two->report.steps && one->report.read == two->report.read &&
             one->report.ended == two->report.ended,
         "%s: another report", what);
    NEED(one->objects == two->objects, "%s: other objects", what);
}

static uint64_t image_hash(const lezgauri_handle *segment)
{
    lezgauri_bytes image;
    need_ok("image", lezgauri_image(segment, &image));
    return hash_bytes(START, image.bytes, image.len);
}

static void need_sound(const char *after, const lezgauri_handle *segment)
{
    lezgauri_bytes image;
    lezgauri_fault fault;
    need_ok("image", lezgauri_image(segment, &image));
    uint32_t status = lezgauri_check(image.bytes, image.len, &fault);
    NEED(status == LEZGAURI_OK, "after %s the image has fault %u at %u", after, status, fault.position);
}

static void finish(outcome *of, const lezgauri_handle *segment)
{
    of->output = hash_bytes(START, printed, of->written);
    of->image = image_hash(segment);
    of->objects = hash_objects(segment);
}

static const uint8_t input_of_clients[] = "The input, 0123456789.";

/* Runs a client on an open segment, by one of the calls for that. */
static outcome run_by(int call, lezgauri_handle *segment, const uint8_t *client, size_t len)
{
    outcome of = {0};
    lezgauri_client *prepared = NULL;
    size_t input_len = sizeof input_of_clients - 1;
    if (call == 0) {
        of.status = lezgauri_run_on(segment, client, len, input_of_clients, input_len, printed, sizeof printed,
                                    &of.written, &of.report, NULL);
    } else if (call == 1) {
        of.status = lezgauri_run_whole(segment, client, len, input_of_clients, input_len, printed, sizeof printed,
                                       &of.written, &of.report, NULL);
    } else {
        need_ok("prepare", lezgauri_prepare(segment, client, len, &prepared, NULL));
        of.status = lezgauri_run_client(segment, prepared, input_of_clients, input_len, printed, sizeof printed,
                                        &of.written, &of.report, NULL);
        lezgauri_client_close(prepared);
    }
    counters[RUNS]++;
    if (of.status == LEZGAURI_OK || (of.status == LEZGAURI_OUTPUT_FULL && call != 1)) {
        need_sound("a run", segment);
        finish(&of, segment);
    }
    return of;
}

/* Runs a client twice on images of a size: the outcome on each allocator and index. */
static void run_on_configs(size_t size, const uint8_t *client, size_t len, outcome *of)
{
    for (int config = 0; config < CONFIGS; config++) {
        lezgauri_handle *segment;
        outcome first;
        need_ok("create", lezgauri_create(size, allocator_of(config), index_of(config), &segment));
        first = run_by(0, segment, client, len);
        of[config] = first;
        if (first.status == LEZGAURI_OK) {
            outcome second = run_by(2, segment, client, len);
            of[config].objects = hash_bytes(first.objects, &second.objects, sizeof second.objects);
            of[config].output = hash_bytes(first.output, &second.output, sizeof second.output);
        }
        lezgauri_close(segment);
    }
}

static bool is_same(const outcome *one, const outcome *two)
{
    return one->status == two->status && one->written == two->written && one->output == two->output &&
           one->report.steps == two->report.steps && one->objects == two->objects;
}

/* Two allocators and two indexes agree, unless memory is short: then larger segments change the outcome. */
void compare_configs(const uint8_t *client, size_t len)
{
    static const size_t sizes[] = {1 << 16, 1 << 22, 1 << 25};
    outcome of[3][CONFIGS];
    for (int i = 0; i < 3; i++) {
        bool agree = true;
        run_on_configs(sizes[i], client, len, of[i]);
        for (int config = 1; config < CONFIGS; config++) {
            agree &= is_same(&of[i][0], &of[i][config]);
        }
        if (agree) {
            return;
        }
    }
    for (int config = 0; config < CONFIGS; config++) {
        if (!is_same(&of[1][config], &of[2][config])) {
            return;
        }
    }
    wrong("allocators or indexes disagree");
}

/* Runs a client twice in lent memory, which moves to another address between the runs or not. */
static outcome run_twice(const uint8_t *image, size_t image_len, const uint8_t *client, size_t len, bool moves)
{
    lezgauri_handle *segment;
    size_t room = moves ? image_len + 48 : image_len;
    uint8_t *memory = guarded(image_len);
    memcpy(memory, image, image_len);
    need_ok("open_in", lezgauri_open_in(memory, image_len, image_len, &segment, NULL));
    run_by(0, segment, client, len);
    if (moves) {
        uint8_t *moved = guarded(room);
        lezgauri_close(segment);
        memcpy(moved, memory, image_len);
        memset(memory, 0x5a, image_len);
        need_ok("open_in after a move", lezgauri_open_in(moved, image_len, room, &segment, NULL));
        free_guarded(memory, image_len);
        memory = moved;
    }
    outcome of = run_by(0, segment, client, len);
    lezgauri_close(segment);
    free_guarded(memory, room);
    return of;
}

/* A move between two runs changes nothing. */
static void compare_moves(const uint8_t *image, size_t image_len, const uint8_t *client, size_t len)
{
    outcome one = run_twice(image, image_len, client, len, false), two = run_twice(image, image_len, client, len, true);
    need_same("a move", &one, &two);
    NEED(one.image == two.image, "a move changes the image that a run leaves");
}

/* Each call that runs a client does the same on the same image, at each address. */
void compare_calls(const uint8_t *image, size_t image_len, const uint8_t *client, size_t len, uint64_t bound)
{
    outcome first = {0};
    for (int call = 0; call < 3; call++) {
        lezgauri_handle *segment;
        uint8_t *memory = guarded(image_len + 16 * (size_t)call);
        memcpy(memory, image, image_len);
        need_ok("open_in", lezgauri_open_in(memory, image_len, image_len, &segment, NULL));
        outcome of = run_by(call, segment, client, len);
        NEED(of.report.steps <= bound, "more steps than the bound");
        if (call == 0) {
            first = of;
        } else if (first.status == LEZGAURI_OK) {
            need_same("calls that run a client", &first, &of);
            NEED(first.image == of.image, "calls that run a client leave different images");
        }
        lezgauri_close(segment);
        free_guarded(memory, image_len + 16 * (size_t)call);
    }
    lezgauri_bytes clients[] = {{client, len}};
    lezgauri_report report;
    size_t written = 0;
    uint8_t *saved = malloc(image_len);
    uint32_t status = lezgauri_run(image, image_len, clients, 1, input_of_clients, sizeof input_of_clients - 1, printed,
                                   sizeof printed, &written, saved, &report, NULL);
    NEED(status == first.status, "lezgauri_run returns %u, and not %u", status, first.status);
    NEED(written == first.written && hash_bytes(START, printed, written) == first.output,
         "lezgauri_run has another output");
    NEED(hash_bytes(START, saved, image_len) == first.image, "lezgauri_run saves another image");
    free(saved);
    if (first.status == LEZGAURI_OK) {
        compare_moves(image, image_len, client, len);
    }
}

/* ---- images */

/* Runs a client that fits the image. */
static void run_fitting_client(const uint8_t *image, size_t len, const lezgauri_handle *reader, uint64_t seed)
{
    static uint8_t client[MOST_CLIENT];
    lezgauri_type types[LEZGAURI_MOST_TYPES];
    lezgauri_fault fault;
    size_t count;
    uint64_t bound;
    choices from = choices_of_seed(seed);
    need_ok("types", lezgauri_types(reader, types, LEZGAURI_MOST_TYPES, &count));
    if (count < 2) {
        count = generate_types(&from, types);
    }
    size_t client_len = generate_client(&from, types, (uint32_t)count, client);
    uint32_t status = lezgauri_verify(image, len, client, client_len, &bound, &fault);
    NEED(status == LEZGAURI_OK || fault.client == 0, "a sound image is refused with %u", status);
    counters[status == LEZGAURI_OK ? ACCEPTED : REFUSED]++;
    if (status == LEZGAURI_OK && bound <= MOST_BOUND) {
        compare_calls(image, len, client, client_len, bound);
    }
}

static void run_image(const uint8_t *input, size_t len)
{
    lezgauri_handle *segment = NULL, *reader = NULL, *copy = NULL;
    lezgauri_fault one = {0}, two = {0}, three = {0}, four = {0};
    uint8_t *memory = guarded(len);
    memcpy(memory, input, len);
    uint32_t status = lezgauri_check(memory, len, &one);
    NEED(lezgauri_check(input, len, &two) == status && one.position == two.position,
         "check differs at another address");
    NEED(lezgauri_open_in(memory, len, len, &segment, &two) == status, "open_in and check differ");
    NEED(lezgauri_read(memory, len, &reader, &three) == status, "read and check differ");
    NEED(lezgauri_open(input, len, &copy, &four) == status, "open and check differ");
    NEED(two.position == one.position && three.position == one.position && four.position == one.position,
         "positions differ");
    if (status == LEZGAURI_OK) {
        counters[SOUND_IMAGES]++;
        uint64_t hash = hash_objects(reader);
        NEED(hash_objects(copy) == hash && hash_objects(segment) == hash, "handles see different objects");
        if (hash % FITTING == 0) {
            run_fitting_client(memory, len, reader, hash);
        }
        lezgauri_close(reader);
        lezgauri_close(segment);
        lezgauri_close(copy);
    } else {
        counters[FAULTY_IMAGES]++;
        uint8_t client[4096];
        lezgauri_bytes clients[] = {{client, 0}};
        uint8_t *saved = malloc(len + 1);
        clients[0].len = 0;
        NEED(lezgauri_run(memory, len, clients, 1, NULL, 0, NULL, 0, NULL, saved, NULL, &two) == status,
             "run and check differ");
        free(saved);
    }
    NEED(memcmp(memory, input, len) == 0, "opening and reading wrote to the image");
    free_guarded(memory, len);
}

static size_t image_input(choices *from, uint8_t *input)
{
    return generate_image(from, input, once_in(from, 8) ? 1 << 16 : 1 << 12);
}

/* ---- clients */

/* The text of a client means the same client. */
static void print_and_assemble(const uint8_t *client, size_t len)
{
    static uint8_t text[1 << 20], again[MOST_INPUT + 4096];
    size_t text_len, again_len;
    need_ok("print", lezgauri_print(client, len, text, sizeof text, &text_len, NULL));
    need_ok("assemble", lezgauri_assemble(text, text_len, again, sizeof again, &again_len, NULL));
    NEED(again_len == len && memcmp(client, again, len) == 0, "the text of a client is assembled to another client");
}

static void run_client(const uint8_t *input, size_t len)
{
    static uint8_t image[1 << 14];
    lezgauri_fault fault = {0}, other = {0};
    lezgauri_handle *segment;
    lezgauri_client *prepared;
    uint64_t bound = 0;
    uint8_t *client = guarded(len);
    memcpy(client, input, len);
    need_ok("create", lezgauri_create(sizeof image, LEZGAURI_BEST_FIT, LEZGAURI_TREE_INDEX, &segment));
    need_ok("save", lezgauri_save(segment, image, sizeof image, NULL));
    uint32_t status = lezgauri_verify(image, sizeof image, client, len, &bound, &fault);
    uint32_t prepare = lezgauri_prepare(segment, client, len, &prepared, &other);
    NEED(prepare == status && fault.position == other.position && fault.reason == other.reason,
         "prepare and verify differ");
    lezgauri_client_close(prepared);
    size_t needed;
    uint32_t print = lezgauri_print(client, len, NULL, 0, &needed, &other);
    if (status == LEZGAURI_BAD_CODE) {
        NEED(print == status && fault.position == other.position, "print and verify differ");
    } else {
        NEED(print == LEZGAURI_TOO_SMALL || needed == 0, "print returns %u for a client", print);
        print_and_assemble(client, len);
    }
    counters[status == LEZGAURI_OK ? ACCEPTED : REFUSED]++;
    if (status != LEZGAURI_OK) {
        uint64_t before = image_hash(segment);
        NEED(lezgauri_run_on(segment, client, len, NULL, 0, NULL, 0, NULL, NULL, &other) == status,
             "run_on and verify differ");
        NEED(fault.position == other.position && image_hash(segment) == before,
             "a refused client has changed the image");
    } else if (bound <= MOST_BOUND) {
        compare_calls(image, sizeof image, client, len, bound);
        compare_configs(client, len);
    }
    lezgauri_close(segment);
    free_guarded(client, len);
}

static size_t client_input(choices *from, uint8_t *input)
{
    lezgauri_type types[LEZGAURI_MOST_TYPES];
    uint32_t count = generate_types(from, types);
    return generate_client(from, types, count, input);
}

/* ---- texts */

static void run_text(const uint8_t *input, size_t len)
{
    static uint8_t client[MOST_INPUT + 4096];
    lezgauri_fault fault = {0}, other = {0};
    size_t client_len = 0, needed = 0;
    uint8_t *text = guarded(len);
    memcpy(text, input, len);
    uint32_t status = lezgauri_assemble(text, len, client, sizeof client, &client_len, &fault);
    uint32_t again = lezgauri_assemble(text, len, NULL, 0, &needed, &other);
    if (status == LEZGAURI_OK) {
        counters[TEXTS]++;
        NEED(again == LEZGAURI_TOO_SMALL && needed == client_len, "assemble needs another length");
        print_and_assemble(client, client_len);
        if (client_len <= 1 << 14) {
            run_client(client, client_len);
        }
    } else {
        counters[BAD_TEXTS]++;
        NEED(status == LEZGAURI_BAD_LINE, "assemble returns %u", status);
        NEED(again == status && fault.position == other.position, "assemble finds another fault");
    }
    free_guarded(text, len);
}

static size_t text_input(choices *from, uint8_t *input)
{
    static uint8_t client[MOST_CLIENT];
    size_t len = client_input(from, client), text_len = 0;
    need_ok("print", lezgauri_print(client, len, input, MOST_INPUT, &text_len, NULL));
    return text_len;
}

/* ---- calls and memory */

void run_calls(const uint8_t *input, size_t len);
size_t calls_input(choices *from, uint8_t *input);
void run_memory(const uint8_t *input, size_t len);
size_t memory_input(choices *from, uint8_t *input);

const target targets[] = {
    {"image", run_image, image_input, mutate_image, 64, NULL},
    {"client", run_client, client_input, mutate_client, 32, NULL},
    {"text", run_text, text_input, mutate_text, 32, NULL},
    {"calls", run_calls, calls_input, mutate_bytes, 2, NULL},
    {"memory", run_memory, memory_input, mutate_client, 2, NULL},
    {NULL, NULL, NULL, NULL, 0, NULL},
};

const target *find_target(const char *name)
{
    for (const target *it = targets; it->name != NULL && name != NULL; it++) {
        if (strcmp(it->name, name) == 0) {
            return it;
        }
    }
#ifdef SEGTOOL
    for (const target *it = program_targets; it->name != NULL && name != NULL; it++) {
        if (strcmp(it->name, name) == 0) {
            return it;
        }
    }
#endif
    return NULL;
}
