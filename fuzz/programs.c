/* The targets `program`, `dump` and `load`: commands of segtool that the library for C doesn't have, made in this
 * process. */
#include "commands.h"
#include "fuzz.h"

#include <stdio.h>
#include <string.h>

enum { IMAGE_ROOM = 1 << 13 };

static const uint64_t START = 0xcbf29ce484222325u;

/* ---- what is told of a program */

static bool is_control(const uint8_t *text, size_t left)
{
    return (text[0] < 32 && text[0] != '\n' && text[0] != '\t') || text[0] == 127 ||
           (text[0] == 0xc2 && left > 1 && text[1] >= 0x80 && text[1] <= 0x9f);
}

/* The line of a program with a number, from 1, or null. */
static const uint8_t *line_of(const uint8_t *text, size_t len, uint64_t number, size_t *line_len)
{
    const uint8_t *at = text, *end = text + len;
    for (; number > 1; number--) {
        at = memchr(at, '\n', (size_t)(end - at));
        if (at == NULL) {
            return NULL;
        }
        at++;
    }
    const uint8_t *last = memchr(at, '\n', (size_t)(end - at));
    *line_len = (size_t)((last == NULL ? end : last) - at);
    return number == 0 ? NULL : at;
}

/* Each error is `program.lez:LINE:COLUMN: error: TEXT`, a place in the text; there are errors if the status is 1. */
static void judge_reports(const told *of, const uint8_t *text, size_t len)
{
    static const char name[] = "program.lez:";
    uint32_t errors = 0, reports = 0;
    NEED(of->status == 0 || of->status == 1, "compile ends with status %d", of->status);
    NEED(of->out_len == 0, "compile prints on the standard output");
    NEED(of->error_len == 0 || of->error[of->error_len - 1] == '\n', "the last line of the errors doesn't end");
    for (size_t at = 0; at < of->error_len;) {
        const uint8_t *line = of->error + at;
        size_t line_len = (size_t)((const uint8_t *)memchr(line, '\n', of->error_len - at) - line);
        for (size_t i = 0; i < line_len; i++) {
            NEED(!is_control(line + i, line_len - i), "compile prints the control character %u", line[i]);
        }
        at += line_len + 1;
        if (line_len < sizeof name || memcmp(line, name, sizeof name - 1) != 0) {
            NEED(reports > 0, "compile begins with another line than that of an error");
            continue;
        }
        char copy[64];
        unsigned long long row = 0, column = 0;
        char kind[8] = "";
        size_t copied = line_len < sizeof copy ? line_len : sizeof copy - 1, source_len = 0;
        memcpy(copy, line, copied);
        copy[copied] = 0;
        if (sscanf(copy + sizeof name - 1, "%20llu:%20llu: %7[a-z]:", &row, &column, kind) != 3) {
            continue; /* a line of the program that begins like this */
        }
        reports++;
        errors += strcmp(kind, "error") == 0;
        NEED(strcmp(kind, "error") == 0 || strcmp(kind, "warning") == 0, "an error of another kind: %s", kind);
        NEED(line_of(text, len, row, &source_len) != NULL, "an error in line %llu, which isn't there", row);
        NEED(column >= 1 && column <= source_len + 1, "an error in column %llu of %zu", column, source_len);
    }
    NEED((errors > 0) == (of->status == 1), "status %d with %u errors", of->status, errors);
}

/* ---- targets */

static uint8_t image[MOST_INPUT], saved[MOST_INPUT], client[MOST_INPUT], again[MOST_INPUT];

/* An image without types, or one that is generated. Returns its length. */
static size_t make_image(uint64_t hash, bool has_types)
{
    size_t len = IMAGE_ROOM;
    if (has_types) {
        choices from = choices_of_seed(hash);
        return generate_image(&from, image, IMAGE_ROOM);
    }
    lezgauri_handle *segment;
    NEED(lezgauri_create(len, hash & 1, hash >> 1 & 1, &segment) == LEZGAURI_OK, "an image isn't made");
    NEED(lezgauri_save(segment, image, sizeof image, &len) == LEZGAURI_OK, "an image isn't saved");
    lezgauri_close(segment);
    return len;
}

static const told *compile(bool has_types, const char *out)
{
    return has_types ? run_command("compile", "program.lez", out, "--on", "image", NULL)
                     : run_command("compile", "program.lez", out, NULL);
}

/* `segtool run` with the program does what the library does with its client. */
static void compare_with_run(size_t image_len, size_t client_len)
{
    static const uint8_t input[] = "The input, 0123456789.";
    static uint8_t printed[1 << 16];
    lezgauri_bytes clients[] = {{client, client_len}};
    size_t written = 0;
    uint32_t status = lezgauri_run(image, image_len, clients, 1, input, sizeof input - 1, printed, sizeof printed,
                                   &written, saved, NULL, NULL);
    if (status == LEZGAURI_OUTPUT_FULL) {
        return;
    }
    NEED(status == LEZGAURI_OK, "a compiled program runs with status %u", status);
    write_file("input", input, sizeof input - 1);
    remove_file("saved");
    const told *of = run_command("run", "image", "saved", "program.lez", "--input", "input", NULL);
    NEED(of->status == 0, "run of a program that compiles ends with status %d", of->status);
    NEED(of->out_len == written && memcmp(of->out, printed, written) == 0, "run and the library print differently");
    NEED(read_file("saved", again, sizeof again) == image_len && memcmp(again, saved, image_len) == 0,
         "run and the library save different images");
}

static void run_program(const uint8_t *input, size_t len)
{
    if (len > MOST_PROGRAM) {
        return;
    }
    uint64_t hash = hash_bytes(START, input, len), bound = 0;
    bool has_types = hash >> 40 & 1;
    size_t image_len = make_image(hash >> 8, has_types);
    write_file("program.lez", input, len);
    write_file("image", image, image_len);
    remove_file("client");
    remove_file("again");
    const told *of = compile(has_types, "client");
    int status = of->status;
    judge_reports(of, input, len);
    uint64_t first = hash_bytes(START, of->error, of->error_len);
    of = compile(has_types, "again");
    NEED(of->status == status && hash_bytes(START, of->error, of->error_len) == first, "compile differs the second time");
    size_t client_len = read_file("client", client, sizeof client);
    if (status != 0) {
        counters[BAD_PROGRAMS]++;
        NEED(client_len == SIZE_MAX, "a program with errors has a client");
        return;
    }
    counters[PROGRAMS]++;
    NEED(client_len != SIZE_MAX && read_file("again", again, sizeof again) == client_len &&
             memcmp(client, again, client_len) == 0,
         "a program is compiled to different clients");
    lezgauri_fault fault = {0};
    uint32_t verified = lezgauri_verify(image, image_len, client, client_len, &bound, &fault);
    NEED(verified == LEZGAURI_OK, "the verifier refuses a compiled program with %u, reason %u, instruction %u", verified,
         fault.reason, fault.position);
    if (bound <= MOST_PROGRAM_STEPS) {
        compare_calls(image, image_len, client, client_len, bound);
        compare_with_run(image_len, client_len);
        if (!has_types) {
            compare_configs(client, client_len);
        }
    }
}

static uint64_t objects_of(const uint8_t *bytes, size_t len)
{
    lezgauri_handle *segment;
    NEED(lezgauri_open(bytes, len, &segment, NULL) == LEZGAURI_OK, "a loaded image isn't sound");
    uint64_t hash = hash_objects(segment);
    lezgauri_close(segment);
    return hash;
}

/* A text that `dump` wrote can be loaded, and the image that `load` writes has the same text from its second line on. */
static void load_and_dump(const told *of)
{
    static uint8_t text[MOST_TOLD];
    size_t len = of->out_len;
    memcpy(text, of->out, len);
    write_file("text", text, len);
    remove_file("saved");
    of = run_command("load", "text", "saved", NULL);
    NEED(of->status == 0, "load refuses what dump wrote with status %d: %.*s", of->status, (int)of->error_len, of->error);
    of = run_command("dump", "saved", NULL);
    NEED(of->status == 0, "dump refuses what load made");
    const uint8_t *one = memchr(text, '\n', len), *two = memchr(of->out, '\n', of->out_len);
    NEED(one != NULL && two != NULL, "dump writes no line");
    size_t one_len = (size_t)(text + len - one), two_len = (size_t)(of->out + of->out_len - two);
    NEED(one_len == two_len && memcmp(one, two, one_len) == 0, "another dump after load");
}

static void run_dump(const uint8_t *input, size_t len)
{
    write_file("image", input, len);
    uint32_t status = lezgauri_check(input, len, NULL);
    const told *of = run_command("dump", "image", NULL);
    NEED((of->status == 0) == (status == LEZGAURI_OK) || of->out_len == MOST_TOLD, "dump ends with status %d, check with %u",
         of->status, status);
    counters[status == LEZGAURI_OK ? SOUND_IMAGES : FAULTY_IMAGES]++;
    if (of->status == 0) {
        load_and_dump(of);
        size_t saved_len = read_file("saved", saved, sizeof saved);
        NEED(saved_len == SIZE_MAX || objects_of(saved, saved_len) == objects_of(input, len),
             "a loaded image has other objects");
    }
}

static void run_load(const uint8_t *input, size_t len)
{
    write_file("text", input, len);
    remove_file("saved");
    const told *of = run_command("load", "text", "saved", NULL);
    NEED(of->status == 0 || (of->status == 1 && of->error_len > 6 && memcmp(of->error, "fault ", 6) == 0),
         "load ends with status %d", of->status);
    size_t saved_len = read_file("saved", saved, sizeof saved);
    if (of->status != 0) {
        counters[BAD_TEXTS]++;
        NEED(saved_len == SIZE_MAX, "load writes an image although it fails");
        return;
    }
    counters[TEXTS]++;
    if (saved_len != SIZE_MAX) {
        objects_of(saved, saved_len);
        of = run_command("dump", "saved", NULL);
        NEED(of->status == 0, "dump refuses what load made");
        load_and_dump(of);
    }
}

static size_t dump_input(choices *from, uint8_t *input)
{
    return generate_image(from, input, IMAGE_ROOM);
}

static size_t load_input(choices *from, uint8_t *input)
{
    size_t len = generate_image(from, image, IMAGE_ROOM);
    write_file("image", image, len);
    const told *of = run_command("dump", "image", NULL);
    len = of->out_len > MOST_INPUT ? MOST_INPUT : of->out_len;
    memcpy(input, of->out, len);
    return len;
}

static bool has_compile(void)
{
    return has_command("compile");
}

static bool has_load(void)
{
    return has_command("dump") && has_command("load");
}

const target program_targets[] = {
    {"program", run_program, generate_program, mutate_program, 4, has_compile},
    {"dump", run_dump, dump_input, mutate_image, 8, has_load},
    {"load", run_load, load_input, mutate_text, 8, has_load},
    {NULL, NULL, NULL, NULL, 0, NULL},
};
