/*
 * Counts in the number `x` of an image: opens the image, which checks it once, prepares a client, which verifies it once, and runs
 * it three times.
 *
 *   counter IMAGE CLIENT
 */
#include <lezgauri.h>

#include <stdio.h>
#include <stdlib.h>

/* The bytes of a file, which the caller frees; null, after a message, if it can't be read. */
static uint8_t *read_file(const char *name, size_t *len)
{
    FILE *file = fopen(name, "rb");
    if (file == NULL) {
        perror(name);
        return NULL;
    }
    uint8_t *bytes = NULL;
    long end = fseek(file, 0, SEEK_END) == 0 ? ftell(file) : -1;
    if (end >= 0 && fseek(file, 0, SEEK_SET) == 0) {
        *len = (size_t)end;
        bytes = malloc(*len + 1);
        if (bytes != NULL && fread(bytes, 1, *len, file) != *len) {
            free(bytes);
            bytes = NULL;
        }
    }
    if (bytes == NULL) {
        fprintf(stderr, "%s: can't be read\n", name);
    }
    fclose(file);
    return bytes;
}

static int tell(const char *call, const lezgauri_fault *fault)
{
    fprintf(stderr, "%s: fault %u at %u, reason %u\n", call, fault->number, fault->position, fault->reason);
    return EXIT_FAILURE;
}

static int run_thrice(lezgauri_handle *segment, lezgauri_client *client)
{
    for (int i = 0; i < 3; i++) {
        char output[64];
        size_t written;
        lezgauri_report report;
        lezgauri_fault fault;
        uint32_t status = lezgauri_run_client(segment, client, NULL, 0, output, sizeof output, &written, &report, &fault);
        if (status == LEZGAURI_OUTPUT_FULL) {
            fprintf(stderr, "run: more than %zu bytes\n", sizeof output);
            return EXIT_FAILURE;
        }
        if (status != LEZGAURI_OK) {
            return tell("run", &fault);
        }
        printf("%llu steps: %.*s", (unsigned long long)report.steps, (int)written, output);
    }
    return EXIT_SUCCESS;
}

static int count(const uint8_t *image, size_t len, const uint8_t *client, size_t client_len)
{
    lezgauri_fault fault;
    uint64_t bound;
    if (lezgauri_verify(image, len, client, client_len, &bound, &fault) != LEZGAURI_OK) {
        return tell("verify", &fault);
    }
    printf("%llu steps at most\n", (unsigned long long)bound);

    lezgauri_handle *segment;
    if (lezgauri_open(image, len, &segment, &fault) != LEZGAURI_OK) {
        return tell("open", &fault);
    }
    lezgauri_client *prepared;
    int ended;
    if (lezgauri_prepare(segment, client, client_len, &prepared, &fault) == LEZGAURI_OK) {
        ended = run_thrice(segment, prepared);
        lezgauri_client_close(prepared);
    } else {
        ended = tell("prepare", &fault);
    }
    lezgauri_close(segment);
    return ended;
}

int main(int argc, char **argv)
{
    if (argc != 3) {
        fprintf(stderr, "usage: counter IMAGE CLIENT\n");
        return 2;
    }
    size_t image_len = 0;
    size_t client_len = 0;
    uint8_t *image = read_file(argv[1], &image_len);
    uint8_t *client = read_file(argv[2], &client_len);
    int ended = EXIT_FAILURE;
    if (image != NULL && client != NULL) {
        ended = count(image, image_len, client, client_len);
    }
    free(image);
    free(client);
    return ended;
}
