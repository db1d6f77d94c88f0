/* Commands of segtool in this process: its object file, whose `main` has another name, with the arguments and outputs of
 * the harness. Files are real ones, in a folder of memory. */
#ifndef COMMANDS_H
#define COMMANDS_H

#include <stdbool.h>
#include <stddef.h>
#include <stdint.h>

enum { MOST_TOLD = 1 << 20 };

/* What a command printed, on both outputs. */
typedef struct told {
    int status;
    size_t out_len, error_len;
    uint8_t out[MOST_TOLD], error[MOST_TOLD];
} told;

/* Runs a command, its words ended by a null pointer, in the folder of the harness. */
const told *run_command(const char *word, ...);
/* Whether segtool has this command. */
bool has_command(const char *name);

/* Files of the harness's folder. A file is made anew, or read whole: then its length is returned, or SIZE_MAX if there
 * is no such file or if it is longer than `room`. */
void write_file(const char *name, const void *bytes, size_t len);
size_t read_file(const char *name, void *bytes, size_t room);
void remove_file(const char *name);

#endif
