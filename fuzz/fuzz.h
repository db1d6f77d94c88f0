/* What the parts of the fuzzer share: random choices, memory, failures, the generators and mutators, and the targets.
 */
#ifndef FUZZ_H
#define FUZZ_H

#include <lezgauri.h>

#include <stdbool.h>
#include <stddef.h>
#include <stdint.h>

enum { MOST_INPUT = 1 << 18, MOST_CLIENT = 1 << 16, MOST_PROGRAM = 1 << 14, MOST_PROGRAM_STEPS = 300000 };

/* ---- choices */

/* A source of random choices: a generator, or the bytes of an input, which end. */
typedef struct choices {
    uint64_t state;
    const uint8_t *bytes; /* null for a generator */
    size_t left;
} choices;

choices choices_of_seed(uint64_t seed);
choices choices_of_bytes(const uint8_t *bytes, size_t len);
/* A number below a limit. 0 after the end of the bytes. */
uint32_t choose(choices *from, uint32_t limit);
/* True once in so many times. */
bool once_in(choices *from, uint32_t times);
bool is_over(const choices *from);

uint64_t hash_bytes(uint64_t hash, const void *bytes, size_t len);

/* ---- memory and failures */

/* Memory of `len` bytes, all 0, that ends directly before memory that can't be used. */
uint8_t *guarded(size_t len);
void free_guarded(uint8_t *memory, size_t len);

/* Reports that a result is wrong, keeps the input in a file, and ends the program. */
_Noreturn void wrong(const char *format, ...);
#define NEED(is_right, ...)     \
    do {                        \
        if (!(is_right)) {      \
            wrong(__VA_ARGS__); \
        }                       \
    } while (0)

/* The request for memory that the library is refused, counted from the last call of this; none if it is 0. */
void refuse_request(unsigned request);
/* How many requests there were since then. */
unsigned requests(void);
/* How many blocks from malloc aren't freed. */
long live_blocks(void);

/* ---- generators and mutators */

enum { MOST_SIZE = 512 };

/* A random type table. Returns the number of types. */
uint32_t generate_types(choices *from, lezgauri_type *types);
/* The bytes of a value of a type. */
uint32_t size_of_type(const lezgauri_type *types, uint32_t type);
/* A client's file with these types. The verifier accepts most of them. Returns its length. */
size_t generate_client(choices *from, const lezgauri_type *types, uint32_t count, uint8_t *client);
/* A sound image. Returns its length, at most `room`. */
size_t generate_image(choices *from, uint8_t *image, size_t room);

/* A program, most of which compile. Returns its length, at most MOST_PROGRAM. */
size_t generate_program(choices *from, uint8_t *program);

/* Each changes bytes in place, knowing what they are, and returns the new length, at most `room`. */
size_t mutate_image(choices *from, uint8_t *image, size_t len, size_t room);
size_t mutate_client(choices *from, uint8_t *client, size_t len, size_t room);
size_t mutate_text(choices *from, uint8_t *text, size_t len, size_t room);
size_t mutate_program(choices *from, uint8_t *text, size_t len, size_t room);
size_t mutate_bytes(choices *from, uint8_t *bytes, size_t len, size_t room);

/* ---- targets */

typedef struct target {
    const char *name;
    void (*run)(const uint8_t *input, size_t len);
    /* makes an input from nothing */
    size_t (*generate)(choices *from, uint8_t *input);
    size_t (*mutate)(choices *from, uint8_t *input, size_t len, size_t room);
    /* how many inputs in a row are changes of one generated input */
    uint32_t variants;
    /* whether what it tests is there; null if it always is */
    bool (*is_there)(void);
} target;

extern const target targets[];
/* The targets that need segtool's object file: only if this is compiled with SEGTOOL. */
extern const target program_targets[];
/* The target with this name, or null. */
const target *find_target(const char *name);

/* What the targets counted, so that a fuzzer that only meets refusals is noticed. */
typedef enum counter {
    SOUND_IMAGES,
    FAULTY_IMAGES,
    ACCEPTED,
    REFUSED,
    RUNS,
    TEXTS,
    BAD_TEXTS,
    PROGRAMS,
    BAD_PROGRAMS,
    COMMANDS,
    CALLS,
    COMPARED,
    SHORT_CALLS,
    REFUSALS,
    COUNTERS
} counter;
extern uint64_t counters[COUNTERS];
void print_counters(void);

/* A hash of all objects of a segment, as the calls that read find them. */
uint64_t hash_objects(const lezgauri_handle *segment);

/* Runs an accepted client on an image by each call that runs clients: all must do the same, at each address and after
 * moves, in at most `bound` steps. */
void compare_calls(const uint8_t *image, size_t image_len, const uint8_t *client, size_t len, uint64_t bound);
/* Runs an accepted client twice on new segments of each allocator and each index, which must agree. */
void compare_configs(const uint8_t *client, size_t len);

#endif
