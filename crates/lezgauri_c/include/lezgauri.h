/*
 * Lezgauri for C and C++: managed memory segments whose images are checked before use. A program reads and changes their values where
 * they are, or runs clients on them: programs in bytecode that are verified before they run. docs/FORMATS.md specifies images, clients
 * and their text. Lengths and positions are in bytes, unless stated otherwise.
 *
 * Status: a call that can fail returns LEZGAURI_OK, the number of a fault, or one of the numbers from 100 on below. After a fault,
 * LEZGAURI_BAD_ARGUMENT or LEZGAURI_BUSY nothing ran, and the caller's memory is unchanged except *fault, *written, *needed, *handle,
 * *prepared, *pushed and *put. A call on a value changes nothing unless it returns LEZGAURI_OK, except lezgauri_push_numbers and
 * lezgauri_put_numbers. No call aborts, unwinds, prints, or reads or writes beyond the lengths that it is given. A call takes memory from
 * malloc and frees it before it returns, except the memory of an open segment and of a prepared client. LEZGAURI_MEMORY means that malloc
 * refused.
 *
 * Tested by each call: null pointers with a length other than 0, lengths above PTRDIFF_MAX, pointers to numbers or structs that
 * aren't aligned, and overlap of what the call writes (numbers and structs that it returns, reports, an output, a saved image, an open
 * segment with its room, a prepared client) with any other memory of the call. Each returns LEZGAURI_BAD_ARGUMENT. A pointer with a
 * length of 0 may be null, unless stated otherwise. If an image's length is above 2^30, the call returns LEZGAURI_BAD_HEADER and reads
 * nothing of the image. If *fault overlaps other memory of the call, it isn't written.
 *
 * Promised by the caller, since no call can test it: each pointer points to as many bytes as its length states; they may be written
 * unless the pointer is to const; and while a call runs, no other thread or process writes what it reads or uses what it writes.
 * Only lezgauri_open may be given bytes that others write: it opens the copy that it checked. No call is made from a signal handler,
 * or in the forked child of a process with threads.
 *
 * Threads: calls share nothing but an open segment and a prepared client, so calls on different memory may run at the same time.
 * They may share images, clients and inputs, which they only read. One call at a time uses an open segment, and one runs a prepared
 * client: another returns LEZGAURI_BUSY at once and has done nothing. Threads that run the same client on different segments prepare it
 * once each.
 *
 * Reading: any number of handles may read one image at the same time, of one thread or of many, in one process or in many that map the
 * same file. Each thread opens a handle of its own, by lezgauri_read or lezgauri_reader. No call on such a handle takes a lock, and none
 * writes to the image, which may be mapped read-only. Nobody may write the image until the last of these handles is closed.
 *
 * Proofs: each call is a thin layer of C over a function that is proved. It is proved that for any bytes of an image, and any place, this
 * function returns, and reads and writes only memory that it is passed; and that on a sound image, with valid places, it does what is
 * stated here. It is also proved that a sound image is sound after a call which makes or destroys a named or unique object, and after a
 * call on a place in one of its objects; for lezgauri_freeze and lezgauri_store that is tested. C tests pointers and lengths, and is
 * itself only tested. CALLING.md states both in detail.
 *
 * Stack: each call touches at most LEZGAURI_STACK_.. bytes of its thread's stack, in addition to what malloc and the caller use.
 */
#ifndef LEZGAURI_H
#define LEZGAURI_H

#include <stddef.h>
#include <stdint.h>

#ifdef __cplusplus
extern "C" {
#endif

/* What calls return. Numbers below 100 are faults, as segtool prints them. Those above 110 are codes of clients (docs/FORMATS.md), plus
 * 110. */
enum {
    LEZGAURI_OK = 0,
    LEZGAURI_MEMORY = 1,           /* a request for host memory was refused */
    LEZGAURI_MISPLACED = 2,        /* the segment can't be at this base; no call here returns it */
    LEZGAURI_BAD_TYPE = 3,         /* position: the first wrong entry of the image's type table, from 0 */
    LEZGAURI_TYPE_MISMATCH = 4,    /* position: the first entry that differs between the client's types and the image's */
    LEZGAURI_BAD_SIZE = 5,         /* a segment can't have this size */
    LEZGAURI_NO_HOST_ROOM = 6,     /* the segment's memory ends before a segment of this size would */
    LEZGAURI_BAD_HEADER = 10,      /* the image's header, or its length */
    LEZGAURI_BAD_BLOCK = 11,       /* position: of the block, in bytes from the image's start, like the next six */
    LEZGAURI_BAD_FREE = 12,        /* position: of the pointer word in the free structure */
    LEZGAURI_BAD_INDEX = 13,       /* position: of the index's entry, or of its pointer */
    LEZGAURI_BAD_POINTER = 14,     /* position: of a pointer that doesn't refer to a block of the right kind */
    LEZGAURI_DOUBLE_OWNER = 15,    /* position: of the block with two owners */
    LEZGAURI_UNOWNED = 16,         /* position: of the allocated block without an owner */
    LEZGAURI_BAD_VALUE = 17,       /* position: of the value */
    LEZGAURI_BAD_CODE = 20,        /* position: of the first field of the client that is wrong or cut, in bytes from its start */
    LEZGAURI_BAD_LINE = 21,        /* position: the first wrong line of a client's text, from 1 */
    LEZGAURI_REJECTED = 22,        /* position: the instruction that is refused, from 0; reason: why (docs/FORMATS.md) */
    LEZGAURI_TOO_LONG = 23,        /* a run of the client could take more than 1,000,000,000 steps */
    LEZGAURI_BAD_ARGUMENT = 100,   /* a pointer or a length isn't allowed; nothing else was examined */
    LEZGAURI_OUTPUT_FULL = 101,    /* the output has no room for what a client prints */
    LEZGAURI_TOO_SMALL = 102,      /* the caller's memory is too small for what the call writes there */
    LEZGAURI_BUSY = 103,           /* another call uses the open segment or the prepared client */
    LEZGAURI_READ_ONLY = 104,      /* the segment is open only for reading */
    LEZGAURI_ALREADY_EXISTS = 111, /* an object with this name, or a unique object of this type, exists already */
    LEZGAURI_BAD_ALLOC = 112,      /* out of memory: no free block of the segment is large enough */
    LEZGAURI_ABSENT = 113,         /* there is no such object or key */
    LEZGAURI_OTHER_TYPE = 114,     /* the object or the place has another type, or the segment has no such type */
    LEZGAURI_OUT_OF_RANGE = 115,   /* a count, an index or a name is out of range */
    LEZGAURI_NO_VALUE = 116,       /* there is no value: a null pointer, an empty container, or nothing further */
    LEZGAURI_NUMBERS_USED_UP = 117 /* no number is left for one more frozen object */
};

/* The most bytes of stack that a call touches. */
enum {
    LEZGAURI_STACK_CHECK = 34 * 1024, /* lezgauri_check, lezgauri_verify, lezgauri_run, lezgauri_open, lezgauri_open_in, lezgauri_read */
    LEZGAURI_STACK_RUN = 22 * 1024,   /* all other calls */
    LEZGAURI_STACK_TEXT = 40 * 1024,  /* lezgauri_assemble, lezgauri_print */
    LEZGAURI_STACK_READ = 13 * 1024,  /* lezgauri_reader, lezgauri_store, the calls from lezgauri_find to lezgauri_content */
    LEZGAURI_STACK_SAVE = 4 * 1024    /* lezgauri_save, lezgauri_size, lezgauri_image, lezgauri_types, lezgauri_close, lezgauri_client_close, the
                                       * calls that return a text */
};

/* The fault isn't a client's. */
#define LEZGAURI_NO_CLIENT UINT64_MAX

/* Why a call was refused. The number is 0 if it wasn't. */
typedef struct lezgauri_fault {
    uint64_t client;   /* the client that has the fault, from 0, or LEZGAURI_NO_CLIENT */
    uint32_t number;   /* as the call returned it */
    uint32_t position; /* as described beside the numbers above, or 0 */
    uint32_t reason;   /* as described beside LEZGAURI_REJECTED, or 0 */
} lezgauri_fault;

/* Bytes in the caller's memory. */
typedef struct lezgauri_bytes {
    const uint8_t *bytes;
    size_t len;
} lezgauri_bytes;

/* What a run of a client did. */
typedef struct lezgauri_report {
    uint64_t steps; /* the steps that it took, at most the bound of lezgauri_verify */
    uint64_t read;  /* the bytes of the input that it read */
    uint32_t ended; /* 0 if it ran to the end of its code, 1 if the output had no room */
} lezgauri_report;

/*
 * Checks an image: LEZGAURI_OK if it is sound, otherwise its first fault. An image has 736 to 2^30 bytes, a multiple of 16. `fault` may be
 * null.
 *
 * The image is read where it lies, and may be mapped read-only. malloc is asked for 9 bytes for each 16 of the image, or for 13 if it
 * has a shared type.
 */
uint32_t lezgauri_check(const void *image, size_t len, lezgauri_fault *fault);

/*
 * Checks an image and verifies a client against its types: LEZGAURI_OK if both are accepted, and *bound is then the most steps that a
 * run of the client takes. Otherwise the first fault: the image's if fault->client is LEZGAURI_NO_CLIENT, the client's if it is 0.
 * `bound` and `fault` may be null.
 */
uint32_t lezgauri_verify(const void *image, size_t len, const void *client, size_t client_len, uint64_t *bound,
                         lezgauri_fault *fault);

/*
 * Checks an image, verifies `count` clients, and runs them in order on a copy of the image. Each client is verified against the types
 * that include those of the clients before it, and continues reading the input where the one before stopped.
 *
 *   clients   `count` pairs of a pointer, which isn't null, and a length
 *   input     `input_len` bytes that clients read
 *   output    room for `capacity` bytes that clients print
 *   written   the number of bytes that were printed; may be null
 *   saved     room for `image_len` bytes: the saved image
 *   reports   room for `count` reports, one for each client that ran; may be null
 *   fault     may be null
 *
 * LEZGAURI_OK if all clients ran to the end of their code. LEZGAURI_OUTPUT_FULL if the output had no room: then it contains what fits, no
 * further client ran, and the saved image and the reports are those after the client that stopped. After a fault nothing ran.
 */
uint32_t lezgauri_run(const void *image, size_t image_len, const lezgauri_bytes *clients, size_t count, const void *input,
                      size_t input_len, void *output, size_t capacity, size_t *written, void *saved,
                      lezgauri_report *reports, lezgauri_fault *fault);

/*
 * A segment that stays open, so that its image is checked once for many runs. Its memory is a block from malloc (lezgauri_open,
 * lezgauri_create), or it is lent by the caller (lezgauri_open_in, lezgauri_create_in). Only the calls below may write it until
 * lezgauri_close: a run relies on the image being sound.
 *
 * The first call on values or clients reads the segment's types, into memory from malloc that lezgauri_close frees. It returns
 * LEZGAURI_MEMORY if malloc refuses. If another handle or a client adds types, the next call reads them again in the same memory.
 */
typedef struct lezgauri_handle lezgauri_handle;

/*
 * Copies an image, checks the copy and opens it: LEZGAURI_OK, and *handle is the segment. Otherwise *handle is null, unless `handle` is
 * null, isn't aligned, or overlaps other memory of the call. `handle` isn't null; `fault` may be.
 */
uint32_t lezgauri_open(const void *image, size_t len, lezgauri_handle **handle, lezgauri_fault *fault);

/*
 * Opens an image where it is, for example in a file that is mapped with MAP_SHARED: checks it in the caller's memory, and copies
 * nothing. All calls on the segment read and change it there, and lezgauri_close leaves it there. The image has `len` bytes, and
 * lezgauri_grow may use `room` bytes from the same address on; `room` isn't less than `len`. The result and the pointers are as for
 * lezgauri_open.
 *
 * The caller promises that the memory stays at its address and may be written until lezgauri_close, and that others write it only
 * between calls, as follows. Another handle on the same memory, of this process or of another one, may be used for calls that don't
 * change the image's length: each call finds the sound image that the call before it left. So processes that share a segment take
 * turns by a lock of their own. One that doesn't trust the others opens the segment anew whenever it gets the lock.
 *
 * If a crash interrupts a run, the image in the memory is half changed. Opening it finds out whether it is still sound, but not whether
 * the run ended. lezgauri_run_whole changes the image only after the client's end, by one copy of all its bytes.
 *
 * Opening writes nothing. A run writes only bytes of blocks that its client changes, and of the header; the first run on an image of
 * version 1 sets its version to 2. So a client that only reads leaves every page of a mapped file clean.
 */
uint32_t lezgauri_open_in(void *memory, size_t len, size_t room, lezgauri_handle **handle, lezgauri_fault *fault);

/*
 * Opens an image only for reading, where it is: in memory that may be mapped read-only, and that others may read at the same time. It is
 * checked as by lezgauri_open_in, and nothing is copied or written. The result and the pointers are as for lezgauri_open.
 *
 * The caller promises that the memory stays at its address, and that nobody writes it until lezgauri_close. Calls that change a segment
 * or its size, and runs, return LEZGAURI_READ_ONLY. All other calls take this handle as they take any other. Once the segment is open,
 * calls that read values take no memory from malloc.
 */
uint32_t lezgauri_read(const void *memory, size_t len, lezgauri_handle **handle, lezgauri_fault *fault);

/*
 * Opens another handle on a segment that is open only for reading, without checking its image again: LEZGAURI_OK, and *other is the
 * handle. Otherwise *other is null, unless `other` is null, isn't aligned, or overlaps other memory of the call. LEZGAURI_BAD_ARGUMENT if
 * `handle` isn't from lezgauri_read or lezgauri_reader. Each handle is closed by itself, in any order. The call may be made while another
 * call uses `handle`.
 */
uint32_t lezgauri_reader(const lezgauri_handle *handle, lezgauri_handle **other);

/* The allocators of a segment: the first free block that is large enough, or the smallest one. */
enum {
    LEZGAURI_SEQ_FIT = 0, /* sequential fit */
    LEZGAURI_BEST_FIT = 1 /* best fit */
};

/* The indexes of a segment, which find objects by name. */
enum {
    LEZGAURI_FLAT_INDEX = 0, /* a sorted array */
    LEZGAURI_TREE_INDEX = 1  /* a tree */
};

/*
 * Makes and opens a segment of `size` bytes without objects or types, in memory from malloc: LEZGAURI_OK, and *handle is the segment.
 * Otherwise *handle is null, unless `handle` is null or isn't aligned. LEZGAURI_BAD_SIZE if `size` isn't a multiple of 16 from 736 to
 * 2^30. LEZGAURI_BAD_ARGUMENT if there is no such allocator or index. `handle` isn't null.
 */
uint32_t lezgauri_create(size_t size, uint32_t allocator, uint32_t index, lezgauri_handle **handle);

/*
 * Like lezgauri_create, but the segment is in the caller's memory, as after lezgauri_open_in. It has `size` bytes from `memory` on, all of
 * which are written, and may grow up to `room` bytes. LEZGAURI_NO_HOST_ROOM if `room` is less than `size`. If the status isn't
 * LEZGAURI_OK, the memory is unchanged. The caller promises that no handle is open on the memory.
 */
uint32_t lezgauri_create_in(void *memory, size_t room, size_t size, uint32_t allocator, uint32_t index, lezgauri_handle **handle);

/*
 * Adds `extra` bytes of free memory at the end of an open segment: LEZGAURI_OK, and *size is the image's new length. `size` may be null.
 * LEZGAURI_BAD_SIZE if `extra` isn't a multiple of 16, or the new length would be above 2^30. LEZGAURI_NO_HOST_ROOM if the room of lent
 * memory is less than the new length. Memory from malloc grows by realloc, and so may move; LEZGAURI_MEMORY if that is refused. If the
 * status isn't LEZGAURI_OK, the segment and *size are unchanged.
 */
uint32_t lezgauri_grow(lezgauri_handle *handle, size_t extra, size_t *size);

/*
 * Cuts the free block at the end of an open segment: LEZGAURI_OK, and *size is the image's new length, at least 736. `size` may be null.
 * The segment can grow again: a block from malloc keeps its size, and lent memory its room. The bytes after the image are unspecified.
 */
uint32_t lezgauri_shrink(lezgauri_handle *handle, size_t *size);

/* *size is the length of an open segment's image, also while another call uses the segment. `size` isn't null. */
uint32_t lezgauri_size(const lezgauri_handle *handle, size_t *size);

/*
 * Counts the free memory of an open segment, in bytes, with 16 for the header of each free block: *all is the size of all free blocks,
 * and *largest that of the largest one. Both may be null. It reads the header of each block.
 */
uint32_t lezgauri_free_memory(const lezgauri_handle *handle, size_t *all, size_t *largest);

/*
 * The bytes of an open segment's image, to be read where they are, until the next call on the segment that may change it. Nobody may
 * write them. `image` isn't null.
 */
uint32_t lezgauri_image(const lezgauri_handle *handle, lezgauri_bytes *image);

/*
 * Verifies a client and runs it on an open segment. The arguments are as for lezgauri_run; `report`, `written` and `fault` may be null.
 * After a fault nothing ran, and the segment is unchanged. After LEZGAURI_OUTPUT_FULL the client ran until the output had no room, and the
 * segment has its changes up to then.
 *
 * The client works in place: nothing of the image or of the output is copied, and malloc is only asked for the decoded client, and by the
 * first call on values or clients for the segment's types. If a crash interrupts the run, the segment is half changed: save it before, or
 * use lezgauri_run_whole.
 */
uint32_t lezgauri_run_on(lezgauri_handle *handle, const void *client, size_t client_len, const void *input,
                         size_t input_len, void *output, size_t capacity, size_t *written, lezgauri_report *report,
                         lezgauri_fault *fault);

/*
 * Like lezgauri_run_on, but all or nothing: the client runs to its end on a copy of the image from malloc, and the segment becomes the
 * saved image only if `output` has room for all that the client prints. *needed is the length of the whole output; `needed` may be null.
 *
 * LEZGAURI_OUTPUT_FULL if `capacity` is less than *needed: then the segment and *report are unchanged, and the contents of `output` are
 * unspecified. The same call with *needed bytes of room succeeds, unless the segment was changed meanwhile or malloc refuses. After a
 * fault *needed is 0.
 */
uint32_t lezgauri_run_whole(lezgauri_handle *handle, const void *client, size_t client_len, const void *input,
                            size_t input_len, void *output, size_t capacity, size_t *needed, lezgauri_report *report,
                            lezgauri_fault *fault);

/*
 * A prepared client: verified and decoded once for many runs, like a prepared statement. It has a copy of the client's bytes, and
 * lezgauri_client_close frees it. It isn't tied to the segment that it was prepared for: it runs on each open segment whose types agree
 * with its own, and may outlive that segment.
 */
typedef struct lezgauri_client lezgauri_client;

/*
 * Copies a client, verifies it against the types of an open segment, and decodes it: LEZGAURI_OK, and *prepared is the client. Otherwise
 * *prepared is null, unless `prepared` is null, isn't aligned, or overlaps other memory of the call. The segment is unchanged.
 * `prepared` isn't null; `fault` may be.
 */
uint32_t lezgauri_prepare(const lezgauri_handle *handle, const void *client, size_t client_len, lezgauri_client **prepared,
                          lezgauri_fault *fault);

/*
 * Runs a prepared client on an open segment, as lezgauri_run_on does, but verifies and decodes nothing. It takes nothing from malloc,
 * unless it is the first call on values or clients of this handle: then it reads the segment's types.
 *
 * LEZGAURI_TYPE_MISMATCH if the segment's types and the client's differ, for example after another client added types. The only other fault
 * is LEZGAURI_MEMORY, of the first call. After a fault nothing ran.
 */
uint32_t lezgauri_run_client(lezgauri_handle *handle, lezgauri_client *prepared, const void *input, size_t input_len,
                             void *output, size_t capacity, size_t *written, lezgauri_report *report, lezgauri_fault *fault);

/* Frees a prepared client, which no call may be running. Does nothing if it is null. */
void lezgauri_client_close(lezgauri_client *prepared);

/*
 * Copies the image of an open segment to `buffer`, which has room for `capacity` bytes. *needed is the image's length; `needed` may be
 * null. LEZGAURI_TOO_SMALL if the room is less; then nothing is copied.
 */
uint32_t lezgauri_save(const lezgauri_handle *handle, void *buffer, size_t capacity, size_t *needed);

/* Frees an open segment, which no call may be using, but not memory that the caller lent. Does nothing if it is null. */
void lezgauri_close(lezgauri_handle *handle);

/* The kinds of types. */
enum {
    LEZGAURI_KIND_I64 = 1,      /* a signed number of 64 bits; it has no component, like the next kind */
    LEZGAURI_KIND_STR = 2,      /* a text */
    LEZGAURI_KIND_VEC = 3,      /* a vector; its component is the type of its items, like that of the next three */
    LEZGAURI_KIND_LIST = 4,     /* a linked list */
    LEZGAURI_KIND_FLAT_MAP = 5, /* a map from numbers, in one buffer */
    LEZGAURI_KIND_MAP = 6,      /* a map from numbers, as a tree */
    LEZGAURI_KIND_OWN = 7,      /* null, or a pointer to an object of its own; its component is the object's type */
    LEZGAURI_KIND_STRUCT = 8,   /* a struct; its components are the types of its fields */
    LEZGAURI_KIND_SHARED = 9    /* null, or a pointer to a frozen object; its component is the object's type */
};

/* The most types of a segment. Types are numbered from 0. */
#define LEZGAURI_MOST_TYPES 32

/* A type of a segment: an entry of its type table. */
typedef struct lezgauri_type {
    uint8_t kind;          /* one of LEZGAURI_KIND_.. */
    uint8_t count;         /* the number of components, 0 to 8 */
    uint8_t components[8]; /* the number of each component's type; 0 after the last */
    uint8_t zeros[6];      /* 0 */
} lezgauri_type;

/*
 * Copies the types of an open segment to `types`, which has room for `capacity` types, in the order of their numbers. *needed is the
 * number of types, at most LEZGAURI_MOST_TYPES; `needed` may be null. LEZGAURI_TOO_SMALL if the room is less; then nothing is copied.
 */
uint32_t lezgauri_types(const lezgauri_handle *handle, lezgauri_type *types, size_t capacity, size_t *needed);

/*
 * Adds types to an open segment. `types` has `count` types: those of the segment in the order of their numbers, and after them the new
 * ones. Types are never removed, so a table that isn't longer than the segment's adds nothing. `fault` may be null.
 *
 * LEZGAURI_BAD_TYPE if an entry isn't allowed; if there are more than LEZGAURI_MOST_TYPES, the position is LEZGAURI_MOST_TYPES.
 * LEZGAURI_TYPE_MISMATCH if an entry differs from the segment's type with its number. Then nothing has changed. After LEZGAURI_OK the image
 * has version 2.
 */
uint32_t lezgauri_add_types(lezgauri_handle *handle, const lezgauri_type *types, size_t count, lezgauri_fault *fault);

/*
 * Makes an image of version 1 one of version 2, which may have frozen objects. An image of version 2 stays the same. Only this call, runs
 * and lezgauri_add_types change the version.
 */
uint32_t lezgauri_upgrade(lezgauri_handle *handle);

/*
 * The place of a value in an open segment: its position and its type. Calls return places and take them by value. A place means the same
 * to each handle on the image, and also after the image was mapped elsewhere, grown or shrunk.
 *
 * A place becomes invalid when its object is destroyed, and when a container around it gets or loses a value, is cleared or is shrunk to
 * fit. The containers around a value are the vectors, lists, maps, owns and shared cells that it is in, but not the structs. No call can
 * test whether a place is valid. With an invalid place a call still uses only bytes of the segment, but it may read a value that was never
 * stored, and if it changes something, the image may no longer be sound.
 *
 * The calls on places and names below have these rules in common. A call whose place has another type than it needs, or a type that the
 * segment doesn't have, returns LEZGAURI_OTHER_TYPE. After a status other than LEZGAURI_OK no object and no value has changed, and
 * nothing is written through the pointers. Pointers to what a call returns aren't null. They don't point into the segment, and neither
 * do the bytes and names that a changing call takes: copy them first. LEZGAURI_MEMORY is only possible for the first of these calls on
 * a handle, and never if the segment is open only for reading.
 *
 * A name is 1 to 63 bytes, each from 0x21 to 0x7e, and a zero after them. It isn't null. At most 64 of its bytes are read.
 */
typedef struct lezgauri_place {
    uint32_t at;   /* in bytes from the image's start */
    uint32_t type; /* the number of the value's type */
} lezgauri_place;

/* A named object of a segment. */
typedef struct lezgauri_named {
    char name[64];  /* ends with a zero; the bytes after it are 0 too */
    uint32_t type;  /* the number of its values' type */
    uint32_t count; /* how many values it has, 1 to 65535 */
} lezgauri_named;

/* An entry of a map: a key, and the place of its value. */
typedef struct lezgauri_entry {
    int64_t key;
    lezgauri_place value;
} lezgauri_entry;

/* A key of a map of i64, and its number. */
typedef struct lezgauri_pair {
    int64_t key;
    int64_t number;
} lezgauri_pair;

/*
 * Finds the first value of the object with this name, whose values have this type. LEZGAURI_ABSENT if no object has the name,
 * LEZGAURI_OTHER_TYPE if its values have another type.
 */
uint32_t lezgauri_find(const lezgauri_handle *handle, const char *name, uint32_t type, lezgauri_place *place);

/* Like lezgauri_find, but the value with this index, counted from 0. LEZGAURI_OUT_OF_RANGE if the object has fewer values. */
uint32_t lezgauri_find_item(const lezgauri_handle *handle, const char *name, uint32_t type, uint32_t index, lezgauri_place *place);

/* The object with this name, of any type. LEZGAURI_ABSENT if there is none. */
uint32_t lezgauri_named_object(const lezgauri_handle *handle, const char *name, lezgauri_named *named);

/*
 * The first object in order of the names, byte by byte, whose name comes after `after`, which need not be the name of an object. The first
 * object of all if `after` is null. LEZGAURI_NO_VALUE if there is none. `after` may be the name in *named.
 */
uint32_t lezgauri_next_name(const lezgauri_handle *handle, const char *after, lezgauri_named *named);

/* Finds the unique object of a type. LEZGAURI_ABSENT if there is none. */
uint32_t lezgauri_find_unique(const lezgauri_handle *handle, uint32_t type, lezgauri_place *place);

/* The number at the place of an i64. */
uint32_t lezgauri_load(const lezgauri_handle *handle, lezgauri_place place, int64_t *number);

/* The place of a field of a struct, by its index from 0. LEZGAURI_OUT_OF_RANGE if the struct has fewer fields. */
uint32_t lezgauri_field(const lezgauri_handle *handle, lezgauri_place place, uint32_t index, lezgauri_place *field);

/* *len is the number of bytes of a string, of items of a vector or list, of keys of a map, or of objects of an own: 0 or 1. */
uint32_t lezgauri_len(const lezgauri_handle *handle, lezgauri_place place, uint32_t *len);

/* The bytes of a string, to be read where they are, until the next call on the segment that may change it. Nobody may write them. */
uint32_t lezgauri_text(const lezgauri_handle *handle, lezgauri_place place, lezgauri_bytes *text);

/*
 * The numbers of a vector of i64, to be read where they are, as the bytes of lezgauri_text: 8 bytes for each number, little-endian. They
 * are aligned to 8 bytes if the image is.
 */
uint32_t lezgauri_numbers(const lezgauri_handle *handle, lezgauri_place place, lezgauri_bytes *numbers);

/*
 * The keys of a flat map of i64 with their numbers, to be read where they are, until the next call on the segment that may change it: 8
 * bytes for a key and 8 for its number, little-endian, in ascending order of the keys. They are aligned to 8 bytes if the image is. Nobody
 * may write them. LEZGAURI_OTHER_TYPE for other values, also for a map that isn't flat.
 */
uint32_t lezgauri_pairs(const lezgauri_handle *handle, lezgauri_place place, lezgauri_bytes *pairs);

/*
 * The place of an item of a vector or list, by its index from 0. LEZGAURI_OUT_OF_RANGE if there are fewer items. In a list it is found
 * step by step from the nearer end.
 */
uint32_t lezgauri_item(const lezgauri_handle *handle, lezgauri_place place, uint32_t index, lezgauri_place *item);

/* The item after an item of a list, in one step. LEZGAURI_NO_VALUE after the last one. Only the position of `item` counts. */
uint32_t lezgauri_next_item(const lezgauri_handle *handle, lezgauri_place list, lezgauri_place item, lezgauri_place *next);

/* The item before an item of a list, in one step. LEZGAURI_NO_VALUE before the first one. */
uint32_t lezgauri_previous_item(const lezgauri_handle *handle, lezgauri_place list, lezgauri_place item, lezgauri_place *previous);

/* The place of the value of a key of a map or flat map. LEZGAURI_ABSENT if it doesn't have the key. */
uint32_t lezgauri_get(const lezgauri_handle *handle, lezgauri_place map, int64_t key, lezgauri_place *value);

/*
 * The least key of a map or flat map that is above *after, which need not be a key. The least key of all if `after` is null.
 * LEZGAURI_NO_VALUE if there is none. `after` and `key` may be the same pointer.
 */
uint32_t lezgauri_next_key(const lezgauri_handle *handle, lezgauri_place map, const int64_t *after, int64_t *key);

/* Like lezgauri_next_key, but the greatest key that is below *before, or the greatest key of all. */
uint32_t lezgauri_previous_key(const lezgauri_handle *handle, lezgauri_place map, const int64_t *before, int64_t *key);

/* Like lezgauri_next_key, and returns the place of the key's value too. */
uint32_t lezgauri_next_entry(const lezgauri_handle *handle, lezgauri_place map, const int64_t *after, int64_t *key, lezgauri_place *value);

/* Like lezgauri_previous_key, and returns the place of the key's value too. */
uint32_t lezgauri_previous_entry(const lezgauri_handle *handle, lezgauri_place map, const int64_t *before, int64_t *key,
                                 lezgauri_place *value);

/*
 * Fills `entries` with the next entries of a map or flat map, in ascending order of the keys, at most `room` of them: those with keys above
 * *after, which need not be a key, or from the first one on if `after` is null. *count is how many there are: fewer than `room` only if the
 * map has no more. If it has none, *count is 0 and the call returns LEZGAURI_OK. One search finds the first entry, and each other one is a
 * step from the one before. `after` may point to a key in `entries`. `entries` may be null if `room` is 0.
 */
uint32_t lezgauri_next_entries(const lezgauri_handle *handle, lezgauri_place map, const int64_t *after, lezgauri_entry *entries,
                               size_t room, size_t *count);

/*
 * The place of the object of an own, or of the frozen object of a shared. LEZGAURI_NO_VALUE if it is null. Nothing in a frozen object may be
 * changed: other cells may point to it, and the image may no longer be sound.
 */
uint32_t lezgauri_content(const lezgauri_handle *handle, lezgauri_place own, lezgauri_place *content);

/*
 * Makes an object with this name, of `count` default values, 1 to 65535, and returns the place of the first one. LEZGAURI_OUT_OF_RANGE if the
 * name or the count isn't allowed, LEZGAURI_ALREADY_EXISTS if an object has the name, LEZGAURI_BAD_ALLOC.
 */
uint32_t lezgauri_construct(lezgauri_handle *handle, const char *name, uint32_t type, uint32_t count, lezgauri_place *place);

/* Finds the object with this name as lezgauri_find does. If there is none, it makes one of one value as lezgauri_construct does. */
uint32_t lezgauri_find_or_construct(lezgauri_handle *handle, const char *name, uint32_t type, lezgauri_place *place);

/* Destroys the object with this name, and all that its values own. LEZGAURI_ABSENT if no object of this type has the name. */
uint32_t lezgauri_destroy(lezgauri_handle *handle, const char *name, uint32_t type);

/* Makes the unique object of a type, of one default value. LEZGAURI_ALREADY_EXISTS if there is one, LEZGAURI_BAD_ALLOC. */
uint32_t lezgauri_construct_unique(lezgauri_handle *handle, uint32_t type, lezgauri_place *place);

/* Finds the unique object of a type, or makes it as lezgauri_construct_unique does. */
uint32_t lezgauri_find_or_construct_unique(lezgauri_handle *handle, uint32_t type, lezgauri_place *place);

/* Destroys the unique object of a type, and all that it owns. LEZGAURI_ABSENT if there is none. */
uint32_t lezgauri_destroy_unique(lezgauri_handle *handle, uint32_t type);

/*
 * Makes an object of one default value that has no name and no owner. LEZGAURI_BAD_ALLOC. As long as there is such an object, the image
 * isn't sound: the checker refuses an object without an owner. So destroy it by lezgauri_destroy_anonymous before the image is saved or
 * the segment closed. No call here gives it to an owner; lezgauri_put_content makes an object that has one.
 */
uint32_t lezgauri_construct_anonymous(lezgauri_handle *handle, uint32_t type, lezgauri_place *place);

/* Destroys an object that lezgauri_construct_anonymous made, and all that it owns. Only the position of `object` counts. */
uint32_t lezgauri_destroy_anonymous(lezgauri_handle *handle, lezgauri_place object);

/* Stores a number at the place of an i64. It writes these 8 bytes and nothing else. */
uint32_t lezgauri_store(lezgauri_handle *handle, lezgauri_place place, int64_t number);

/* Replaces the bytes of a string by `len` others. LEZGAURI_BAD_ALLOC. */
uint32_t lezgauri_assign(lezgauri_handle *handle, lezgauri_place string, const void *bytes, size_t len);

/* Adds `len` bytes at the end of a string. LEZGAURI_BAD_ALLOC. */
uint32_t lezgauri_append(lezgauri_handle *handle, lezgauri_place string, const void *bytes, size_t len);

/* Adds a default item at the end of a vector or list, and returns its place. LEZGAURI_BAD_ALLOC. */
uint32_t lezgauri_push_back(lezgauri_handle *handle, lezgauri_place sequence, lezgauri_place *item);

/*
 * Adds `count` numbers at the end of a vector of i64, one after another. If there is no room for one of them, those before it stay, and
 * the call returns LEZGAURI_BAD_ALLOC. With any other status but LEZGAURI_OK it adds none. *pushed is how many were added;
 * LEZGAURI_BAD_ARGUMENT may leave it as it was. `pushed` may be null, and so may `numbers` if `count` is 0.
 */
uint32_t lezgauri_push_numbers(lezgauri_handle *handle, lezgauri_place vector, const int64_t *numbers, size_t count, size_t *pushed);

/* Adds a default item at the front of a list, and returns its place. LEZGAURI_BAD_ALLOC. */
uint32_t lezgauri_push_front(lezgauri_handle *handle, lezgauri_place list, lezgauri_place *item);

/* Destroys the last item of a vector or list, or drops the last byte of a string. LEZGAURI_NO_VALUE if it is empty. */
uint32_t lezgauri_pop_back(lezgauri_handle *handle, lezgauri_place sequence);

/* Destroys the first item of a list. LEZGAURI_NO_VALUE if it is empty. */
uint32_t lezgauri_pop_front(lezgauri_handle *handle, lezgauri_place list);

/* The place of the value of a key of a map or flat map. A missing key is added with a default value; LEZGAURI_BAD_ALLOC. */
uint32_t lezgauri_put(lezgauri_handle *handle, lezgauri_place map, int64_t key, lezgauri_place *value);

/*
 * Puts `count` keys with their numbers into a map or flat map of i64, one after another. A key that is there gets the number. It is
 * fastest in ascending order of the keys. If there is no room for one of them, those before it stay, and the call returns
 * LEZGAURI_BAD_ALLOC. With any other status but LEZGAURI_OK it puts none. *put is how many were put; LEZGAURI_BAD_ARGUMENT may leave it as
 * it was. `put` may be null, and so may `pairs` if `count` is 0.
 */
uint32_t lezgauri_put_numbers(lezgauri_handle *handle, lezgauri_place map, const lezgauri_pair *pairs, size_t count, size_t *put);

/* Removes a key of a map or flat map, and destroys its value. LEZGAURI_ABSENT if it doesn't have the key, or is no map. */
uint32_t lezgauri_remove(lezgauri_handle *handle, lezgauri_place map, int64_t key);

/* Makes a new object of one default value for an own, and destroys the one that it had. LEZGAURI_BAD_ALLOC. */
uint32_t lezgauri_put_content(lezgauri_handle *handle, lezgauri_place own, lezgauri_place *content);

/*
 * Makes a value of any type the default of this type: 0, empty, null, or for a struct the default of each field. It frees all that the
 * value owns, and each frozen object to which no other cell points.
 */
uint32_t lezgauri_clear(lezgauri_handle *handle, lezgauri_place place);

/* Gives back the memory that a string, vector or flat map has beyond its items. The items stay where they are. */
uint32_t lezgauri_shrink_to_fit(lezgauri_handle *handle, lezgauri_place container);

/*
 * Freezes the object of an own: the place `shared` then points to it and no longer to its old target, and the own is null. A frozen object
 * is destroyed when no place points to it. LEZGAURI_OTHER_TYPE if the types of both don't have the same component, LEZGAURI_NO_VALUE if the
 * own is null, LEZGAURI_NUMBERS_USED_UP, LEZGAURI_BAD_ALLOC. The place `shared` isn't in the object that the own has.
 */
uint32_t lezgauri_freeze(lezgauri_handle *handle, lezgauri_place own, lezgauri_place shared);

/* Makes the shared place `to` point to what `from` points to, which may be null. LEZGAURI_OTHER_TYPE if their types differ. */
uint32_t lezgauri_share(lezgauri_handle *handle, lezgauri_place to, lezgauri_place from);

/*
 * Assembles the text of a client (docs/FORMATS.md, "Assembler text"): writes the client's file to `buffer`, which has room for
 * `capacity` bytes. *needed is the file's length. `needed` and `fault` may be null.
 *
 * LEZGAURI_TOO_SMALL if the room is less; then nothing is written to it. LEZGAURI_BAD_LINE if the text isn't a client's; then *needed
 * is 0, as after each fault. The call takes memory for the file.
 */
uint32_t lezgauri_assemble(const void *text, size_t text_len, void *buffer, size_t capacity, size_t *needed,
                           lezgauri_fault *fault);

/*
 * Writes the text of a client to `buffer`, as lezgauri_assemble writes its file. It is the canonical text, which has no comments, and
 * which lezgauri_assemble turns into the same bytes. No zero follows its last line. LEZGAURI_BAD_CODE if the bytes aren't a client's.
 */
uint32_t lezgauri_print(const void *client, size_t client_len, void *buffer, size_t capacity, size_t *needed,
                        lezgauri_fault *fault);

/*
 * Describes a status in words, such as "one pointer should own the block, but two do". The text is never null, lasts until the program
 * ends, and has no line end. "unknown status" if there is no such status.
 */
const char *lezgauri_status_text(uint32_t status);

/* Describes the reason of LEZGAURI_REJECTED, as lezgauri_status_text describes a status. "unknown reason" if there is no such reason. */
const char *lezgauri_reason_text(uint32_t reason);

/* The version of this header. */
#define LEZGAURI_VERSION "0.1.0"

/* Returns the version of the library, which lasts until the program ends. */
const char *lezgauri_version(void);

#ifdef __cplusplus
}
#endif

#endif
