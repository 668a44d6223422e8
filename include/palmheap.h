/* palmheap for C: heap images of a Palm OS device, and PDB and PRC files.
 *
 * docs/C-LIBRARY.md says how to build the library, what is proved of it and what is trusted.
 * tools/check_header.py compares this file with the functions that the library exports.
 *
 * The caller must ensure the following. Otherwise the behavior is undefined.
 *
 * - A pointer is valid: to read what it points to, and to write it if it is no pointer to const. It is not NULL, unless
 *   it has a length and that is 0. An output may have any value before the call.
 * - Memory that a function writes does not overlap other memory that it is given.
 * - While a call runs, no other thread writes memory that the call is given, or reads memory that the call writes. While
 *   a call changes a store, no other thread uses the store. A call that takes a const palmheap_store leaves the store as
 *   it was: any number of threads may make these calls on one store at once.
 * - The stack has 192 KiB left for palmheap_open, palmheap_run, palmheap_databases and palmheap_databases_json, 128 KiB
 *   for palmheap_check, palmheap_migrate, palmheap_map and palmheap_map_svg, and 64 KiB for any other function.
 *   palmheap_map and palmheap_map_svg need 640 KiB for an image with a chain of master pointer tables.
 * - No function is called from a signal handler, or in the forked child of a process with threads.
 * - malloc, realloc and free are of one allocator. It aligns a block to each power of two, up to 16, that divides the
 *   size of the block.
 *
 * - A parameter x_len is the number of items of the array x. Sizes, counts of bytes and offsets are in bytes.
 * - The caller owns all memory that it passes, and the library keeps no pointer to it after the call. The library
 *   itself keeps memory only for an open store, until palmheap_close.
 * - A function that fails leaves the caller's memory as it was. There are two exceptions. If a buffer is too short, the
 *   function sets the count or the sizes that the caller needs. palmheap_open sets its store to none.
 */
#ifndef PALMHEAP_H
#define PALMHEAP_H

#include <stdbool.h>
#include <stddef.h>
#include <stdint.h>

#ifdef __cplusplus
extern "C" {
#endif

/* The version of this header, as text and as a number: a million for each of the first number, a thousand for each of the
 * second. docs/C-LIBRARY.md says what may change with each of them. */
#define PALMHEAP_VERSION "0.1.0"
#define PALMHEAP_VERSION_NUMBER 1000

/* Returns the PALMHEAP_VERSION_NUMBER of the library that the program runs with. */
uint32_t palmheap_version(void);

/* What was found: PALMHEAP_OK, or the kind of a fault and the numbers that locate it (docs/FORMAT.md). A number that
 * the kind does not have is 0. The comment on a function lists the kinds that it can return. */
typedef struct palmheap_answer {
    uint32_t kind;
    uint32_t at;
    uint32_t entry;
} palmheap_answer;

/* The kinds of answers. docs/FORMAT.md says what each fault means. */
enum {
    PALMHEAP_OK = 0,
    PALMHEAP_NO_MEMORY = 1,      /* an allocation failed */
    PALMHEAP_NO_ROOM = 2,        /* a buffer is too short; the function's count or sizes say how long it must be */
    PALMHEAP_TOO_LARGE = 3,      /* a file is longer than 4,294,967,293 bytes */
    PALMHEAP_BAD_SIZE = 4,       /* no image has this size */
    PALMHEAP_BAD_SLOT_COUNT = 5, /* no image of the size has this number of slots */
    PALMHEAP_NO_FILE = 6,        /* no file has the values that are given */

    /* An image that is no heap. at: an offset in it; of PALMHEAP_BAD_TABLE the index, from 0, of the
     * table whose field `next` is wrong. */
    PALMHEAP_TOO_SHORT = 20,
    PALMHEAP_BAD_MAGIC = 21,
    PALMHEAP_BAD_SIZE_FIELD = 22,
    PALMHEAP_BAD_SLOT_FIELD = 23,
    PALMHEAP_BAD_RESERVED = 24,
    PALMHEAP_BAD_PADDING = 25,
    PALMHEAP_BAD_CHUNK = 26,
    PALMHEAP_BAD_TABLE = 27,
    PALMHEAP_SLOT_MISMATCH = 28,
    PALMHEAP_CHUNK_WITHOUT_SLOT = 29,
    PALMHEAP_BAD_FIXED_OWNER = 30,
    PALMHEAP_BAD_DIRECTORY = 31,

    /* A heap with faulty databases. at: an index of the directory, a database or a slot; entry: an entry. */
    PALMHEAP_BAD_DIRECTORY_SLOT = 40,
    PALMHEAP_BAD_HEADER = 41,
    PALMHEAP_BAD_ENTRY = 42,
    PALMHEAP_SHARED_CHUNK = 43,
    PALMHEAP_STRAY_CHUNK = 44,
    PALMHEAP_BAD_ID = 45,
    PALMHEAP_BAD_NAME = 46,
    PALMHEAP_SAME_NAME = 47,

    /* A file from which no database is read. at: the index of an entry. */
    PALMHEAP_TRUNCATED = 60,
    PALMHEAP_CHAINED_LIST = 61,
    PALMHEAP_EMPTY_NAME = 62,
    PALMHEAP_BAD_APP_INFO = 63,
    PALMHEAP_BAD_SORT_INFO = 64,
    PALMHEAP_BAD_OFFSET = 65,

    /* A text that is no script. at: its first faulty line; entry: of PALMHEAP_BAD_WORD the word. Both are counted from 1,
     * and UINT32_MAX stands for greater numbers too. */
    PALMHEAP_UNKNOWN_COMMAND = 70,
    PALMHEAP_WRONG_COUNT = 71,
    PALMHEAP_BAD_WORD = 72,

    /* An accepted image of profile PHI1 that as one of profile PHI2 would be larger than any image. */
    PALMHEAP_TOO_LARGE_TO_MIGRATE = 104
};

/* Writes the name of a kind of fault, 1, 20 to 47, 60 to 72 or 104, into a buffer, as BadChunk: ASCII without a zero at
 * its end, as the program prints it. No name has more than 16 bytes. Sets count to its size in bytes, also if the buffer is
 * too short for it. Returns 0 or PALMHEAP_CALL_NO_ROOM, or PALMHEAP_CALL_NO_FAULT if no fault has the kind: then it
 * changes nothing. */
uint32_t palmheap_kind_name(uint32_t kind, uint8_t *name, size_t name_len, size_t *count);

/* ---- Files and images. These functions keep nothing between calls, and accept any bytes. ----
 *
 * Those with a count work like snprintf: call one with NULL and the length 0 for the count, and then with room for that
 * many.
 * With PALMHEAP_OK the items after the first *count of a buffer are unchanged.
 */

/* The counts of an accepted image: its size in bytes, its slots, its movable and its fixed chunks, the bytes of its
 * free chunks together, and its databases. */
typedef struct palmheap_counts {
    uint32_t size;
    uint32_t slots;
    uint32_t movable;
    uint32_t fixed;
    uint32_t free;
    uint32_t databases;
} palmheap_counts;

/* Where a block stands in a file, if it is there: from its start up to its end, in bytes from the file's start. Both
 * are at most the size of the file. */
typedef struct palmheap_block {
    size_t start;
    size_t end;
    bool is_there;
} palmheap_block;

/* Checks whether a database can be read from a file, PDB or PRC.
 * Answers: PALMHEAP_OK, 60 to 65. */
palmheap_answer palmheap_pdb_check(const uint8_t *file, size_t file_len);

/* Where a file has its first fault: the offset of the field, the number that it has, and the numbers that are allowed
 * there, those from least to most. If or_zero, 0 is allowed too, but in the entry of a record only if the record is
 * deleted. Of a truncated file the offset and the number are its size. */
typedef struct palmheap_damage {
    size_t at;
    size_t found;
    size_t least;
    size_t most;
    bool or_zero;
} palmheap_damage;

/* Checks a file as palmheap_pdb_check does. If it has a fault, sets damage. palmheap_import refuses these files with 25.
 * Answers: PALMHEAP_OK, PALMHEAP_TOO_LARGE, 60 to 65. */
palmheap_answer palmheap_pdb_damage(const uint8_t *file, size_t file_len, palmheap_damage *damage);

/* Finds where the blocks of a file stand: the AppInfo block, the SortInfo block, and the data of the entries in order.
 * So there are two blocks more than entries. Sets count to their number, also with PALMHEAP_NO_ROOM.
 * Answers: PALMHEAP_OK, PALMHEAP_NO_MEMORY, PALMHEAP_NO_ROOM, 60 to 65. */
palmheap_answer palmheap_pdb_blocks(const uint8_t *file, size_t file_len, palmheap_block *blocks, size_t blocks_len,
    size_t *count);

/* Writes the canonical form of a file into a buffer: the file that is written for the database that is read from it.
 * Sets count to its size in bytes, also with PALMHEAP_NO_ROOM.
 * Answers: PALMHEAP_OK, PALMHEAP_NO_MEMORY, PALMHEAP_NO_ROOM, PALMHEAP_TOO_LARGE, 60 to 65. */
palmheap_answer palmheap_canonical(const uint8_t *file, size_t file_len, uint8_t *canonical, size_t canonical_len,
    size_t *count);

/* Writes the listing of a file into a buffer: the UTF-8 text that `palmheap list` prints, without a zero at its end.
 * Sets count to its size in bytes, also with PALMHEAP_NO_ROOM.
 * Answers: PALMHEAP_OK, PALMHEAP_NO_MEMORY, PALMHEAP_NO_ROOM, PALMHEAP_TOO_LARGE, 60 to 65. */
palmheap_answer palmheap_pdb_list(const uint8_t *file, size_t file_len, uint8_t *text, size_t text_len, size_t *count);

/* Writes the JSON document that `palmheap list --json` prints for a file into a buffer. If the file has a fault, that is
 * the document of its first fault, and the answer is PALMHEAP_OK too. The text is UTF-8 without a zero at its end. Sets
 * count to its size in bytes, also with PALMHEAP_NO_ROOM.
 * Answers: PALMHEAP_OK, PALMHEAP_NO_MEMORY, PALMHEAP_NO_ROOM, PALMHEAP_TOO_LARGE. */
palmheap_answer palmheap_pdb_json(const uint8_t *file, size_t file_len, uint8_t *text, size_t text_len, size_t *count);

/* The smallest new image into which the database of a file can be imported: its size in bytes, and its slots. Both can be
 * greater than any image has. */
typedef struct palmheap_needs {
    size_t size;
    size_t slots;
} palmheap_needs;

/* Finds what palmheap_new must make at least for a file: sets needs to the numbers that `palmheap list` prints.
 * Answers: PALMHEAP_OK, PALMHEAP_NO_MEMORY, 60 to 65. */
palmheap_answer palmheap_pdb_needs(const uint8_t *file, size_t file_len, palmheap_needs *needs);

/* Writes the file that `palmheap salvage` writes for a damaged file into a buffer. Its records get IDs as in the canonical
 * form, or keep those of the damaged file if exact_ids. Sets count to its size in bytes, and faults to the number of
 * lines of palmheap_salvage_lines, 0 if the file has no fault; both also with PALMHEAP_NO_ROOM. A file shorter than 78
 * bytes has no header, so it is refused.
 * Answers: PALMHEAP_OK, PALMHEAP_NO_MEMORY, PALMHEAP_NO_ROOM, PALMHEAP_TOO_LARGE, PALMHEAP_TRUNCATED. */
palmheap_answer palmheap_salvage(const uint8_t *file, size_t file_len, bool exact_ids, uint8_t *salvaged,
    size_t salvaged_len, size_t *count, size_t *faults);

/* Writes a line for each fault of a file into a buffer, as `palmheap salvage` prints them: ASCII without a zero at its
 * end. Sets count to its size in bytes, also with PALMHEAP_NO_ROOM.
 * Answers: PALMHEAP_OK, PALMHEAP_NO_MEMORY, PALMHEAP_NO_ROOM, PALMHEAP_TOO_LARGE, PALMHEAP_TRUNCATED. */
palmheap_answer palmheap_salvage_lines(const uint8_t *file, size_t file_len, uint8_t *text, size_t text_len,
    size_t *count);

/* Makes an image without chunks that fills a buffer. slots is the number of its movable chunks at most, 1 to 65,535.
 * image_len must be a multiple of 8, 64 to 16,777,208, and have room for the slots (docs/FORMAT.md).
 * Answers: PALMHEAP_OK, PALMHEAP_NO_MEMORY, PALMHEAP_BAD_SIZE, PALMHEAP_BAD_SLOT_COUNT. */
palmheap_answer palmheap_new(uint8_t *image, size_t image_len, uint16_t slots);

/* Makes an image without chunks, as palmheap_new does, but with a chain of master pointer tables: to it
 * palmheap_more_slots adds slots. slots is the number of slots of its one table. With an even number of slots the word
 * after them takes 8 bytes: so image_len is at least 72, and 8 bytes less are left for chunks.
 * Answers: PALMHEAP_OK, PALMHEAP_NO_MEMORY, PALMHEAP_BAD_SIZE, PALMHEAP_BAD_SLOT_COUNT. */
palmheap_answer palmheap_new_chained(uint8_t *image, size_t image_len, uint16_t slots);

/* Checks whether some bytes are an accepted image. If so, sets counts to what it has.
 * Answers: PALMHEAP_OK, PALMHEAP_NO_MEMORY, 20 to 47. */
palmheap_answer palmheap_check(const uint8_t *image, size_t image_len, palmheap_counts *counts);

/* Writes the image with a chain of master pointer tables that an image becomes into a buffer, as `palmheap migrate` does:
 * to it palmheap_more_slots adds slots. An image that has a chain is written as it is. Another one grows by 8 bytes if
 * its number of slots is even, and then the names of fixed chunks are greater by 8. All else of its chunks and databases
 * is the same. Sets count to the size of the new image in bytes, also with PALMHEAP_NO_ROOM.
 * Answers: PALMHEAP_OK, PALMHEAP_NO_MEMORY, PALMHEAP_NO_ROOM, PALMHEAP_TOO_LARGE_TO_MIGRATE, 20 to 47. */
palmheap_answer palmheap_migrate(const uint8_t *image, size_t image_len, uint8_t *migrated, size_t migrated_len,
    size_t *count);

/* Writes the picture of an image into a buffer: the ASCII text that `palmheap map` prints, without a zero at its end.
 * Sets count to its size in bytes, also with PALMHEAP_NO_ROOM.
 * Answers: PALMHEAP_OK, PALMHEAP_NO_MEMORY, PALMHEAP_NO_ROOM, 20 to 47. */
palmheap_answer palmheap_map(const uint8_t *image, size_t image_len, uint8_t *text, size_t text_len, size_t *count);

/* The same as SVG: the file that `palmheap map` writes.
 * Answers: PALMHEAP_OK, PALMHEAP_NO_MEMORY, PALMHEAP_NO_ROOM, 20 to 47. */
palmheap_answer palmheap_map_svg(const uint8_t *image, size_t image_len, uint8_t *text, size_t text_len, size_t *count);

/* Writes a line for each database of an image into a buffer: the UTF-8 text that `palmheap databases` prints, without a
 * zero at its end. Sets count to its size in bytes, also with PALMHEAP_NO_ROOM. Calls on an open store give the same
 * values as numbers, as palmheap_DmDatabaseInfo.
 * Answers: PALMHEAP_OK, PALMHEAP_NO_MEMORY, PALMHEAP_NO_ROOM, 20 to 47. */
palmheap_answer palmheap_databases(const uint8_t *image, size_t image_len, uint8_t *text, size_t text_len,
    size_t *count);

/* The same as JSON: the document that `palmheap databases --json` prints.
 * Answers: PALMHEAP_OK, PALMHEAP_NO_MEMORY, PALMHEAP_NO_ROOM, 20 to 47. */
palmheap_answer palmheap_databases_json(const uint8_t *image, size_t image_len, uint8_t *text, size_t text_len,
    size_t *count);

/* ---- Scripts. ---- */

/* Some bytes. at may be NULL if len is 0. */
typedef struct palmheap_bytes {
    const uint8_t *at;
    size_t len;
} palmheap_bytes;

/* The sizes of the results of a run: the bytes of the reply lines, the bytes of the exported files together, and the
 * number of these files. */
typedef struct palmheap_sizes {
    size_t printed;
    size_t exported;
    size_t files;
} palmheap_sizes;

/* Runs a script (docs/USING.md) on an image, in place. files are the files that its lines import. Writes the reply
 * lines to printed, and the files that lines export to exported, one after the other. Writes to exported_ends where
 * each of them ends: an offset in exported, at which the next one starts. Sets sizes to the sizes of these results. If
 * a buffer is too short for them, only sizes is written: make the buffers long enough, and call again. A refused line
 * is no failure: its reply line says so.
 * Answers: PALMHEAP_OK, PALMHEAP_NO_MEMORY, PALMHEAP_NO_ROOM, 20 to 47, 70 to 72. */
palmheap_answer palmheap_run(uint8_t *image, size_t image_len, const uint8_t *script, size_t script_len,
    const palmheap_bytes *files, size_t files_len, uint8_t *printed, size_t printed_len, uint8_t *exported,
    size_t exported_len, size_t *exported_ends, size_t exported_ends_len, palmheap_sizes *sizes);

/* ---- An open store. ----
 *
 * A store lives from palmheap_open to palmheap_close. The caller passes the address of a palmheap_store. A call that
 * takes a const palmheap_store only asks: the store is the same after it. Calls that only ask may run at the same time.
 * While another call uses the store, no call may run. Once palmheap_close returned 0, only palmheap_open and
 * palmheap_close may get the palmheap_store. A copy of a palmheap_store is the same store, so close only one of them. The
 * caller never changes the field, but may set a new palmheap_store to {0}: then it can always be closed.
 *
 * So a program that asks and changes in several threads needs a lock, such as a pthread_rwlock_t. Calls on different
 * stores need none. Nor does a thread that uses the bytes of a loan or a pointer: no call reads or writes them.
 *
 * A call returns 0, or the number of a refusal. A refused call changes no chunk and no database, and leaves the
 * caller's memory as it was. Comments list the refusals of a call in the order in which it looks for them. A call with
 * a buffer can also return PALMHEAP_CALL_NO_ROOM: then only its count is written.
 */

/* An open store, or none: then at is NULL. */
typedef struct palmheap_store {
    void *at;
} palmheap_store;

/* The refusals. docs/USING.md says what each of them means. */
enum {
    PALMHEAP_REFUSED_INVALID_HANDLE = 1,
    PALMHEAP_REFUSED_OWNED_BY_DATABASE = 2,
    PALMHEAP_REFUSED_CHUNK_LOCKED = 3,
    PALMHEAP_REFUSED_CHUNK_NOT_LOCKED = 4,
    PALMHEAP_REFUSED_LOCK_OVERFLOW = 5,
    PALMHEAP_REFUSED_CHUNK_FIXED = 6,
    PALMHEAP_REFUSED_INVALID_OWNER = 7,
    PALMHEAP_REFUSED_NOT_ENOUGH_SPACE = 8,
    PALMHEAP_REFUSED_OUT_OF_BOUNDS = 9,
    PALMHEAP_REFUSED_NO_SUCH_DATABASE = 10,
    PALMHEAP_REFUSED_NOT_RECORD_DATABASE = 11,
    PALMHEAP_REFUSED_NOT_RESOURCE_DATABASE = 12,
    PALMHEAP_REFUSED_READ_ONLY = 13,
    PALMHEAP_REFUSED_INDEX_OUT_OF_RANGE = 14,
    PALMHEAP_REFUSED_RECORD_DELETED = 15,
    PALMHEAP_REFUSED_RECORD_BUSY = 16,
    PALMHEAP_REFUSED_TOO_MANY_ENTRIES = 17,
    PALMHEAP_REFUSED_INVALID_CATEGORY = 18,
    PALMHEAP_REFUSED_DUPLICATE_ID = 19,
    PALMHEAP_REFUSED_UNIQUE_ID_NOT_FOUND = 20,
    PALMHEAP_REFUSED_ALREADY_EXISTS = 21,
    PALMHEAP_REFUSED_INVALID_NAME = 22,
    PALMHEAP_REFUSED_RESOURCE_NOT_FOUND = 23,
    PALMHEAP_REFUSED_NO_INFO_BLOCK = 24,
    PALMHEAP_REFUSED_BAD_FILE = 25,
    PALMHEAP_REFUSED_OUT_OF_MEMORY = 26,
    PALMHEAP_REFUSED_LENT = 27
};

/* Results of a call that are no refusals. */
enum {
    PALMHEAP_CALL_NO_ROOM = 100,    /* a buffer is too short; the call's count is the size that it needs */
    PALMHEAP_CALL_NO_REFUSAL = 101, /* no refusal has the number */
    PALMHEAP_CALL_NO_POINTER = 102, /* no pointer to the chunk is out */
    PALMHEAP_CALL_NO_FAULT = 103,   /* no fault has the kind */
    PALMHEAP_CALL_NO_WORD = 105     /* no fault, refusal or change has the name or the number */
};

/* Writes the name of a refusal into a buffer, ASCII without a zero at its end, as InvalidHandle. No name has more than
 * 19 bytes. Sets count to its size in bytes, also if the buffer is too short for it. Returns
 * PALMHEAP_CALL_NO_REFUSAL, and changes nothing, if no refusal has the number. */
uint32_t palmheap_refusal_name(uint32_t refusal, uint8_t *name, size_t name_len, size_t *count);

/* Writes the text that `palmheap explain` prints for a word: a line for each fault, refusal and change in a file with this
 * name, or for the refusal with this number, in decimal. The case of letters doesn't matter. The text is ASCII without a
 * zero at its end. Sets count to its size in bytes, also if the buffer is too short for it. palmheap_kind_name and
 * palmheap_refusal_name give names. Returns PALMHEAP_CALL_NO_WORD, and changes nothing, if there is no line.
 * Refusals: 26. */
uint32_t palmheap_explain(const uint8_t *word, size_t word_len, uint8_t *text, size_t text_len, size_t *count);

/* Opens an image: checks it, and copies it into a store that lives until palmheap_close. Sets store to it. If it fails,
 * it sets store->at to NULL. A store that was in store before is not closed. The caller's image stays as it is:
 * palmheap_write_image writes the new one. Answers: PALMHEAP_OK, PALMHEAP_NO_MEMORY, 20 to 47. */
palmheap_answer palmheap_open(const uint8_t *image, size_t image_len, palmheap_store *store);

/* Closes a store and frees its memory, and sets store->at to NULL. If a chunk is lent, the store stays open. If
 * store->at is NULL already, it does nothing and returns 0: the store was set to {0}, failed to open, or is closed.
 * Refusals: 27. */
uint32_t palmheap_close(palmheap_store *store);

/* Writes the image of a store into a buffer. Sets count to its size in bytes, also if the buffer is too short for
 * it. Refusals: 27, 26. */
uint32_t palmheap_write_image(const palmheap_store *store, uint8_t *image, size_t image_len, size_t *count);

/* -- Chunks --
 *
 * A name is the number of a chunk. It stays the same until the chunk is freed; after that a new chunk can get it. The
 * store moves a movable chunk only while it has no lock, and a fixed chunk never. A stretch is a longest run of
 * neighbouring chunks, none locked or fixed, and its room is that of its free chunks together. */

/* Makes a movable chunk of size zeros for an owner, 1 to 14. Sets name to its name. Refusals: 7, 8. */
uint32_t palmheap_MemHandleNew(palmheap_store *store, uint32_t size, uint8_t owner, uint32_t *name);

/* Makes a fixed chunk of size zeros for an owner, 1 to 14. Sets name to its name. Refusals: 7, 8. */
uint32_t palmheap_MemPtrNew(palmheap_store *store, uint32_t size, uint8_t owner, uint32_t *name);

/* Frees a chunk that has no lock, or is fixed. Refusals: 1, 2, 3, 27. */
uint32_t palmheap_MemChunkFree(palmheap_store *store, uint32_t name);

/* Adds a lock to a movable chunk, which can have 14. Sets place to the offset of its body in the image, and count to
 * the number of its locks. Refusals: 1, 6, 5. */
uint32_t palmheap_MemHandleLock(palmheap_store *store, uint32_t name, uint32_t *place, uint8_t *count);

/* Removes a lock from a movable chunk. Sets count to the number of locks left. Refusals: 1, 6, 4, 27. */
uint32_t palmheap_MemHandleUnlock(palmheap_store *store, uint32_t name, uint8_t *count);

/* Sets size to the size of a chunk in bytes. Refusals: 1. */
uint32_t palmheap_MemHandleSize(const palmheap_store *store, uint32_t name, uint32_t *size);

/* Sets owner to the owner of a chunk, or to 15 if a database owns it. Refusals: 1. */
uint32_t palmheap_MemHandleOwner(const palmheap_store *store, uint32_t name, uint8_t *owner);

/* Sets count to the number of locks of a chunk, or to 15 if it is fixed. Refusals: 1. */
uint32_t palmheap_MemHandleLockCount(const palmheap_store *store, uint32_t name, uint8_t *count);

/* Overwrites bytes of a locked or fixed chunk, from the offset at in the chunk. Refusals: 1, 4, 27, 9. */
uint32_t palmheap_DmWrite(palmheap_store *store, uint32_t name, uint32_t at, const uint8_t *bytes, size_t bytes_len);

/* Sets count bytes of a locked or fixed chunk to byte, from the offset at in the chunk. Refusals: 1, 4, 27, 9. */
uint32_t palmheap_DmSet(palmheap_store *store, uint32_t name, uint32_t at, uint32_t count, uint8_t byte);

/* Overwrites bytes of a locked or fixed chunk, from the offset at in the chunk, with the bytes of text before its
 * first zero byte, or all text_len if none is zero, and then a zero byte. Refusals: 1, 4, 27, 9. */
uint32_t palmheap_DmStrCopy(palmheap_store *store, uint32_t name, uint32_t at, const uint8_t *text, size_t text_len);

/* Resizes a chunk to size bytes. It cuts bytes off at the end, or adds zeros there. Refusals: 1, 2, 6, 27, 3, 8. */
uint32_t palmheap_MemHandleResize(palmheap_store *store, uint32_t name, uint32_t size);

/* Sets the owner of a chunk, 1 to 14. Refusals: 1, 2, 7. */
uint32_t palmheap_MemHandleSetOwner(palmheap_store *store, uint32_t name, uint8_t owner);

/* Sets name to the name of the chunk whose body is at the offset place in the image. Refusals: 1. */
uint32_t palmheap_MemPtrRecoverHandle(const palmheap_store *store, uint32_t place, uint32_t *name);

/* Frees all chunks of an owner, 1 to 14, also locked and fixed ones. Sets count to their number. Refusals: 7, 27. */
uint32_t palmheap_MemHeapFreeByOwnerID(palmheap_store *store, uint8_t owner, uint32_t *count);

/* Sets count to the sum of the sizes of all free chunks, in bytes. */
uint32_t palmheap_MemHeapFreeBytes(const palmheap_store *store, uint32_t *count);

/* Sets count to the greatest room of a stretch, in bytes, or to 0 if there is no stretch. */
uint32_t palmheap_largest_stretch(const palmheap_store *store, uint32_t *count);

/* Joins the free bytes of each stretch into one chunk. Sets count to the number of bytes moved. */
uint32_t palmheap_MemHeapCompact(palmheap_store *store, uint32_t *count);

/* Adds a master pointer table of 15 empty slots, if the image has a chain of tables: palmheap_new makes images without
 * one, palmheap_new_chained and palmheap_migrate with one. For an open store migrate its written image. Refusals: 8. */
uint32_t palmheap_more_slots(palmheap_store *store);

/* -- Databases --
 *
 * db is the number of a database. It stays the same until the database is deleted. A name has 1 to 31 bytes, none of
 * them zero, and its length counts no zero after it. A type or a creator is the number that its four bytes make, the
 * first byte highest. A date counts the seconds since 1904-01-01 00:00:00. An attribute 0x0001 marks a database with
 * resources, 0x0002 one that is read-only. */

/* The header of a database. The first name_length bytes of name are its name. The others are 0 in what a call writes,
 * and ignored in what a call is given. */
typedef struct palmheap_database_info {
    uint8_t name[32];
    uint32_t name_length;
    uint32_t creation_date;
    uint32_t modification_date;
    uint32_t backup_date;
    uint32_t modification_number;
    uint32_t kind;
    uint32_t creator;
    uint32_t seed;
    uint16_t attributes;
    uint16_t version;
    uint16_t entry_count;
} palmheap_database_info;

/* The entry of a record. If has_data is true, data is the chunk of its data. */
typedef struct palmheap_record_info {
    uint32_t id;
    uint32_t data;
    uint8_t attributes;
    bool has_data;
} palmheap_record_info;

/* The entry of a resource. data is the chunk of its data. */
typedef struct palmheap_resource_info {
    uint32_t kind;
    uint32_t data;
    uint16_t id;
} palmheap_resource_info;

/* Makes a database without entries, after all others. kind is its type, and date its creation and modification date.
 * Sets db to the database. Refusals: 22, 21, 17, 8. */
uint32_t palmheap_DmCreateDatabase(palmheap_store *store, const uint8_t *name, size_t name_len, uint32_t kind,
    uint32_t creator, bool resources, uint32_t date, uint32_t *db);

/* Deletes a database, its entries and its info blocks. Refusals: 10, 3. */
uint32_t palmheap_DmDeleteDatabase(palmheap_store *store, uint32_t db);

/* Sets db to the database with this name. Refusals: 10. */
uint32_t palmheap_DmFindDatabase(const palmheap_store *store, const uint8_t *name, size_t name_len, uint32_t *db);

/* Sets db to the database at an index, counted from 0. Refusals: 10. */
uint32_t palmheap_DmGetDatabase(const palmheap_store *store, uint32_t index, uint32_t *db);

/* Sets count to the number of databases. */
uint32_t palmheap_DmNumDatabases(const palmheap_store *store, uint32_t *count);

/* Reads the header of a database, and the number of its entries. Refusals: 10. */
uint32_t palmheap_DmDatabaseInfo(const palmheap_store *store, uint32_t db, palmheap_database_info *info);

/* Sets the name, attributes, version, dates, type and creator of a database. Ignores the other fields of info, and
 * the attribute for resources. To change some of them, read info by palmheap_DmDatabaseInfo first. Refusals: 10, 22,
 * 21. */
uint32_t palmheap_DmSetDatabaseInfo(palmheap_store *store, uint32_t db, const palmheap_database_info *info);

/* Makes a movable chunk the AppInfo block of a database, or its SortInfo block if sort is true. The database may not
 * have this block yet. Refusals: 10, 13, 21, 1, 2, 6. */
uint32_t palmheap_set_info_block(palmheap_store *store, uint32_t db, bool sort, uint32_t name);

/* Gives an info block of a database to an owner, 1 to 14. The database no longer has the block. Sets name to the
 * block's name. Refusals: 10, 13, 24, 7. */
uint32_t palmheap_take_info_block(palmheap_store *store, uint32_t db, bool sort, uint8_t owner, uint32_t *name);

/* Sets name to the name of an info block of a database. Refusals: 10, 24. */
uint32_t palmheap_info_block(const palmheap_store *store, uint32_t db, bool sort, uint32_t *name);

/* -- Records --
 *
 * Records are counted from 0, deleted ones included. Of the attributes 0x80 marks a deleted record, 0x40 a dirty one,
 * 0x20 a busy one and 0x10 a secret one. The low four bits are the category, 0 to 15. */

/* Makes a record of size zeros at the index at, or at the end if there are fewer. It is busy and dirty, and has an ID
 * that no other record has. Sets index to its index, and name to the chunk of its data. Refusals: 10, 11, 13, 17, 8. */
uint32_t palmheap_DmNewRecord(palmheap_store *store, uint32_t db, uint32_t at, uint32_t size, uint32_t *index,
    uint32_t *name);

/* Deletes a record: frees its data, and keeps its entry. Refusals: 10, 11, 13, 14, 15, 3. */
uint32_t palmheap_DmDeleteRecord(palmheap_store *store, uint32_t db, uint32_t index);

/* Marks a record as deleted, and keeps its data. Refusals: 10, 11, 13, 14, 15. */
uint32_t palmheap_DmArchiveRecord(palmheap_store *store, uint32_t db, uint32_t index);

/* Removes a record, and frees its data if it has any. Refusals: 10, 11, 13, 14, 3. */
uint32_t palmheap_DmRemoveRecord(palmheap_store *store, uint32_t db, uint32_t index);

/* Moves a record before the record at the index to, or after the last one. Both indexes are those before the call.
 * Refusals: 10, 11, 13, 14. */
uint32_t palmheap_DmMoveRecord(palmheap_store *store, uint32_t db, uint32_t from, uint32_t to);

/* Marks a record as busy, and sets name to the chunk of its data. Refusals: 10, 11, 14, 15, 16. */
uint32_t palmheap_DmGetRecord(palmheap_store *store, uint32_t db, uint32_t index, uint32_t *name);

/* Sets name to the chunk of a record's data. Refusals: 10, 11, 14, 15. */
uint32_t palmheap_DmQueryRecord(const palmheap_store *store, uint32_t db, uint32_t index, uint32_t *name);

/* Marks a record as no longer busy, and as dirty if dirty is true. Refusals: 10, 11, 14. */
uint32_t palmheap_DmReleaseRecord(palmheap_store *store, uint32_t db, uint32_t index, bool dirty);

/* Reads the entry of a record. Refusals: 10, 11, 14. */
uint32_t palmheap_DmRecordInfo(const palmheap_store *store, uint32_t db, uint32_t index, palmheap_record_info *info);

/* Resizes the data of a record to size bytes. Refusals: 10, 11, 13, 14, 15, 27, 3, 8. */
uint32_t palmheap_DmResizeRecord(palmheap_store *store, uint32_t db, uint32_t index, uint32_t size);

/* Sets count to the number of records. Refusals: 10, 11. */
uint32_t palmheap_DmNumRecords(const palmheap_store *store, uint32_t db, uint32_t *count);

/* Makes a movable chunk the data of a new record at the index at, or at the end if there are fewer. Sets index to the
 * index of the record. Refusals: 10, 11, 13, 1, 2, 6, 17, 8. */
uint32_t palmheap_DmAttachRecord(palmheap_store *store, uint32_t db, uint32_t at, uint32_t name, uint32_t *index);

/* Makes a movable chunk the data of a record, and gives its old data to an owner. Sets old to the name of the old
 * data. Refusals: 10, 11, 13, 14, 15, 1, 2, 6, 7. */
uint32_t palmheap_attach_replacing(palmheap_store *store, uint32_t db, uint32_t index, uint32_t name, uint8_t owner,
    uint32_t *old);

/* Removes a record, and gives its data to an owner. Sets name to the name of the data. Refusals: 10, 11, 13, 14, 15,
 * 7. */
uint32_t palmheap_DmDetachRecord(palmheap_store *store, uint32_t db, uint32_t index, uint8_t owner, uint32_t *name);

/* Sets the attributes of a record, except the bits 0x80 and 0x20. Sets its ID too, if the low 24 bits of id are not
 * 0. Refusals: 10, 11, 13, 14, 19. */
uint32_t palmheap_DmSetRecordInfo(palmheap_store *store, uint32_t db, uint32_t index, uint8_t attributes, uint32_t
    id);

/* Sets index to the index of the record with this unique ID, deleted or not. Refusals: 10, 11, 20. */
uint32_t palmheap_DmFindRecordByID(const palmheap_store *store, uint32_t db, uint32_t id, uint32_t *index);

/* Sets count to the number of records of a category, 0 to 15. In this call and the next two 255 stands for all records
 * that are not deleted. Refusals: 10, 11, 18. */
uint32_t palmheap_DmNumRecordsInCategory(const palmheap_store *store, uint32_t db, uint8_t category, uint32_t *count);

/* Sets index to the index of the first record of a category at the index from or after it. Refusals: 10, 11, 18, 14. */
uint32_t palmheap_DmQueryNextInCategory(const palmheap_store *store, uint32_t db, uint32_t from, uint8_t category,
    uint32_t *index);

/* Sets count to the number of records of a category before an index. Refusals: 10, 11, 18, 14. */
uint32_t palmheap_DmPositionInCategory(const palmheap_store *store, uint32_t db, uint32_t index, uint8_t category,
    uint32_t *count);

/* Gives all records of the category from the category to. Marks them as dirty if dirty is true. Refusals: 10, 11,
 * 13, 18. */
uint32_t palmheap_DmMoveCategory(palmheap_store *store, uint32_t db, uint8_t to, uint8_t from, bool dirty);

/* Deletes all records of a category. Refusals: 10, 11, 13, 18, 3. */
uint32_t palmheap_DmDeleteCategory(palmheap_store *store, uint32_t db, uint8_t category);

/* -- Resources. They are counted from 0, and two may have the same type and ID. -- */

/* Makes a resource of size zeros, after all others. Sets index to its index, and name to the chunk of its data.
 * Refusals: 10, 12, 13, 17, 8. */
uint32_t palmheap_DmNewResource(palmheap_store *store, uint32_t db, uint32_t kind, uint16_t id, uint32_t size,
    uint32_t *index, uint32_t *name);

/* Makes a movable chunk the data of a new resource, after all others. Sets index to the index of the resource.
 * Refusals: 10, 12, 13, 1, 2, 6, 17, 8. */
uint32_t palmheap_DmAttachResource(palmheap_store *store, uint32_t db, uint32_t kind, uint16_t id, uint32_t name,
    uint32_t *index);

/* Removes a resource, and gives its data to an owner. Sets name to the name of the data. Refusals: 10, 12, 13, 14,
 * 7. */
uint32_t palmheap_DmDetachResource(palmheap_store *store, uint32_t db, uint32_t index, uint8_t owner, uint32_t *name);

/* Removes a resource, and frees its data. Refusals: 10, 12, 13, 14, 3. */
uint32_t palmheap_DmRemoveResource(palmheap_store *store, uint32_t db, uint32_t index);

/* Resizes the data of a resource to size bytes. Refusals: 10, 12, 13, 14, 27, 3, 8. */
uint32_t palmheap_DmResizeResource(palmheap_store *store, uint32_t db, uint32_t index, uint32_t size);

/* Reads the entry of a resource: its type, its ID, and the chunk of its data. Refusals: 10, 12, 14. */
uint32_t palmheap_DmResourceInfo(const palmheap_store *store, uint32_t db, uint32_t index,
    palmheap_resource_info *info);

/* Sets the type and the ID of a resource. Refusals: 10, 12, 13, 14. */
uint32_t palmheap_DmSetResourceInfo(palmheap_store *store, uint32_t db, uint32_t index, uint32_t kind, uint16_t id);

/* Sets index to the index of the first resource with this type and ID. Refusals: 10, 12, 23. */
uint32_t palmheap_DmFindResource(const palmheap_store *store, uint32_t db, uint32_t kind, uint16_t id, uint32_t *index);

/* Sets index to the index of the resource of a type that has nth others of the type before it. Refusals: 10, 12, 23. */
uint32_t palmheap_DmFindResourceType(const palmheap_store *store, uint32_t db, uint32_t kind, uint32_t nth,
    uint32_t *index);

/* Sets count to the number of resources. Refusals: 10, 12. */
uint32_t palmheap_DmNumResources(const palmheap_store *store, uint32_t db, uint32_t *count);

/* -- Bytes and files. Those with a len work like snprintf, as the functions on files do. -- */

/* Copies count bytes of a chunk, locked or not, from the offset at in the chunk, into a buffer. Sets len to their
 * number, also if the buffer is too short for them. Refusals: 1, 27, 9. */
uint32_t palmheap_read(const palmheap_store *store, uint32_t name, uint32_t at, uint32_t count, uint8_t *bytes,
    size_t bytes_len, size_t *len);

/* Makes the database of a file, after all others. Sets db to the database. Refusals: 25, 21, 17, 26, 8. */
uint32_t palmheap_import(palmheap_store *store, const uint8_t *file, size_t file_len, uint32_t *db);

/* Writes the file of a database into a buffer. Sets len to its size in bytes, also if the buffer is too short for
 * it. Refusals: 10, 27, 26. */
uint32_t palmheap_export(const palmheap_store *store, uint32_t db, uint8_t *file, size_t file_len, size_t *len);

/* -- Files as structures. These functions need no store. -- */

/* The entry of a record or a resource in a file, with the place of its data: from start up to end, in bytes from the
 * file's start, if has_data. A record has no type, so its kind is 0. A resource has no attributes, so they are 0. */
typedef struct palmheap_file_entry {
    size_t start;
    size_t end;
    uint32_t kind;
    uint32_t id;
    uint8_t attributes;
    bool has_data;
} palmheap_file_entry;

/* Reads the header of a file, PDB or PRC, the places of its AppInfo and SortInfo blocks, and its entries with the places
 * of their data. All places lie within the file. It copies no data. Sets count to the number of the entries: with
 * PALMHEAP_NO_ROOM it sets only that.
 * Answers: PALMHEAP_OK, PALMHEAP_NO_MEMORY, PALMHEAP_NO_ROOM, 60 to 65. */
palmheap_answer palmheap_pdb_read(const uint8_t *file, size_t file_len, palmheap_database_info *header,
    palmheap_block *app, palmheap_block *sort, palmheap_file_entry *entries, size_t entries_len, size_t *count);

/* Writes a file, PDB or PRC, into a buffer: the file with this header, these info blocks and these entries. They have
 * the form of palmheap_pdb_read, with places in bytes: the file that was read, or any bytes with the data. The kind of
 * a record, the attributes of a resource and entry_count are ignored. The bytes of header->name after name_length are
 * written as they are. filler comes between the entries and the first block: two zeros in most files. The blocks of the
 * ranks in order come first, and then the others by rank: 0 for AppInfo, 1 for SortInfo, 2 more than its index for the
 * data of an entry. Without order all are by rank.
 *
 * The file is read back as exactly these values. The values of a file make the same file again, byte for byte, if
 * header->name has the first 32 bytes of the file, filler and order are those of the file, and it has at most
 * 4,294,967,293 bytes. palmheap_canonical makes the canonical form.
 *
 * Sets count to the size of the file in bytes, also with PALMHEAP_NO_ROOM. PALMHEAP_NO_FILE means one of these:
 * - the name is empty, longer than 31 bytes or has a zero; or it is shorter, and the byte after it isn't zero;
 * - there are more than 65,535 entries, or one has too great an ID, or lacks data and isn't a deleted record;
 * - a place is outside of bytes;
 * - order has a rank twice, or one without a block; or a block without bytes comes directly before one of a lower rank.
 * Answers: PALMHEAP_OK, PALMHEAP_NO_MEMORY, PALMHEAP_NO_ROOM, PALMHEAP_TOO_LARGE, PALMHEAP_NO_FILE. */
palmheap_answer palmheap_pdb_write(const uint8_t *bytes, size_t bytes_len, const palmheap_database_info *header,
    const palmheap_block *app, const palmheap_block *sort, const palmheap_file_entry *entries, size_t entries_len,
    const uint8_t *filler, size_t filler_len, const uint32_t *order, size_t order_len, uint8_t *file, size_t file_len,
    size_t *count);

/* -- Loans --
 *
 * A loan lets the caller read and write the bytes of a chunk in place, also between other calls on the store. Any number
 * of chunks can be lent at a time, and they are put back in any order. While a chunk is lent, calls that read, write,
 * free, resize, unlock or export it are refused with 27 (one that is locked with 3, if a call looks for that first).
 * While any chunk is lent, palmheap_write_image and palmheap_close are refused with 27. */

/* The bytes of a lent chunk, their number, and the chunk, or NULL, 0 and 0. The caller sets a new one to {0}, and never
 * changes these fields. */
typedef struct palmheap_loan {
    uint8_t *bytes;
    size_t count;
    uint32_t name;
} palmheap_loan;

/* Takes the bytes of a locked or fixed chunk out of a store, if no chunk is lent. It copies and allocates nothing. Sets
 * loan to them: the caller may use loan->count bytes from loan->bytes on, until palmheap_put_back. A loan that was in
 * loan before is not put back. Refusals: 1, 4, 27. */
uint32_t palmheap_take_out(palmheap_store *store, uint32_t name, palmheap_loan *loan);

/* Takes the bytes of a locked or fixed chunk out, as palmheap_take_out does, but other chunks may be lent. Refusals: 1,
 * 4, 27. */
uint32_t palmheap_take_out_also(palmheap_store *store, uint32_t name, palmheap_loan *loan);

/* Puts the bytes of a loan back. loan must be one that palmheap_take_out or palmheap_take_out_also set for this store,
 * and not be put back yet. It is {0} then. */
void palmheap_put_back(palmheap_store *store, palmheap_loan *loan);

/* Reports whether a chunk is lent. If so, sets name to it. If several are, it is one of them. */
bool palmheap_lent(const palmheap_store *store, uint32_t *name);

/* Finds the lent chunk with the least place above after: sets name to the chunk, and place to its place. Reports whether
 * there is one: if not, it sets neither. With 0 for after it finds the first one, and with the last place found the next
 * one: so the caller goes over all lent chunks in order of their places, without an array. */
bool palmheap_loan_above(const palmheap_store *store, uint32_t after, uint32_t *name, uint32_t *place);

/* Sets the first of names to all lent chunks, in order of their places, and count to their number, also if there is no
 * room for them. Refusals: 26. PALMHEAP_CALL_NO_ROOM, and names is unchanged, if names_len is less than count. */
uint32_t palmheap_loans(const palmheap_store *store, uint32_t *names, size_t names_len, size_t *count);

/* -- Pointers --
 *
 * A pointer to the bytes of a movable chunk, as applications have it. The library keeps the loan, and counts how often
 * the pointer is out. So a caller needs no palmheap_loan, and functions that know nothing of each other can lock the
 * same chunk. While a pointer is out, the chunk is lent, as above, and its lock count is one higher: one for all of
 * them. The pointer stays valid until it was unlocked as often as it was locked, whatever other calls do: none of them
 * moves, frees or resizes the chunk. docs/C-LIBRARY.md lists how they answer meanwhile.
 * palmheap_lent, palmheap_loan_above and palmheap_loans find these chunks too. palmheap_put_back can't be called for
 * them: no palmheap_loan has them. */

/* Gives the pointer to the bytes of a chunk: sets bytes to them, and count to their number. If it is not out, this
 * locks the chunk, and lends it. If it is, this gives the same pointer. Refusals: 1, 6, 5, 27, 26. 5 if the chunk has
 * 14 locks, or the pointer is out 4,294,967,295 times. 27 if a palmheap_loan has the bytes. */
uint32_t palmheap_lock_pointer(palmheap_store *store, uint32_t name, uint8_t **bytes, size_t *count);

/* Unlocks the pointer to the bytes of a chunk once. The last time it puts the bytes back, and unlocks the chunk once.
 * Returns PALMHEAP_CALL_NO_POINTER, and changes nothing, if no pointer to the chunk is out. */
uint32_t palmheap_unlock_handle(palmheap_store *store, uint32_t name);

/* Sets start to the address at which the image of a store starts, until the store is closed. A pointer that is out is
 * start plus the place of its chunk. The bytes there belong to the store: do not read or write through start. */
void palmheap_start(const palmheap_store *store, uint8_t **start);

/* Unlocks a pointer once, as palmheap_unlock_handle unlocks its chunk: bytes is the pointer that palmheap_lock_pointer
 * gave. bytes may be any pointer: this returns PALMHEAP_CALL_NO_POINTER, and changes nothing, if it is not one that is
 * out. This function is in the header only: the library does not export it. */
static inline uint32_t palmheap_unlock_pointer(palmheap_store *store, const void *bytes) {
    const uint32_t longest = 16777208; /* the size of the longest image */
    uint8_t *start;
    uint32_t name;
    palmheap_start(store, &start);
    /* An address below start gives a place that is too large. */
    const uintptr_t place = (uintptr_t)bytes - (uintptr_t)start;
    if (place > longest || palmheap_MemPtrRecoverHandle(store, (uint32_t)place, &name) != 0)
        return PALMHEAP_CALL_NO_POINTER;
    return palmheap_unlock_handle(store, name);
}

#ifdef __cplusplus
}
#endif
#endif
