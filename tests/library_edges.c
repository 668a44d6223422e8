/* Calls the library with NULL for each pointer that has a length, where the length is 0, and looks where the blocks of a
 * file stand of which two are equal and one is empty.
 *
 * tests/library.sh builds and runs it, also with the sanitizers. The status is 1 if a call has another result than it
 * should; a line says which.
 */
#include "palmheap.h"
#include <stdio.h>
#include <stdlib.h>
#include <string.h>

enum { SIZE = 1024, SLOTS = 16 };

static void want(const char *what, size_t found, size_t wanted) {
    if (found == wanted) return;
    printf("%s: %zu and not %zu\n", what, found, wanted);
    exit(1);
}

/* No database can be read from no bytes. */
static void is_file_fault(const char *what, palmheap_answer answer) {
    want(what, answer.kind >= 60 && answer.kind <= 65, true);
}

static void without_store(uint8_t *image) {
    palmheap_counts counts;
    palmheap_sizes sizes;
    palmheap_needs needs;
    size_t count = 0, faults;
    want("kind_name", palmheap_kind_name(PALMHEAP_BAD_CHUNK, NULL, 0, &count), PALMHEAP_CALL_NO_ROOM);
    want("kind_name, count", count, strlen("BadChunk"));
    want("refusal_name", palmheap_refusal_name(PALMHEAP_REFUSED_LENT, NULL, 0, &count), PALMHEAP_CALL_NO_ROOM);
    want("refusal_name, count", count, strlen("Lent"));
    is_file_fault("pdb_check", palmheap_pdb_check(NULL, 0));
    is_file_fault("pdb_blocks", palmheap_pdb_blocks(NULL, 0, NULL, 0, &count));
    is_file_fault("canonical", palmheap_canonical(NULL, 0, NULL, 0, &count));
    is_file_fault("pdb_list", palmheap_pdb_list(NULL, 0, NULL, 0, &count));
    want("pdb_json", palmheap_pdb_json(NULL, 0, NULL, 0, &count).kind, PALMHEAP_NO_ROOM);
    want("pdb_json, count", count, strlen("{\"fault\":\"Truncated\",\"numbers\":[],\"at\":0}\n"));
    is_file_fault("pdb_needs", palmheap_pdb_needs(NULL, 0, &needs));
    is_file_fault("salvage", palmheap_salvage(NULL, 0, true, NULL, 0, &count, &faults));
    is_file_fault("salvage_lines", palmheap_salvage_lines(NULL, 0, NULL, 0, &count));
    palmheap_database_info header = {.name = "A", .name_length = 1};
    palmheap_block block = {0, 0, false};
    palmheap_answer written =
        palmheap_pdb_write(NULL, 0, &header, &block, &block, NULL, 0, NULL, 0, NULL, 0, NULL, 0, &count);
    want("pdb_write", written.kind, PALMHEAP_NO_ROOM);
    want("pdb_write, count", count, 78);
    want("new", palmheap_new(NULL, 0, 1).kind, PALMHEAP_BAD_SIZE);
    want("check", palmheap_check(NULL, 0, &counts).kind, PALMHEAP_TOO_SHORT);
    want("migrate", palmheap_migrate(NULL, 0, NULL, 0, &count).kind, PALMHEAP_TOO_SHORT);
    count = 99;
    want("map", palmheap_map(NULL, 0, NULL, 0, &count).kind, PALMHEAP_TOO_SHORT);
    want("map_svg", palmheap_map_svg(NULL, 0, NULL, 0, &count).kind, PALMHEAP_TOO_SHORT);
    want("databases", palmheap_databases(NULL, 0, NULL, 0, &count).kind, PALMHEAP_TOO_SHORT);
    want("databases_json", palmheap_databases_json(NULL, 0, NULL, 0, &count).kind, PALMHEAP_TOO_SHORT);
    want("no map, count", count, 99);
    want("databases of an image", palmheap_databases(image, SIZE, NULL, 0, &count).kind, PALMHEAP_NO_ROOM);
    want("databases, count", count, strlen("ok 0\n"));
    want("databases_json of an image", palmheap_databases_json(image, SIZE, NULL, 0, &count).kind, PALMHEAP_NO_ROOM);
    want("databases_json, count", count, strlen("{\"databases\":[]}\n"));
    want("run", palmheap_run(NULL, 0, NULL, 0, NULL, 0, NULL, 0, NULL, 0, NULL, 0, &sizes).kind, PALMHEAP_TOO_SHORT);
    want("empty script", palmheap_run(image, SIZE, NULL, 0, NULL, 0, NULL, 0, NULL, 0, NULL, 0, &sizes).kind, PALMHEAP_OK);
    want("empty script, printed", sizes.printed + sizes.exported + sizes.files, 0);
    want("no script", palmheap_run(image, SIZE, (const uint8_t *)"nothing\n", 8, NULL, 0, NULL, 0, NULL, 0, NULL, 0,
        &sizes).kind, PALMHEAP_UNKNOWN_COMMAND);
    /* A script whose one file has no bytes: the import is refused, and its reply has no room. */
    palmheap_bytes none = {NULL, 0};
    const uint8_t *script = (const uint8_t *)"import d 1\n";
    want("file of no bytes", palmheap_run(image, SIZE, script, 11, &none, 1, NULL, 0, NULL, 0, NULL, 0, &sizes).kind,
        PALMHEAP_NO_ROOM);
}

static void with_store(const uint8_t *image) {
    palmheap_store store = {0};
    uint32_t db, chunk, place;
    uint8_t locks;
    size_t len;
    want("open", palmheap_open(NULL, 0, &store).kind, PALMHEAP_TOO_SHORT);
    want("close of none", palmheap_close(&store), 0);
    want("open the image", palmheap_open(image, SIZE, &store).kind, PALMHEAP_OK);
    want("create", palmheap_DmCreateDatabase(&store, NULL, 0, 1, 1, false, 0, &db), PALMHEAP_REFUSED_INVALID_NAME);
    want("find", palmheap_DmFindDatabase(&store, NULL, 0, &db), PALMHEAP_REFUSED_NO_SUCH_DATABASE);
    want("import", palmheap_import(&store, NULL, 0, &db), PALMHEAP_REFUSED_BAD_FILE);
    want("handle", palmheap_MemHandleNew(&store, 4, 1, &chunk), 0);
    want("lock", palmheap_MemHandleLock(&store, chunk, &place, &locks), 0);
    want("write", palmheap_DmWrite(&store, chunk, 4, NULL, 0), 0);
    want("strcopy", palmheap_DmStrCopy(&store, chunk, 3, NULL, 0), 0);
    want("read nothing", palmheap_read(&store, chunk, 4, 0, NULL, 0, &len), 0);
    want("read nothing, len", len, 0);
    want("read", palmheap_read(&store, chunk, 0, 4, NULL, 0, &len), PALMHEAP_CALL_NO_ROOM);
    want("read, len", len, 4);
    want("create", palmheap_DmCreateDatabase(&store, (const uint8_t *)"A", 1, 1, 1, false, 0, &db), 0);
    want("export", palmheap_export(&store, db, NULL, 0, &len), PALMHEAP_CALL_NO_ROOM);
    want("write_image", palmheap_write_image(&store, NULL, 0, &len), PALMHEAP_CALL_NO_ROOM);
    want("write_image, len", len, SIZE);
    want("close", palmheap_close(&store), 0);
}

/* Three records: the data of the first is empty and begins where that of the last does, and that of the second has the
 * same bytes as that of the last. */
static void equal_blocks(void) {
    static const size_t starts[5] = {0, 0, 108, 104, 108}, ends[5] = {0, 0, 108, 108, 112};
    uint8_t file[112] = "Order";
    palmheap_block blocks[5];
    size_t count;
    memcpy(file + 60, "DATATest", 8);
    file[77] = 3;
    file[81] = 108;
    file[89] = 104;
    file[93] = 5;
    file[97] = 108;
    file[101] = 2;
    memset(file + 104, 'A', 8);
    want("blocks without room", palmheap_pdb_blocks(file, sizeof file, NULL, 0, &count).kind, PALMHEAP_NO_ROOM);
    want("blocks", palmheap_pdb_blocks(file, sizeof file, blocks, 5, &count).kind, PALMHEAP_OK);
    want("count of blocks", count, 5);
    for (size_t i = 0; i < 5; i++) {
        want("start of a block", blocks[i].start, starts[i]);
        want("end of a block", blocks[i].end, ends[i]);
        want("block is there", blocks[i].is_there, i >= 2);
    }
}

/* An image with an even number of slots grows by 8 bytes. One with an odd number doesn't, also if it is the largest. */
static void migrates(const uint8_t *image) {
    static uint8_t largest[16777208], chained[16777208];
    size_t count = 0;
    want("migrate without room", palmheap_migrate(image, SIZE, NULL, 0, &count).kind, PALMHEAP_NO_ROOM);
    want("migrate, count", count, SIZE + 8);
    want("migrate", palmheap_migrate(image, SIZE, chained, sizeof chained, &count).kind, PALMHEAP_OK);
    want("magic", memcmp(chained, "PHI2", 4), 0);
    want("an even number of slots", palmheap_new(largest, sizeof largest, SLOTS).kind, PALMHEAP_OK);
    want("migrate the largest", palmheap_migrate(largest, sizeof largest, chained, sizeof chained, &count).kind,
        PALMHEAP_TOO_LARGE_TO_MIGRATE);
    want("migrate, count left", count, SIZE + 8);
    want("an odd number of slots", palmheap_new(largest, sizeof largest, SLOTS + 1).kind, PALMHEAP_OK);
    want("migrate an odd one", palmheap_migrate(largest, sizeof largest, chained, sizeof chained, &count).kind,
        PALMHEAP_OK);
    want("migrate, count", count, sizeof largest);
}

int main(void) {
    static uint8_t image[SIZE];
    want("new image", palmheap_new(image, SIZE, SLOTS).kind, PALMHEAP_OK);
    without_store(image);
    with_store(image);
    migrates(image);
    equal_blocks();
    return 0;
}
