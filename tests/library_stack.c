/* Calls each function of the library on a stack of the size that docs/C-LIBRARY.md gives for it, and prints how much of
 * it was used: first without a chain of tables in the image, then with one, then with one in a large image.
 *
 * tests/library.sh builds and runs it. The status is 1 if a stack is too small, or a call has another result than it
 * should; a line says which.
 */
#define _GNU_SOURCE
#include <palmheap.h>
#include <signal.h>
#include <stdio.h>
#include <stdlib.h>
#include <string.h>
#include <sys/mman.h>
#include <ucontext.h>
#include <unistd.h>

enum { SIZE = 65536, LARGE = 1 << 20, OUT = 1 << 20, PAINT = 0xA5, GUARD = 1 << 20 };

/* ---- a stack of a given size */

static const char *running;
static ucontext_t outside, inside;

static void wrong(const char *what, size_t found) {
    printf("%s: %s: %zu\n", running, what, found);
    exit(1);
}

static void want(const char *what, size_t found, size_t wanted) {
    if (found != wanted) wrong(what, found);
}

static void overflowed(int number) {
    static const char text[] = ": the stack is too small\n";
    (void)number;
    if (write(1, running, strlen(running)) < 0 || write(1, text, sizeof text - 1) < 0) _exit(2);
    _exit(1);
}

/* Calls a function on a stack of so many KiB, below which no memory can be used. Prints how many bytes it used. */
static void on_stack(const char *name, size_t kib, void function(void)) {
    size_t size = 1024 * kib, used = size;
    uint8_t *block = mmap(NULL, GUARD + size, PROT_NONE, MAP_PRIVATE | MAP_ANONYMOUS, -1, 0);
    uint8_t *stack = block + GUARD;
    running = name;
    if (block == MAP_FAILED || mprotect(stack, size, PROT_READ | PROT_WRITE) != 0) wrong("no stack", size);
    memset(stack, PAINT, size);
    getcontext(&inside);
    inside.uc_stack.ss_sp = stack;
    inside.uc_stack.ss_size = size;
    inside.uc_link = &outside;
    makecontext(&inside, function, 0);
    swapcontext(&outside, &inside);
    while (used > 0 && stack[size - used] == PAINT) used--;
    printf("%s: %zu of %zu bytes\n", name, used, size);
    munmap(block, GUARD + size);
}

/* ---- the calls */

static uint8_t image[LARGE + 8], other[LARGE + 8], file[OUT], out[OUT], text[OUT];
static size_t image_len, file_len, count, faults;
static palmheap_store store;

static void make(void) { want("new", palmheap_new(image, image_len, 100).kind, PALMHEAP_OK); }
static void make_chained(void) { want("new_chained", palmheap_new_chained(image, image_len, 100).kind, PALMHEAP_OK); }

static void check(void) {
    palmheap_counts counts;
    want("check", palmheap_check(image, image_len, &counts).kind, PALMHEAP_OK);
}

static void migrate(void) {
    want("migrate", palmheap_migrate(image, image_len, other, sizeof other, &count).kind, PALMHEAP_OK);
}

static void run(void) {
    static const char script[] = "create a \"A\" \"DATA\" \"memo\" 0 1\nrecnew a 0 9 h\nexport a\nimport b 1\n"
        "new h 9 1\nlock h\nwrite h 0 00\nresize h 30\nunlock h\nresize h 9000\ncompact\nmoreslots\nfreeowner 1\n";
    const palmheap_bytes given = {file, file_len};
    size_t end;
    palmheap_sizes sizes;
    want("run", palmheap_run(image, image_len, (const uint8_t *)script, sizeof script - 1, &given, 1, text, OUT, out,
        OUT, &end, 1, &sizes).kind, PALMHEAP_OK);
    want("exported files", sizes.files, 1);
}

static void open_store(void) { want("open", palmheap_open(image, image_len, &store).kind, PALMHEAP_OK); }
static void close_store(void) { want("close", palmheap_close(&store), 0); }

static void chunks(void) {
    uint32_t name, fixed, place, found;
    uint8_t byte, locks;
    want("MemHandleNew", palmheap_MemHandleNew(&store, 40, 1, &name), 0);
    want("MemPtrNew", palmheap_MemPtrNew(&store, 40, 2, &fixed), 0);
    want("MemHandleLock", palmheap_MemHandleLock(&store, name, &place, &locks), 0);
    want("MemPtrRecoverHandle", palmheap_MemPtrRecoverHandle(&store, place, &found), 0);
    want("DmWrite", palmheap_DmWrite(&store, name, 0, (const uint8_t *)"abc", 3), 0);
    want("DmSet", palmheap_DmSet(&store, fixed, 0, 40, 1), 0);
    want("DmStrCopy", palmheap_DmStrCopy(&store, name, 3, (const uint8_t *)"abc", 3), 0);
    want("read", palmheap_read(&store, name, 0, 40, out, OUT, &count), 0);
    want("MemHandleUnlock", palmheap_MemHandleUnlock(&store, name, &locks), 0);
    want("MemHandleResize", palmheap_MemHandleResize(&store, name, 4000), 0);
    want("MemHandleSize", palmheap_MemHandleSize(&store, fixed, &found), 0);
    want("MemHandleOwner", palmheap_MemHandleOwner(&store, fixed, &byte), 0);
    want("MemHandleLockCount", palmheap_MemHandleLockCount(&store, fixed, &byte), 0);
    want("MemHandleSetOwner", palmheap_MemHandleSetOwner(&store, name, 2), 0);
    want("MemChunkFree", palmheap_MemChunkFree(&store, fixed), 0);
    want("MemHeapCompact", palmheap_MemHeapCompact(&store, &found), 0);
    want("MemHeapFreeByOwnerID", palmheap_MemHeapFreeByOwnerID(&store, 2, &found), 0);
    want("MemHeapFreeBytes", palmheap_MemHeapFreeBytes(&store, &found), 0);
    want("largest_stretch", palmheap_largest_stretch(&store, &found), 0);
    bool chained = memcmp(image, "PHI2", 4) == 0;
    want("more_slots", palmheap_more_slots(&store), chained ? 0 : PALMHEAP_REFUSED_NOT_ENOUGH_SPACE);
}

static void loans(void) {
    palmheap_loan loan, also;
    uint32_t name, fixed, place;
    uint8_t *bytes;
    want("MemHandleNew", palmheap_MemHandleNew(&store, 40, 1, &name), 0);
    want("MemPtrNew", palmheap_MemPtrNew(&store, 40, 1, &fixed), 0);
    want("take_out", palmheap_take_out(&store, fixed, &loan), 0);
    want("lock_pointer", palmheap_lock_pointer(&store, name, &bytes, &count), 0);
    want("lent", palmheap_lent(&store, &place), true);
    want("loan_above", palmheap_loan_above(&store, 0, &place, &place), true);
    want("loans", palmheap_loans(&store, &place, 1, &count), PALMHEAP_CALL_NO_ROOM);
    want("unlock_pointer", palmheap_unlock_pointer(&store, bytes), 0);
    palmheap_put_back(&store, &loan);
    want("take_out_also", palmheap_take_out_also(&store, fixed, &also), 0);
    palmheap_put_back(&store, &also);
    palmheap_start(&store, &bytes);
    want("unlock_handle", palmheap_unlock_handle(&store, name), PALMHEAP_CALL_NO_POINTER);
    want("MemChunkFree", palmheap_MemChunkFree(&store, name), 0);
    want("MemChunkFree", palmheap_MemChunkFree(&store, fixed), 0);
}

static void databases(void) {
    uint32_t db, found, name;
    palmheap_database_info info;
    want("DmCreateDatabase", palmheap_DmCreateDatabase(&store, (const uint8_t *)"Memo", 4, 1, 2, false, 3, &db), 0);
    want("DmFindDatabase", palmheap_DmFindDatabase(&store, (const uint8_t *)"Memo", 4, &found), 0);
    want("DmGetDatabase", palmheap_DmGetDatabase(&store, 0, &found), 0);
    want("DmNumDatabases", palmheap_DmNumDatabases(&store, &found), 0);
    want("DmDatabaseInfo", palmheap_DmDatabaseInfo(&store, db, &info), 0);
    want("DmSetDatabaseInfo", palmheap_DmSetDatabaseInfo(&store, db, &info), 0);
    want("MemHandleNew", palmheap_MemHandleNew(&store, 40, 1, &name), 0);
    want("set_info_block", palmheap_set_info_block(&store, db, false, name), 0);
    want("info_block", palmheap_info_block(&store, db, false, &found), 0);
    want("take_info_block", palmheap_take_info_block(&store, db, false, 1, &found), 0);
    want("export", palmheap_export(&store, db, out, OUT, &count), 0);
    want("DmDeleteDatabase", palmheap_DmDeleteDatabase(&store, db), 0);
    want("import", palmheap_import(&store, out, count, &db), 0);
    want("DmDeleteDatabase", palmheap_DmDeleteDatabase(&store, db), 0);
    want("MemChunkFree", palmheap_MemChunkFree(&store, name), 0);
    want("write_image", palmheap_write_image(&store, out, OUT, &count), 0);
}

static void records(void) {
    uint32_t db, at, name, other_name, found;
    palmheap_record_info info;
    want("DmCreateDatabase", palmheap_DmCreateDatabase(&store, (const uint8_t *)"Memo", 4, 1, 2, false, 3, &db), 0);
    for (int i = 0; i < 4; i++) want("DmNewRecord", palmheap_DmNewRecord(&store, db, 0, 9, &at, &name), 0);
    want("DmReleaseRecord", palmheap_DmReleaseRecord(&store, db, 0, true), 0);
    want("DmGetRecord", palmheap_DmGetRecord(&store, db, 0, &name), 0);
    want("DmQueryRecord", palmheap_DmQueryRecord(&store, db, 0, &name), 0);
    want("DmRecordInfo", palmheap_DmRecordInfo(&store, db, 0, &info), 0);
    want("DmSetRecordInfo", palmheap_DmSetRecordInfo(&store, db, 0, 1, 1234), 0);
    want("DmFindRecordByID", palmheap_DmFindRecordByID(&store, db, 1234, &found), 0);
    want("DmResizeRecord", palmheap_DmResizeRecord(&store, db, 0, 3000), 0);
    want("DmMoveRecord", palmheap_DmMoveRecord(&store, db, 0, 2), 0);
    want("DmNumRecords", palmheap_DmNumRecords(&store, db, &found), 0);
    want("DmNumRecordsInCategory", palmheap_DmNumRecordsInCategory(&store, db, 0, &found), 0);
    want("DmQueryNextInCategory", palmheap_DmQueryNextInCategory(&store, db, 0, 0, &found), 0);
    want("DmPositionInCategory", palmheap_DmPositionInCategory(&store, db, 0, 0, &found), 0);
    want("DmMoveCategory", palmheap_DmMoveCategory(&store, db, 2, 0, true), 0);
    want("DmDeleteCategory", palmheap_DmDeleteCategory(&store, db, 3), 0);
    want("DmDetachRecord", palmheap_DmDetachRecord(&store, db, 0, 1, &name), 0);
    want("DmAttachRecord", palmheap_DmAttachRecord(&store, db, 0, name, &at), 0);
    want("MemHandleNew", palmheap_MemHandleNew(&store, 40, 1, &other_name), 0);
    want("attach_replacing", palmheap_attach_replacing(&store, db, 0, other_name, 1, &found), 0);
    want("export", palmheap_export(&store, db, file, OUT, &file_len), 0);
    want("DmArchiveRecord", palmheap_DmArchiveRecord(&store, db, 0), 0);
    want("DmDeleteRecord", palmheap_DmDeleteRecord(&store, db, 1), 0);
    want("DmRemoveRecord", palmheap_DmRemoveRecord(&store, db, 2), 0);
    want("DmDeleteDatabase", palmheap_DmDeleteDatabase(&store, db), 0);
}

static void resources(void) {
    uint32_t db, at, name, found;
    palmheap_resource_info info;
    want("DmCreateDatabase", palmheap_DmCreateDatabase(&store, (const uint8_t *)"Code", 4, 1, 2, true, 3, &db), 0);
    for (int i = 0; i < 3; i++) want("DmNewResource", palmheap_DmNewResource(&store, db, 7, i, 9, &at, &name), 0);
    want("DmResizeResource", palmheap_DmResizeResource(&store, db, 0, 3000), 0);
    want("DmResourceInfo", palmheap_DmResourceInfo(&store, db, 0, &info), 0);
    want("DmSetResourceInfo", palmheap_DmSetResourceInfo(&store, db, 0, 7, 9), 0);
    want("DmFindResource", palmheap_DmFindResource(&store, db, 7, 9, &found), 0);
    want("DmFindResourceType", palmheap_DmFindResourceType(&store, db, 7, 1, &found), 0);
    want("DmNumResources", palmheap_DmNumResources(&store, db, &found), 0);
    want("DmDetachResource", palmheap_DmDetachResource(&store, db, 0, 1, &name), 0);
    want("DmAttachResource", palmheap_DmAttachResource(&store, db, 7, 5, name, &at), 0);
    want("DmRemoveResource", palmheap_DmRemoveResource(&store, db, 0), 0);
    want("DmDeleteDatabase", palmheap_DmDeleteDatabase(&store, db), 0);
}

static void files(void) {
    palmheap_block blocks[8], app, sort;
    palmheap_file_entry entries[8];
    palmheap_database_info header;
    palmheap_needs needs;
    palmheap_damage damage;
    want("pdb_check", palmheap_pdb_check(file, file_len).kind, PALMHEAP_OK);
    want("pdb_damage", palmheap_pdb_damage(file, 78, &damage).kind, PALMHEAP_TRUNCATED);
    want("pdb_blocks", palmheap_pdb_blocks(file, file_len, blocks, 8, &count).kind, PALMHEAP_OK);
    want("pdb_read", palmheap_pdb_read(file, file_len, &header, &app, &sort, entries, 8, &count).kind, PALMHEAP_OK);
    want("pdb_write", palmheap_pdb_write(file, file_len, &header, &app, &sort, entries, count, NULL, 0, NULL, 0, out, OUT,
        &count).kind, PALMHEAP_OK);
    want("pdb_list", palmheap_pdb_list(file, file_len, text, OUT, &count).kind, PALMHEAP_OK);
    want("pdb_json", palmheap_pdb_json(file, file_len, text, OUT, &count).kind, PALMHEAP_OK);
    want("pdb_json of a fault", palmheap_pdb_json(file, 78, text, OUT, &count).kind, PALMHEAP_OK);
    want("pdb_needs", palmheap_pdb_needs(file, file_len, &needs).kind, PALMHEAP_OK);
    want("canonical", palmheap_canonical(file, file_len, out, OUT, &count).kind, PALMHEAP_OK);
    want("salvage", palmheap_salvage(file, 90, false, out, OUT, &count, &faults).kind, PALMHEAP_OK);
    want("salvage_lines", palmheap_salvage_lines(file, 90, text, OUT, &count).kind, PALMHEAP_OK);
}

static void words(void) {
    want("kind_name", palmheap_kind_name(PALMHEAP_BAD_CHUNK, out, OUT, &count), 0);
    want("refusal_name", palmheap_refusal_name(PALMHEAP_REFUSED_LENT, out, OUT, &count), 0);
    want("explain", palmheap_explain((const uint8_t *)"BadSize", 7, text, OUT, &count), 0);
    want("version", palmheap_version(), PALMHEAP_VERSION_NUMBER);
}

static void pictures(void) {
    want("map", palmheap_map(image, image_len, text, OUT, &count).kind, PALMHEAP_OK);
    want("map_svg", palmheap_map_svg(image, image_len, text, OUT, &count).kind, PALMHEAP_OK);
}

/* (the script of `run` left two databases) */
static void lists(void) {
    want("databases", palmheap_databases(image, image_len, text, OUT, &count).kind, PALMHEAP_OK);
    want("databases, count", memcmp(text, "ok 2\n", 5), 0);
    want("databases_json", palmheap_databases_json(image, image_len, text, OUT, &count).kind, PALMHEAP_OK);
}

/* Makes all calls on an image, which needs so many KiB to be drawn. */
static void calls(size_t drawn) {
    on_stack("open", 192, open_store);
    on_stack("chunks", 64, chunks);
    on_stack("loans", 64, loans);
    on_stack("databases", 64, databases);
    on_stack("records", 64, records);
    on_stack("resources", 64, resources);
    on_stack("close", 64, close_store);
    on_stack("check", 128, check);
    on_stack("migrate", 128, migrate);
    on_stack("run", 192, run);
    on_stack("pictures", drawn, pictures);
    on_stack("lists", 192, lists);
}

int main(void) {
    stack_t spare = {.ss_sp = malloc(65536), .ss_size = 65536};
    struct sigaction action = {.sa_handler = overflowed, .sa_flags = SA_ONSTACK};
    sigaltstack(&spare, NULL);
    sigaction(SIGSEGV, &action, NULL);
    image_len = SIZE;
    on_stack("new", 64, make);
    calls(128);
    on_stack("new_chained", 64, make_chained);
    calls(640);
    image_len = LARGE;
    on_stack("new_chained", 64, make_chained);
    calls(640);
    on_stack("files", 64, files);
    on_stack("words", 64, words);
    return 0;
}
