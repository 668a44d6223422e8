/* Part of tests/library.sh: threads make the calls that only ask, all on one store at once.
 *
 *   gcc library_threads.c libpalmheap.a -pthread -o threads && ./threads ROUNDS [race]
 *
 * Each thread makes each call that takes a const palmheap_store, and must get the answers that a single thread gets:
 * while no chunk is lent, and while the bytes of one are lent and written. valgrind --tool=helgrind must find no race.
 * With the word `race`, one thread makes calls that change the store, and helgrind must find a race. The status is 1 if
 * an answer differs.
 */
#include "palmheap.h"
#include <pthread.h>
#include <stdio.h>
#include <stdlib.h>
#include <string.h>

enum { SIZE = 4096, SLOTS = 40, THREADS = 4, KIND = 0x636f6465, CALLS = 29 };

/* What all calls return and write. */
struct answers {
    uint32_t results[CALLS], numbers[CALLS];
    palmheap_database_info database;
    palmheap_record_info record;
    palmheap_resource_info resource;
    uint8_t owner, locks, bytes[64], file[1024], image[SIZE], *start;
    size_t read, exported, written, lent;
};

static palmheap_store store;
static palmheap_loan loan;
static uint32_t db, resources, chunk, place, loose;
static int rounds;
static bool is_race;
static struct answers wanted;
static pthread_barrier_t begin;

/* A call is done, or the end of the program. */
static void done(const char *call, uint32_t result) {
    if (result == 0) return;
    fprintf(stderr, "library_threads: %s returned %u\n", call, (unsigned)result);
    exit(1);
}

/* Clears the bytes of a structure after its last field: they have no meaning. */
static void clear_end(void *it, size_t used, size_t size) { memset((uint8_t *)it + used, 0, size - used); }

/* Makes each call that only asks. The bytes that no call writes are 0. */
static void ask(const palmheap_store *it, struct answers *out) {
    memset(out, 0, sizeof *out);
    uint32_t *result = out->results, *number = out->numbers;
    *result++ = palmheap_MemHandleSize(it, chunk, number++);
    *result++ = palmheap_MemHandleOwner(it, chunk, &out->owner);
    *result++ = palmheap_MemHandleLockCount(it, chunk, &out->locks);
    *result++ = palmheap_MemPtrRecoverHandle(it, place, number++);
    *result++ = palmheap_MemHeapFreeBytes(it, number++);
    *result++ = palmheap_largest_stretch(it, number++);
    *result++ = palmheap_DmFindDatabase(it, (const uint8_t *)"Memo", 4, number++);
    *result++ = palmheap_DmGetDatabase(it, 1, number++);
    *result++ = palmheap_DmNumDatabases(it, number++);
    *result++ = palmheap_DmDatabaseInfo(it, db, &out->database);
    *result++ = palmheap_info_block(it, db, false, number++);
    *result++ = palmheap_DmQueryRecord(it, db, 1, number++);
    *result++ = palmheap_DmRecordInfo(it, db, 1, &out->record);
    *result++ = palmheap_DmNumRecords(it, db, number++);
    *result++ = palmheap_DmFindRecordByID(it, db, out->record.id, number++);
    *result++ = palmheap_DmNumRecordsInCategory(it, db, 0, number++);
    *result++ = palmheap_DmQueryNextInCategory(it, db, 1, 0, number++);
    *result++ = palmheap_DmPositionInCategory(it, db, 1, 0, number++);
    *result++ = palmheap_DmResourceInfo(it, resources, 0, &out->resource);
    *result++ = palmheap_DmFindResource(it, resources, KIND, 7, number++);
    *result++ = palmheap_DmFindResourceType(it, resources, KIND, 0, number++);
    *result++ = palmheap_DmNumResources(it, resources, number++);
    *result++ = palmheap_read(it, chunk, 0, 8, out->bytes, sizeof out->bytes, &out->read);
    *result++ = palmheap_export(it, db, out->file, sizeof out->file, &out->exported);
    *result++ = palmheap_write_image(it, out->image, sizeof out->image, &out->written);
    *result++ = palmheap_lent(it, number++);
    *result++ = palmheap_loan_above(it, 0, number, number + 1);
    *result++ = palmheap_loans(it, number + 2, 1, &out->lent);
    palmheap_start(it, &out->start);
    clear_end(&out->database, offsetof(palmheap_database_info, entry_count) + 2, sizeof out->database);
    clear_end(&out->record, offsetof(palmheap_record_info, has_data) + 1, sizeof out->record);
    clear_end(&out->resource, offsetof(palmheap_resource_info, id) + 2, sizeof out->resource);
}

static void make_store(void) {
    static uint8_t image[SIZE];
    uint32_t index, data;
    uint8_t locks;
    done("new", palmheap_new(image, sizeof image, SLOTS).kind);
    done("open", palmheap_open(image, sizeof image, &store).kind);
    done("create", palmheap_DmCreateDatabase(&store, (const uint8_t *)"Memo", 4, KIND, KIND, false, 1, &db));
    done("create", palmheap_DmCreateDatabase(&store, (const uint8_t *)"Rest", 4, KIND, KIND, true, 2, &resources));
    for (uint32_t size = 10; size < 14; size++)
        done("record", palmheap_DmNewRecord(&store, db, 99, size, &index, &data));
    done("resource", palmheap_DmNewResource(&store, resources, KIND, 7, 20, &index, &data));
    done("chunk", palmheap_MemHandleNew(&store, 30, 3, &data));
    done("block", palmheap_set_info_block(&store, db, false, data));
    done("chunk", palmheap_MemHandleNew(&store, 25, 3, &loose));
    done("chunk", palmheap_MemHandleNew(&store, 16, 5, &chunk));
    done("lock", palmheap_MemHandleLock(&store, chunk, &place, &locks));
}

static void *asks(void *unused) {
    struct answers *found = malloc(sizeof *found);
    if (found == NULL) exit(1);
    pthread_barrier_wait(&begin);
    for (int round = 0; round < rounds; round++) {
        ask(&store, found);
        if (!is_race && memcmp(found, &wanted, sizeof wanted) != 0) {
            fputs("library_threads: a thread got other answers\n", stderr);
            exit(1);
        }
    }
    free(found);
    return unused;
}

/* Changes one byte, which palmheap_write_image reads. */
static void *changes(void *unused) {
    pthread_barrier_wait(&begin);
    for (int round = 0; round < rounds; round++) palmheap_MemHandleSetOwner(&store, loose, round % 2 == 0 ? 4 : 3);
    return unused;
}

static void run_threads(void) {
    pthread_t threads[THREADS];
    ask(&store, &wanted);
    for (int i = 0; i < THREADS; i++) {
        if (pthread_create(&threads[i], NULL, is_race && i == 0 ? changes : asks, NULL) != 0) exit(1);
    }
    if (loan.count > 0) memset(loan.bytes, 'x', loan.count);
    for (int i = 0; i < THREADS; i++) pthread_join(threads[i], NULL);
}

int main(int argc, char **argv) {
    rounds = argc > 1 ? atoi(argv[1]) : 0;
    is_race = argc > 2;
    if (rounds < 1 || pthread_barrier_init(&begin, NULL, THREADS) != 0) {
        fputs("usage: library_threads ROUNDS [race]\n", stderr);
        return 1;
    }
    make_store();
    run_threads();
    /* But for palmheap_lent and palmheap_loan_above, which find nothing, each call is done. */
    for (int i = 0; !is_race && i < CALLS; i++) done("a call", wanted.results[i]);
    done("take_out", palmheap_take_out(&store, chunk, &loan));
    run_threads();
    palmheap_put_back(&store, &loan);
    done("close", palmheap_close(&store));
    pthread_barrier_destroy(&begin);
    return 0;
}
