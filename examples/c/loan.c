/* Fills two chunks through pointers while other calls run on the store:
 *
 *   gcc loan.c $(pkg-config --cflags --libs palmheap) -o loan && ./loan
 *
 * To be copied. The status is 3 if a call has another result than it should.
 */
#include "palmheap.h"
#include <stdio.h>
#include <stdlib.h>
#include <string.h>

static void want(const char *what, uint32_t result, uint32_t wanted) {
    printf("%s: %u\n", what, result);
    if (result != wanted) exit(3);
}

int main(void) {
    static uint8_t image[65536], copy[65536];
    static const uint8_t text[16] = "locked and lent";
    palmheap_store store;
    palmheap_loan loan = {0}, second = {0};
    uint32_t name, other, lent = 0, place, loans = 0;
    uint8_t locks, read[16];
    size_t count;
    want("new", palmheap_new(image, sizeof image, 100).kind, PALMHEAP_OK);
    want("open", palmheap_open(image, sizeof image, &store).kind, PALMHEAP_OK);
    want("make", palmheap_MemHandleNew(&store, sizeof text, 1, &name), 0);
    want("take out unlocked", palmheap_take_out(&store, name, &loan), PALMHEAP_REFUSED_CHUNK_NOT_LOCKED);
    want("lock", palmheap_MemHandleLock(&store, name, &place, &locks), 0);

    want("take out", palmheap_take_out(&store, name, &loan), 0);
    want("bytes", (uint32_t)loan.count, sizeof text);
    memcpy(loan.bytes, text, 8);
    want("make another", palmheap_MemPtrNew(&store, 1000, 1, &other), 0);
    want("fill it", palmheap_DmSet(&store, other, 0, 1000, 255), 0);
    memcpy(loan.bytes + 8, text + 8, 8);
    want("is lent", palmheap_lent(&store, &lent) && lent == name, 1);
    want("take out another", palmheap_take_out(&store, other, &second), PALMHEAP_REFUSED_LENT);
    want("take out twice", palmheap_take_out_also(&store, name, &second), PALMHEAP_REFUSED_LENT);
    want("take out also", palmheap_take_out_also(&store, other, &second), 0);
    want("bytes", (uint32_t)second.count, 1000);
    want("first byte", second.bytes[0], 255);
    second.bytes[999] = 1;
    for (place = 0; palmheap_loan_above(&store, place, &lent, &place);) loans++;
    want("loans", loans, 2);
    want("read", palmheap_read(&store, name, 0, sizeof read, read, sizeof read, &count), PALMHEAP_REFUSED_LENT);
    want("write image", palmheap_write_image(&store, copy, sizeof copy, &count), PALMHEAP_REFUSED_LENT);
    want("close", palmheap_close(&store), PALMHEAP_REFUSED_LENT);

    palmheap_put_back(&store, &loan);
    want("holds bytes", loan.bytes != NULL || loan.count != 0 || loan.name != 0, 0);
    want("the other is lent", palmheap_lent(&store, &lent) && lent == other, 1);
    want("read it", palmheap_read(&store, other, 0, 1, read, sizeof read, &count), PALMHEAP_REFUSED_LENT);
    want("close", palmheap_close(&store), PALMHEAP_REFUSED_LENT);
    palmheap_put_back(&store, &second);
    want("is lent", palmheap_lent(&store, &lent), 0);
    want("read the last byte", palmheap_read(&store, other, 999, 1, read, sizeof read, &count), 0);
    want("last byte", read[0], 1);
    want("read", palmheap_read(&store, name, 0, sizeof read, read, sizeof read, &count), 0);
    want("differs", memcmp(read, text, sizeof text) != 0, 0);
    want("write image", palmheap_write_image(&store, copy, sizeof copy, &count), 0);
    want("close", palmheap_close(&store), 0);
    return 0;
}
