/* Checks and lists a PDB or PRC file, writes its canonical form, and makes an image, runs a script on it and checks it:
 *
 *   gcc demo.c $(pkg-config --cflags --libs palmheap) -o demo && ./demo IN.pdb OUT.pdb
 *
 * To be copied. The status is 1 if the file has a fault, 2 without two words, and 3 if a file or memory fails.
 */
#include "palmheap.h"
#include <stdio.h>
#include <stdlib.h>

/* A file, or memory, or the end of the program. */
static uint8_t *read_all(const char *path, size_t *len) {
    FILE *file = fopen(path, "rb");
    if (!file || fseek(file, 0, SEEK_END) != 0) { perror(path); exit(3); }
    long end = ftell(file);
    if (end < 0) { perror(path); exit(3); }
    *len = (size_t)end;
    rewind(file);
    uint8_t *bytes = malloc(*len + 1);
    if (!bytes || fread(bytes, 1, *len, file) != *len) { perror(path); exit(3); }
    fclose(file);
    return bytes;
}

typedef palmheap_answer makes_bytes(const uint8_t *, size_t, uint8_t *, size_t, size_t *);

/* Calls a function once for the length of what it makes, and once with a buffer of that length. */
static uint8_t *made_by(makes_bytes *function, const uint8_t *file, size_t len, size_t *count) {
    uint8_t none[1];
    palmheap_answer answer = function(file, len, none, 0, count);
    if (answer.kind == PALMHEAP_OK) *count = 0;
    else if (answer.kind != PALMHEAP_NO_ROOM) { fprintf(stderr, "kind %u\n", answer.kind); exit(3); }
    uint8_t *bytes = malloc(*count + 1);
    if (!bytes || function(file, len, bytes, *count, count).kind != PALMHEAP_OK) exit(3);
    return bytes;
}

/* Shows where the blocks of a file stand. A file has two blocks at least, so the first call has too little room. */
static void show_blocks(const uint8_t *file, size_t len) {
    size_t count;
    palmheap_answer answer = palmheap_pdb_blocks(file, len, NULL, 0, &count);
    if (answer.kind != PALMHEAP_NO_ROOM) { fprintf(stderr, "kind %u\n", answer.kind); exit(3); }
    palmheap_block *blocks = malloc(count * sizeof *blocks);
    if (!blocks || palmheap_pdb_blocks(file, len, blocks, count, &count).kind != PALMHEAP_OK) exit(3);
    printf("%zu blocks\n", count);
    for (size_t i = 0; i < count; i++)
        if (blocks[i].is_there) printf("block %zu: %zu to %zu\n", i, blocks[i].start, blocks[i].end);
    free(blocks);
}

/* Runs a script that imports a file and exports it again. The first call is for the sizes of its results. */
static void show_run(uint8_t *image, size_t image_len, palmheap_bytes file) {
    static const uint8_t script[] = "import it 1\nexport it\n";
    size_t len = sizeof script - 1, ends[1];
    palmheap_sizes sizes;
    palmheap_answer answer = palmheap_run(image, image_len, script, len, &file, 1, NULL, 0, NULL, 0, NULL, 0, &sizes);
    if (answer.kind != PALMHEAP_NO_ROOM) { fprintf(stderr, "kind %u\n", answer.kind); exit(3); }
    uint8_t *printed = malloc(sizes.printed), *exported = malloc(sizes.exported + 1);
    if (!printed || !exported) exit(3);
    answer = palmheap_run(image, image_len, script, len, &file, 1, printed, sizes.printed, exported, sizes.exported,
        ends, 1, &sizes);
    if (answer.kind != PALMHEAP_OK) exit(3);
    fwrite(printed, 1, sizes.printed, stdout);
    printf("%zu file of %zu bytes\n", sizes.files, sizes.exported);
    free(printed);
    free(exported);
}

static void show_image(palmheap_bytes file) {
    static uint8_t image[65536];
    palmheap_counts counts;
    if (palmheap_new(image, sizeof image, 100).kind != PALMHEAP_OK) exit(3);
    show_run(image, sizeof image, file);
    if (palmheap_check(image, sizeof image, &counts).kind != PALMHEAP_OK) exit(3);
    printf("image of %u bytes, %u databases, %u free\n", counts.size, counts.databases, counts.free);
    palmheap_answer answer = palmheap_check(image, 128, &counts);
    printf("its first 128 bytes: kind %u at %u\n", answer.kind, answer.at);
}

int main(int argc, char **argv) {
    if (argc != 3) { fprintf(stderr, "usage: demo IN OUT\n"); return 2; }
    size_t len, count;
    uint8_t *file = read_all(argv[1], &len);
    palmheap_answer answer = palmheap_pdb_check(file, len);
    if (answer.kind != PALMHEAP_OK) {
        printf("bad: kind %u at %u\n", answer.kind, answer.at);
        free(file);
        return 1;
    }
    uint8_t *text = made_by(palmheap_pdb_list, file, len, &count);
    fwrite(text, 1, count, stdout);
    free(text);
    show_blocks(file, len);
    uint8_t *bytes = made_by(palmheap_canonical, file, len, &count);
    FILE *out = fopen(argv[2], "wb");
    if (!out || fwrite(bytes, 1, count, out) != count || fclose(out) != 0) { perror(argv[2]); return 3; }
    free(bytes);
    show_image((palmheap_bytes){file, len});
    free(file);
    return 0;
}
