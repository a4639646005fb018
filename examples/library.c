/* Loads a store from standard input, or imports a stream, and writes a file of a revision: library REVISION PATH < INPUT */
#include <ginlarch.h>
#include <stdio.h>
#include <stdlib.h>
#include <string.h>

static int refuse(ginlarch_store *store) {
    uint8_t word[64];
    size_t length = ginlarch_why(store, word, sizeof word);
    fprintf(stderr, "refused: %.*s\n", (int)length, (char *)word);
    ginlarch_close(store);
    return 1;
}

int main(int argc, char **argv) {
    static uint8_t input[1 << 24], room[1 << 16], key[16];
    FILE *random = fopen("/dev/urandom", "rb");
    if (argc != 3 || !random || fread(key, 1, sizeof key, random) != sizeof key) return 2;
    fclose(random);
    size_t length = fread(input, 1, sizeof input, stdin);
    bool is_store = length >= 8 && memcmp(input, "gxstore ", 8) == 0;
    ginlarch_store store = GINLARCH_CLOSED_STORE;
    if (ginlarch_open(&store, key, sizeof key) != GINLARCH_DONE) return 2;
    uint32_t status = is_store ? ginlarch_load(&store, input, length) : ginlarch_import(&store, input, length, true, false);
    if (status != GINLARCH_DONE) return refuse(&store);
    if (ginlarch_file(&store, (uint8_t *)argv[1], strlen(argv[1]), (uint8_t *)argv[2], strlen(argv[2])) != GINLARCH_DONE)
        return refuse(&store);
    for (size_t at = 0, count; (count = ginlarch_read(&store, at, room, sizeof room)) != 0; at += count)
        fwrite(room, 1, count, stdout);
    ginlarch_close(&store);
    return 0;
}
