/* Calls of the library at random, with random bytes: fuzz SEED CALLS. It ends with 0 where no call does what the header doesn't say. */
#include <ginlarch.h>
#include <stdio.h>
#include <stdlib.h>
#include <string.h>

enum { HANDLES = 3, MOST = 2048 };

/* as `gx init --growing` makes it */
#define EMPTY_GROWING "gxstore 3\na\n00000000000000000262 00000000000000000244 adb75895df009d6af652e3e2686b8d561b10c7e4b0c7c84e20c13de012fb0597\n" \
    "00000000000000000000 00000000000000000000 0000000000000000000000000000000000000000000000000000000000000000\n" \
    "objects 0\nrows 0\n\nruns 0\nrefs 0\nend\n"

/* as `git cat-file --batch` prints it */
#define BLOB "587be6b4c3f93f93c489c0111bba5596147a26cb blob 2\nx\n\n"

static const char *const WORDS[] = {
    "main", "v1", "refs/heads/main", "main^", "main~2", "main:a", "main:", "^main", "main..v1", "...", "@", "main^{tree}", "", "a/../b", "a",
    "blob\nmark :1\ndata 1\nx\n", "feature done\n", "done\n", "checkpoint\n", "progress hello\n", "reset refs/heads/b\nfrom refs/heads/main\n\n",
    "commit refs/heads/main\ncommitter A <a@x> 1 +0000\ndata 2\nv1\nM 100644 inline a\ndata 1\nx\n",
    "tag v1\nfrom refs/heads/main\ntagger A <a@x> 1 +0000\ndata 1\nt\n", "gxstore 2\nobjects 0\nrefs 0\nend\n", "gxstore 2\nobjects 1\nblob 0 ",
    EMPTY_GROWING, "gxstore 3\na\n", BLOB, "0000000000000000000000000000000000000000 refs/tags/v1\n",
};

static uint64_t state;

static uint32_t next(uint32_t below) {
    state = state * 6364136223846793005u + 1442695040888963407u;
    return (uint32_t)(state >> 33) % below;
}

/* bytes on the heap, in a block of exactly their length, so that a read past it is seen */
static uint8_t *text(size_t *length) {
    static uint8_t made[MOST];
    size_t count = 0;
    for (uint32_t parts = next(4); parts > 0; parts--) {
        if (next(3) == 0) {
            for (uint32_t bytes = next(40); bytes > 0 && count < MOST; bytes--) made[count++] = (uint8_t)next(256);
        } else {
            const char *word = WORDS[next(sizeof WORDS / sizeof *WORDS)];
            size_t size = strlen(word);
            if (count + size <= MOST) memcpy(made + count, word, size), count += size;
        }
    }
    uint8_t *block = malloc(count ? count : 1);
    memcpy(block, made, count);
    *length = count;
    return block;
}

static void expect(bool holds, const char *what) {
    if (!holds) {
        fprintf(stderr, "fuzz: %s\n", what);
        exit(1);
    }
}

static uint32_t ask(ginlarch_store *store, uint32_t call, const uint8_t *a, size_t n, const uint8_t *b, size_t m) {
    switch (call) {
    case 0: return ginlarch_load(store, a, n);
    case 1: return ginlarch_text(store);
    case 2: case 3: case 4: return ginlarch_import(store, a, n, next(2), next(2));
    case 5: return ginlarch_refs(store);
    case 6: return ginlarch_file(store, a, n, b, m);
    case 7: return ginlarch_object(store, a, n);
    case 8: return ginlarch_name(store, a, n);
    case 9: case 10: return ginlarch_word(store, a, n);
    case 11: return ginlarch_walk(store);
    case 12: return ginlarch_archive(store, a, n, b, m);
    case 13: return ginlarch_export(store);
    case 14: return ginlarch_changes(store, next(2));
    case 15: return ginlarch_ls(store, a, n);
    case 16: return ginlarch_commit(store, a, n, next(8));
    case 17: return ginlarch_growing_text(store);
    case 18: return ginlarch_tag(store, a, n, next(5));
    case 19: return ginlarch_import_objects(store, a, n, next(2));
    case 20: return ginlarch_bundle(store, a, n);
    default: return ginlarch_range(store, next(2));
    }
}

/* what is answered goes into a block of its own length, and the word of a refusal is a word */
static void look(ginlarch_store *store, uint32_t status, bool was_open) {
    uint8_t word[64];
    size_t length = ginlarch_length(store), letters = ginlarch_why(store, word, sizeof word);
    uint8_t *room = malloc(length + 1);
    expect(ginlarch_read(store, 0, room, length) == length, "an answer has another length");
    expect(ginlarch_read(store, length, room, 1) == 0, "an answer goes on behind its end");
    free(room);
    expect(status == (was_open ? (letters ? GINLARCH_REFUSED : GINLARCH_DONE) : GINLARCH_CLOSED), "a status is another");
    expect(letters < sizeof word, "a word is long");
    (void)ginlarch_number(store), (void)ginlarch_count(store);
}

int main(int argc, char **argv) {
    if (argc != 3) return 2;
    state = strtoull(argv[1], NULL, 10) * 2 + 1;
    ginlarch_store stores[HANDLES] = {GINLARCH_CLOSED_STORE, GINLARCH_CLOSED_STORE, GINLARCH_CLOSED_STORE};
    for (unsigned long calls = strtoul(argv[2], NULL, 10); calls > 0; calls--) {
        ginlarch_store *store = &stores[next(HANDLES)];
        bool was_open = store->is_open;
        size_t n, m;
        uint8_t *a = text(&n), *b = text(&m);
        switch (next(20)) {
        case 0:
            ginlarch_close(store);
            expect(!store->is_open, "a closed handle is open");
            break;
        case 1: case 2: case 3:
            expect(ginlarch_open(store, a, n) == (was_open ? GINLARCH_IN_USE : GINLARCH_DONE), "a handle isn't opened");
            break;
        default: look(store, ask(store, next(22), a, n, b, m), was_open);
        }
        free(a), free(b);
    }
    for (int i = 0; i < HANDLES; i++) ginlarch_close(&stores[i]);
    return 0;
}
