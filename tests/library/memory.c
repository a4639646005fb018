/* Each allocation fails in turn: a call that had no memory says so, and no call does anything else. It is linked with
 * --wrap=malloc and --wrap=realloc. */
#include <ginlarch.h>
#include <stdio.h>
#include <stdlib.h>
#include <string.h>

#define TEXT(letters) (const uint8_t *)(letters), strlen(letters)

static const char STREAM[] =
    "feature done\nprogress hello\ncommit refs/heads/main\ncommitter A <a@x> 1 +0000\ndata 2\nv1\nM 100644 inline d/a\ndata 1\nx\n"
    "tag v1\nfrom refs/heads/main^0\ntagger T <t@x> 2 -0100\ndata 5\nfirst\ncheckpoint\ndone\n";

static const char OBJECTS[] = "587be6b4c3f93f93c489c0111bba5596147a26cb blob 2\nx\n\n0000000000000000000000000000000000000000 refs/tags/v1\n";

static long asked, refused = -1;

void *__real_malloc(size_t size);
void *__real_realloc(void *block, size_t size);

static bool fails(void) { return asked++ == refused; }

void *__wrap_malloc(size_t size) { return fails() ? NULL : __real_malloc(size); }

void *__wrap_realloc(void *block, size_t size) { return fails() ? NULL : __real_realloc(block, size); }

static void expect(bool holds, const char *what) {
    if (!holds) {
        fprintf(stderr, "memory: %s at allocation %ld\n", what, refused);
        exit(1);
    }
}

/* how many of these statuses are refusals, each for want of memory */
static int look(ginlarch_store *store, uint32_t status) {
    uint8_t word[64];
    size_t letters = ginlarch_why(store, word, sizeof word);
    expect(status == GINLARCH_DONE || status == GINLARCH_REFUSED, "a status is another");
    expect(status == GINLARCH_DONE || (letters == 11 && memcmp(word, "OutOfMemory", 11) == 0), "a word is another");
    return status == GINLARCH_REFUSED;
}

/* the store text that was answered, if one was, is loaded */
static int load_answer(ginlarch_store *store) {
    static uint8_t room[1 << 16];
    size_t length = ginlarch_read(store, 0, room, sizeof room);
    return length == 0 ? 0 : look(store, ginlarch_load(store, room, length));
}

/* every call that takes memory once, on a repository that stands: how many were refused */
static int ask(ginlarch_store *store) {
    int count = look(store, ginlarch_refs(store)) + look(store, ginlarch_file(store, TEXT("main"), TEXT("d/a")))
        + look(store, ginlarch_object(store, TEXT("main^{tree}"))) + look(store, ginlarch_name(store, TEXT("main~0")))
        + look(store, ginlarch_ls(store, TEXT("main:d")));
    for (uint32_t field = 0; field < 7; field++) count += look(store, ginlarch_commit(store, TEXT("main"), field));
    for (uint32_t field = 0; field < 4; field++) count += look(store, ginlarch_tag(store, TEXT("v1"), field));
    count += look(store, ginlarch_word(store, TEXT("main"))) + look(store, ginlarch_walk(store));
    count += look(store, ginlarch_word(store, TEXT("main"))) + look(store, ginlarch_range(store, true));
    count += look(store, ginlarch_archive(store, TEXT("main"), TEXT("p/"))) + look(store, ginlarch_export(store));
    count += look(store, ginlarch_word(store, TEXT("main"))) + look(store, ginlarch_bundle(store, TEXT("main")));
    count += look(store, ginlarch_changes(store, true)) + look(store, ginlarch_text(store));
    count += load_answer(store);
    count += look(store, ginlarch_growing_text(store));
    count += load_answer(store);
    count += look(store, ginlarch_import_objects(store, TEXT(OBJECTS), false));
    return count + look(store, ginlarch_text(store));
}

/* a handle from its opening to its end: how many calls were refused */
static int live(void) {
    ginlarch_store store = GINLARCH_CLOSED_STORE;
    uint32_t status = ginlarch_open(&store, TEXT("0123456789abcdef"));
    if (status != GINLARCH_DONE) {
        expect(status == GINLARCH_OUT_OF_MEMORY && !store.is_open, "a handle is open");
        return 1;
    }
    int count = look(&store, ginlarch_import(&store, TEXT(STREAM), true, false));
    if (count == 0) count = ask(&store);
    ginlarch_close(&store);
    return count;
}

int main(void) {
    expect(live() == 0, "a call is refused that has memory");
    long allocations = asked;
    for (long at = 0; at < allocations; at++) {
        asked = 0, refused = at;
        expect(live() == 1, "not one call is refused");
    }
    return 0;
}
