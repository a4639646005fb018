// A false library: each call is done, and answers as many bytes as GINLARCH_ANSWER tells, of which a read gives GINLARCH_GIVEN at most.
#include <stdbool.h>
#include <stdint.h>
#include <stdlib.h>

static size_t told(const char *name, size_t otherwise) {
    const char *text = getenv(name);
    return text ? strtoull(text, NULL, 10) : otherwise;
}

#define CALL(name, ...) uint32_t ginlarch_##name(void *store, ##__VA_ARGS__) { (void)store; return 0; }
#define TEXT const uint8_t *, size_t

CALL(open, TEXT)
CALL(load, TEXT)
CALL(text)
CALL(growing_text)
CALL(import, TEXT, bool, bool)
CALL(import_objects, TEXT, bool)
CALL(refs)
CALL(file, TEXT, TEXT)
CALL(object, TEXT)
CALL(name, TEXT)
CALL(word, TEXT)
CALL(walk)
CALL(ls, TEXT)
CALL(commit, TEXT, uint32_t)
CALL(tag, TEXT, uint32_t)
CALL(archive, TEXT, TEXT)
CALL(export)
CALL(changes, bool)
CALL(range, bool)
CALL(bundle, TEXT)

void ginlarch_close(void *store) { (void)store; }

size_t ginlarch_length(const void *store) {
    (void)store;
    return told("GINLARCH_ANSWER", 0);
}

// the bytes stay as they are, so that room for many takes no memory
size_t ginlarch_read(const void *store, size_t offset, uint8_t *room, size_t length) {
    (void)store, (void)offset, (void)room;
    size_t given = told("GINLARCH_GIVEN", SIZE_MAX);
    return length < given ? length : given;
}

uint64_t ginlarch_number(const void *store) {
    (void)store;
    return 0;
}

uint64_t ginlarch_count(const void *store) {
    (void)store;
    return 0;
}

size_t ginlarch_why(const void *store, uint8_t *room, size_t length) {
    (void)store, (void)room, (void)length;
    return 0;
}
