/* ginlarch.h: repositories in memory, behind a handle.
 *
 * A handle is a struct of zeros (GINLARCH_CLOSED_STORE) until ginlarch_open() opens it. It is changed by these
 * calls alone, never copied, and used by one thread at a time; two handles have nothing in common. Each
 * call that asks for something keeps its answer in the handle until the next one: ginlarch_length() and
 * ginlarch_read() copy its bytes, ginlarch_number() and ginlarch_count() tell its numbers, and
 * ginlarch_why() the word of why it was refused. Nothing is printed, no file is touched, and no call ends
 * the program.
 *
 * What the prover can't see, and who calls has to keep: a pointer to bytes isn't null, also where the
 * length is 0, and has so many bytes that nobody changes during the call; a `bool` is 0 or 1; what a
 * handle holds is of these calls; no call is made from a signal handler, or from the forked child of a
 * process with threads; malloc(), realloc() and free() belong together, and the stack has the room that
 * docs/LIBRARY.md tells.
 */
#ifndef GINLARCH_H
#define GINLARCH_H

#include <stdbool.h>
#include <stddef.h>
#include <stdint.h>

#ifdef __cplusplus
extern "C" {
#endif

/* A handle. Its parts are for the library alone. */
typedef struct ginlarch_store {
    bool is_open;
    void *held;
} ginlarch_store;

/* A handle that isn't open. */
#define GINLARCH_CLOSED_STORE { false, NULL }

/* What a call answers. */
enum {
    GINLARCH_DONE = 0,          /* it was accepted */
    GINLARCH_REFUSED = 1,       /* it was refused: ginlarch_why() has the word */
    GINLARCH_CLOSED = 2,        /* the handle isn't open */
    GINLARCH_IN_USE = 3,        /* ginlarch_open() of a handle that is open */
    GINLARCH_OUT_OF_MEMORY = 4  /* ginlarch_open() had no memory; any other call is refused then */
};

/* Opens a handle on an empty repository. The key is sixteen random bytes, by which nobody who writes a
 * stream can choose names that make look-ups slow; with fewer bytes the rest is zeros. */
uint32_t ginlarch_open(ginlarch_store *store, const uint8_t *key, size_t key_length);

/* Closes a handle and frees what it holds. One that isn't open stays so. */
void ginlarch_close(ginlarch_store *store);

/* Replaces the repository by that of a store file's bytes, which are copied: of each version, so of a
 * growing store, too. Refused with the first fault of the text (docs/FAULTS.md, "Stores"), it leaves the
 * repository as it was. */
uint32_t ginlarch_load(ginlarch_store *store, const uint8_t *text, size_t length);

/* Answers the bytes of a store file of the repository (docs/STORE.md): those of a growing store where one
 * was loaded, and else of one of version 2. */
uint32_t ginlarch_text(ginlarch_store *store);

/* Answers those of a growing store, as `gx grow` makes it, whatever was loaded. */
uint32_t ginlarch_growing_text(ginlarch_store *store);

/* Imports a git-fast-import(1) stream, as `gx import` does. With `done` it has to end with the command
 * done; with `force` branches may lose commits. It answers the lines of `progress`; the number is that of
 * the commands, and the count that of the new objects. Refused, the number is that of the command at
 * fault and the count that of the checkpoints before it: the repository is as the last one left it. */
uint32_t ginlarch_import(ginlarch_store *store, const uint8_t *stream, size_t length, bool done, bool force);

/* Takes a text of refs and objects, as git-for-each-ref(1) and `git cat-file --batch` print them and
 * `gx import --objects` reads them: scripts/git-objects prints one. With `force` refs may lose commits. The
 * count is that of the new objects. Refused, the number is that of the item, from 1, and the repository
 * stays as it was. The whole repository is copied meanwhile. */
uint32_t ginlarch_import_objects(ginlarch_store *store, const uint8_t *text, size_t length, bool force);

/* Answers the refs as git-show-ref(1): 40 digits, a space and a name in each line. */
uint32_t ginlarch_refs(ginlarch_store *store);

/* Answers the bytes of the file at a path in the tree of a revision. The number is its mode, as 0100644;
 * of a submodule the bytes are its 40 digits. */
uint32_t ginlarch_file(ginlarch_store *store, const uint8_t *revision, size_t revision_length,
                       const uint8_t *path, size_t path_length);

/* Answers the body of the object that a revision gives, as git-cat-file(1). The number is its kind: 1 for
 * a commit, 2 for a tree, 3 for a blob and 4 for a tag. */
uint32_t ginlarch_object(ginlarch_store *store, const uint8_t *revision, size_t length);

/* Answers the 40 digits of what a revision gives, as git-rev-parse(1); the number is its kind. */
uint32_t ginlarch_name(ginlarch_store *store, const uint8_t *revision, size_t length);

/* Puts a range word behind those that were given since the last walk; what is no range word is refused. */
uint32_t ginlarch_word(ginlarch_store *store, const uint8_t *word, size_t length);

/* Answers the commits that the words list as git-rev-list(1), each by 40 digits in a line, the newest made
 * first, and forgets the words. Refused, the number is that of the word. */
uint32_t ginlarch_walk(ginlarch_store *store);

/* Answers the entries of a revision's tree as `git ls-tree -z`: of each the mode in six digits, a space, the
 * kind, a space, 40 digits, a TAB, the name and a NUL. A tree below is asked for by itself: "main:doc". */
uint32_t ginlarch_ls(ginlarch_store *store, const uint8_t *revision, size_t length);

/* The fields of a commit. */
enum {
    GINLARCH_TREE = 0,       /* the 40 digits of its tree */
    GINLARCH_PARENTS = 1,    /* those of each parent, with an LF behind them */
    GINLARCH_AUTHOR = 2,     /* NAME <EMAIL> SECONDS ZONE */
    GINLARCH_COMMITTER = 3,  /* the same */
    GINLARCH_ENCODING = 4,   /* that of the message, or nothing where the commit tells none */
    GINLARCH_MESSAGE = 5,    /* the message, with its last LF where it has one */
    GINLARCH_HEADERS = 6     /* the header lines behind the committer's, each with its LF, as gpgsig */
};

/* Answers a field of the commit that a revision gives, where a tag gives its commit. A number that is none
 * of the fields is refused with the word UnknownField, whatever the revision is. */
uint32_t ginlarch_commit(ginlarch_store *store, const uint8_t *revision, size_t length, uint32_t field);

/* The fields of a tag. */
enum {
    GINLARCH_TAG_TARGET = 0,   /* the 40 digits of the commit that it tags */
    GINLARCH_TAG_NAME = 1,     /* its name, as v1 */
    GINLARCH_TAG_TAGGER = 2,   /* NAME <EMAIL> SECONDS ZONE, or nothing where the tag tells none */
    GINLARCH_TAG_MESSAGE = 3   /* the message, with its last LF where it has one */
};

/* Answers a field of the tag that a revision gives; what gives anything else is refused with the word
 * WrongKind. A number that is none of the fields is refused as of a commit. */
uint32_t ginlarch_tag(ginlarch_store *store, const uint8_t *revision, size_t length, uint32_t field);

/* Answers the archive of a revision's tree as git-archive(1), with these bytes before each path. */
uint32_t ginlarch_archive(ginlarch_store *store, const uint8_t *revision, size_t revision_length,
                          const uint8_t *prefix, size_t prefix_length);

/* Answers the repository as a stream, as `gx export` does. */
uint32_t ginlarch_export(ginlarch_store *store);

/* Answers it by what each commit changed, as `gx export --changes`; `closed` has it end with done. */
uint32_t ginlarch_changes(ginlarch_store *store, bool closed);

/* The same of the commits that the words list, which are forgotten. */
uint32_t ginlarch_range(ginlarch_store *store, bool closed);

/* Answers a bundle, as `gx bundle` writes it: of the refs that the words name, or of all where none were
 * given, with the objects that they reach and that what the words exclude doesn't. The words are forgotten.
 * Where a ref's name is given, as main, its commit is HEAD, too. Refused, the number is that of the word, or
 * the one behind the words where it is that of HEAD. */
uint32_t ginlarch_bundle(ginlarch_store *store, const uint8_t *head, size_t length);

/* How many bytes the last call answered. */
size_t ginlarch_length(ginlarch_store *store);

/* Copies these bytes from a place on, as many as there are and as fit, and answers how many that were. */
size_t ginlarch_read(ginlarch_store *store, size_t from, uint8_t *room, size_t room_length);

/* The number that the last call answered, and the count. */
uint64_t ginlarch_number(ginlarch_store *store);
uint64_t ginlarch_count(ginlarch_store *store);

/* Copies the word of why the last call was refused, as far as it fits, and answers how many bytes that
 * were; none of a call that was accepted. The words are UnknownField and those of docs/FAULTS.md. */
size_t ginlarch_why(ginlarch_store *store, uint8_t *room, size_t room_length);

#ifdef __cplusplus
}
#endif

#endif
