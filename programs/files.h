/*
 * Files of the program `tap`: whole files, draws, and the folder of a store with its files desk and tree.
 * Where something fails, a function says so in one line on standard error and ends the program.
 */
#ifndef TAP_FILES_H
#define TAP_FILES_H

#include <stdbool.h>
#include <stddef.h>
#include <stdint.h>

enum { DONE = 0, REFUSED = 1, TROUBLE = 2 }; /* exit statuses */

struct bytes {
    uint8_t *at;
    size_t length;
};

struct store {
    const char *name; /* the folder, as it was given */
    int folder;
    struct bytes desk, tree;           /* as they are now */
    struct bytes desk_file, tree_file; /* as they are in the folder */
};

/* Ends the program with a status and one line, which begins with `tap: `. */
_Noreturn void ended(int status, const char *format, ...) __attribute__((format(printf, 2, 3)));

/* Memory of some length, zeros. */
uint8_t *lent(size_t length);

/* Whether a file is standard input or output: it has no name, or the name -. */
bool is_standard(const char *name);

/* A whole file, and what is left of one that is open. */
struct bytes whole_file(const char *name);
struct bytes rest_of(int file, const char *name);

/* Bytes that nobody can predict, from the system. */
void unpredictable(uint8_t *bytes, size_t length);

/* One leaf below 2^height for each of some ids: those of a file, or without one, fresh ones from the system. */
uint16_t *leaves_for(const char *file, size_t ids, unsigned height);

/* Makes the folder of a new store, with its desk and tree. */
void store_make(const char *name, struct bytes desk, struct bytes tree);

/* Opens the folder of a store. */
void store_open(struct store *store, const char *name);

/* Keeps other runs out, ends a save that was interrupted, and reads desk and tree. */
void store_load(struct store *store);

/* Puts desk and tree, if they were changed, into the folder, both or none. */
void store_save(struct store *store);

/*
 * Hands out a text, to standard output or to a file, which is replaced whole. The store is saved when the text is ready
 * to be handed out, and before it is.
 */
void hand_out(struct store *store, const char *name, struct bytes text);

#endif
