/*
 * The folder of a store. A change of desk and tree counts as a whole or not at all: both are written to new files
 * first, the tree becomes tree.next, and the moment that it counts is when desk.part becomes desk. So where tree.next
 * is found, desk.part says what happened: still there, the change did not count; gone, it did.
 */
#define _XOPEN_SOURCE 700

#include "files.h"

#include <errno.h>
#include <fcntl.h>
#include <stdbool.h>
#include <stdio.h>
#include <stdlib.h>
#include <string.h>
#include <sys/file.h>
#include <sys/stat.h>
#include <unistd.h>

static _Noreturn void trouble(const struct store *store, const char *file)
{
    ended(TROUBLE, "%s/%s: %s", store->name, file, strerror(errno));
}

static bool has(const struct store *store, const char *file)
{
    struct stat found;
    if (fstatat(store->folder, file, &found, AT_SYMLINK_NOFOLLOW) == 0)
        return true;
    if (errno != ENOENT)
        trouble(store, file);
    return false;
}

static void without(const struct store *store, const char *file)
{
    if (unlinkat(store->folder, file, 0) != 0 && errno != ENOENT)
        trouble(store, file);
}

static bool renamed(const struct store *store, const char *from, const char *to)
{
    return renameat(store->folder, from, store->folder, to) == 0 && fsync(store->folder) == 0;
}

void store_open(struct store *store, const char *name)
{
    *store = (struct store){.name = name, .folder = open(name, O_RDONLY | O_DIRECTORY)};
    if (store->folder < 0)
        ended(TROUBLE, "%s: %s; 'tap new' makes a store", name, strerror(errno));
}

static void lock(const struct store *store)
{
    if (flock(store->folder, LOCK_EX | LOCK_NB) == 0)
        return;
    if (errno == EWOULDBLOCK)
        ended(TROUBLE, "%s: another run is using this store; try again when it has ended", store->name);
    ended(TROUBLE, "%s: %s", store->name, strerror(errno));
}

/* Ends a save that was interrupted. Of a change that did not count, tree.next goes first: see above. */
static void end_save(const struct store *store)
{
    if (has(store, "tree.next") && has(store, "desk.part")) {
        without(store, "tree.next");
        if (fsync(store->folder) != 0)
            trouble(store, "tree.next");
        fprintf(stderr, "tap: %s: an interrupted change was undone\n", store->name);
    } else if (has(store, "tree.next")) {
        if (!renamed(store, "tree.next", "tree"))
            trouble(store, "tree.next");
        fprintf(stderr, "tap: %s: an interrupted change was finished\n", store->name);
    }
    without(store, "desk.part");
    without(store, "tree.part");
}

/* A file of the folder. A link is none: saving would put a file in its place. */
static struct bytes loaded(const struct store *store, const char *name)
{
    size_t length = strlen(store->name) + 1 + strlen(name) + 1;
    char *path = (char *)lent(length);
    snprintf(path, length, "%s/%s", store->name, name);
    int file = openat(store->folder, name, O_RDONLY | O_NOFOLLOW);
    if (file < 0)
        ended(TROUBLE, "%s: %s", path, errno == ELOOP ? "is a link, and no file of this folder" : strerror(errno));
    struct bytes all = rest_of(file, path);
    close(file);
    free(path);
    return all;
}

static struct bytes copied(struct bytes from)
{
    struct bytes copy = {lent(from.length), from.length};
    memcpy(copy.at, from.at, from.length);
    return copy;
}

void store_load(struct store *store)
{
    lock(store);
    end_save(store);
    store->desk_file = loaded(store, "desk");
    store->tree_file = loaded(store, "tree");
    store->desk = copied(store->desk_file);
    store->tree = copied(store->tree_file);
}

/* A file with its bytes, on the disk. It has the mode of the one that it is to replace; a new desk is its owner's. */
static bool put(const struct store *store, const char *file, const char *old, mode_t mode, struct bytes bytes)
{
    struct stat before;
    int made = openat(store->folder, file, O_WRONLY | O_CREAT | O_TRUNC, mode);
    if (made < 0)
        return false;
    bool good = fstatat(store->folder, old, &before, 0) != 0 || fchmod(made, before.st_mode & 07777) == 0;
    for (size_t at = 0; good && at < bytes.length;) {
        ssize_t took = write(made, bytes.at + at, bytes.length - at);
        if (took > 0)
            at += (size_t)took;
        else
            good = took < 0 && errno == EINTR;
    }
    if (!good || fsync(made) != 0) {
        int reason = errno;
        close(made);
        errno = reason;
        return false;
    }
    return close(made) == 0;
}

/* A change that can't be made leaves the folder as it was. What can't be removed stays for the next run. */
static void undo(const struct store *store)
{
    if ((unlinkat(store->folder, "tree.next", 0) != 0 && errno != ENOENT) || fsync(store->folder) != 0)
        return;
    unlinkat(store->folder, "desk.part", 0);
    unlinkat(store->folder, "tree.part", 0);
}

static bool is_as_in(struct bytes now, struct bytes file)
{
    return now.length == file.length && memcmp(now.at, file.at, now.length) == 0;
}

/* Up to the moment that it counts. The folder goes to the disk before each step that stands on the one before. */
static bool counted(const struct store *store)
{
    return put(store, "tree.part", "tree", 0666, store->tree) && put(store, "desk.part", "desk", 0600, store->desk) &&
           fsync(store->folder) == 0 && renamed(store, "tree.part", "tree.next") &&
           renameat(store->folder, "desk.part", store->folder, "desk") == 0;
}

static void change(const struct store *store, const char *made)
{
    if (!counted(store)) {
        int reason = errno;
        undo(store);
        if (made)
            rmdir(made);
        ended(TROUBLE, "%s: can't be written: %s; %s", store->name, strerror(reason),
              made ? "no store was made" : "the store is as it was");
    }
    if (fsync(store->folder) != 0 || !renamed(store, "tree.next", "tree"))
        ended(TROUBLE, "%s/tree: %s; the change counts, and the next run puts the tree in its place", store->name,
              strerror(errno));
}

void store_save(struct store *store)
{
    if (!is_as_in(store->desk, store->desk_file) || !is_as_in(store->tree, store->tree_file))
        change(store, NULL);
}

void store_make(const char *name, struct bytes desk, struct bytes tree)
{
    if (mkdir(name, 0777) != 0)
        ended(TROUBLE, "%s: %s; a new store gets a folder of its own", name, strerror(errno));
    struct store store;
    store_open(&store, name);
    lock(&store);
    store.desk = desk;
    store.tree = tree;
    change(&store, name);
}
