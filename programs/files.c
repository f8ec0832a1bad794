/* Whole files and draws, and texts that are handed out. */
#define _XOPEN_SOURCE 700

#include "files.h"

#include <errno.h>
#include <fcntl.h>
#include <stdarg.h>
#include <stdbool.h>
#include <stdio.h>
#include <stdlib.h>
#include <string.h>
#include <sys/stat.h>
#include <unistd.h>

void ended(int status, const char *format, ...)
{
    va_list words;
    va_start(words, format);
    fputs("tap: ", stderr);
    vfprintf(stderr, format, words);
    fputc('\n', stderr);
    va_end(words);
    exit(status);
}

uint8_t *lent(size_t length)
{
    uint8_t *bytes = calloc(length > 0 ? length : 1, 1);
    if (!bytes)
        ended(TROUBLE, "there is no memory for %zu bytes", length);
    return bytes;
}

struct bytes rest_of(int file, const char *name)
{
    size_t room = 65536;
    struct bytes all = {lent(room), 0};
    for (;;) {
        ssize_t got = read(file, all.at + all.length, room - all.length);
        if (got < 0 && errno == EINTR)
            continue;
        if (got < 0)
            ended(TROUBLE, "%s: %s", name, strerror(errno));
        if (got == 0)
            return all;
        all.length += (size_t)got;
        if (all.length == room) {
            room *= 2;
            all.at = realloc(all.at, room);
            if (!all.at)
                ended(TROUBLE, "%s: there is no memory for a file of this size", name);
        }
    }
}

bool is_standard(const char *name)
{
    return !name || strcmp(name, "-") == 0;
}

struct bytes whole_file(const char *name)
{
    if (is_standard(name)) {
        if (isatty(STDIN_FILENO))
            fputs("tap: reading the text from the terminal; Ctrl-D ends it\n", stderr);
        return rest_of(STDIN_FILENO, "standard input");
    }
    int file = open(name, O_RDONLY);
    if (file < 0)
        ended(TROUBLE, "%s: %s", name, strerror(errno));
    struct bytes all = rest_of(file, name);
    close(file);
    return all;
}

void unpredictable(uint8_t *bytes, size_t length)
{
    static const char source[] = "/dev/urandom";
    int file = open(source, O_RDONLY);
    if (file < 0)
        ended(TROUBLE, "%s: %s", source, strerror(errno));
    for (size_t at = 0; at < length;) {
        ssize_t got = read(file, bytes + at, length - at);
        if (got < 0 && errno == EINTR)
            continue;
        if (got <= 0)
            ended(TROUBLE, "%s: %s", source, got < 0 ? strerror(errno) : "ends");
        at += (size_t)got;
    }
    close(file);
}

static bool is_white(uint8_t byte)
{
    return byte == ' ' || (byte >= '\t' && byte <= '\r');
}

/* Leaves in decimal with white space between, exactly as many as there are ids. */
static void leaves_in(const char *name, uint16_t *leaves, size_t ids, unsigned height)
{
    struct bytes text = whole_file(name);
    unsigned above = 1U << height;
    size_t count = 0;
    for (size_t i = 0; i < text.length;) {
        if (is_white(text.at[i])) {
            i++;
            continue;
        }
        unsigned leaf = 0;
        for (; i < text.length && !is_white(text.at[i]); i++) {
            if (text.at[i] < '0' || text.at[i] > '9')
                ended(TROUBLE, "%s: leaf %zu is not a decimal number", name, count + 1);
            leaf = leaf * 10 + text.at[i] - '0';
            if (leaf >= above)
                ended(TROUBLE, "%s: leaf %zu is not below %u; the height is %u", name, count + 1, above, height);
        }
        if (count < ids)
            leaves[count] = (uint16_t)leaf;
        count++;
    }
    if (count != ids)
        ended(TROUBLE, "%s: %zu leaves for %zu ids; one for each is wanted", name, count, ids);
    free(text.at);
}

uint16_t *leaves_for(const char *file, size_t ids, unsigned height)
{
    uint16_t *leaves = (uint16_t *)(void *)lent(ids * sizeof *leaves);
    if (file) {
        leaves_in(file, leaves, ids, height);
        return leaves;
    }
    unpredictable((uint8_t *)leaves, ids * sizeof *leaves);
    for (size_t i = 0; i < ids; i++)
        leaves[i] &= (uint16_t)((1U << height) - 1);
    return leaves;
}

/* ---- texts that are handed out */

static char *stray; /* a file that is not to stay behind */

static void remove_stray(void)
{
    if (stray)
        unlink(stray);
}

static bool written(int file, struct bytes text)
{
    for (size_t at = 0; at < text.length;) {
        ssize_t put = write(file, text.at + at, text.length - at);
        if (put < 0 && errno == EINTR)
            continue;
        if (put < 0)
            return false;
        at += (size_t)put;
    }
    return true;
}

static bool is_same(const struct stat *one, int folder, const char *name)
{
    struct stat other;
    return fstatat(folder, name, &other, 0) == 0 && one->st_dev == other.st_dev && one->st_ino == other.st_ino;
}

/* The text in a file beside the one that it is to replace, with its mode. */
static char *text_beside(const char *target, mode_t mode, struct bytes text)
{
    static const char ending[] = ".XXXXXX";
    size_t length = strlen(target);
    char *name = (char *)lent(length + sizeof ending);
    memcpy(name, target, length);
    memcpy(name + length, ending, sizeof ending);
    int file = mkstemp(name);
    if (file < 0)
        ended(TROUBLE, "%s: can't be written: %s; the store is as it was", target, strerror(errno));
    stray = name;
    atexit(remove_stray);
    if (!written(file, text) || fchmod(file, mode) != 0 || fsync(file) != 0 || close(file) != 0)
        ended(TROUBLE, "%s: can't be written: %s; the store is as it was", target, strerror(errno));
    return name;
}

void hand_out(struct store *store, const char *name, struct bytes text)
{
    struct stat old;
    bool standard = is_standard(name);
    bool there = !standard && stat(name, &old) == 0;
    if (there && (is_same(&old, store->folder, "desk") || is_same(&old, store->folder, "tree")))
        ended(TROUBLE, "%s: this is the store's own file", name);
    if (standard || (there && !S_ISREG(old.st_mode))) { /* a device or a pipe is written, not replaced */
        int file = standard ? STDOUT_FILENO : open(name, O_WRONLY);
        if (file < 0)
            ended(TROUBLE, "%s: can't be written: %s; the store is as it was", name, strerror(errno));
        store_save(store);
        if (!written(file, text) || close(file) != 0)
            ended(TROUBLE, "%s: can't be written: %s", standard ? "standard output" : name, strerror(errno));
        return;
    }
    mode_t mask = umask(0);
    umask(mask);
    char *target = there ? realpath(name, NULL) : NULL; /* where a link leads */
    const char *place = target ? target : name;
    char *beside = text_beside(place, there ? old.st_mode & 07777 : 0666 & ~mask, text);
    store_save(store);
    if (rename(beside, place) != 0)
        ended(TROUBLE, "%s: can't be replaced: %s", name, strerror(errno));
    stray = NULL;
    free(beside);
    free(target);
}
