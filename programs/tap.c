/*
 * tap: verdicts of a store on disk, in and out as texts of the Test Anything Protocol. What a text says, whether it is
 * taken and what becomes of the store are the library's; here are options, files, draws and words.
 */
#define _XOPEN_SOURCE 700

#include <inttypes.h>
#include <stdbool.h>
#include <stdio.h>
#include <stdlib.h>
#include <string.h>
#include <unistd.h>

#include "bawnaroy.h"
#include "files.h"
#include "help.h"
#include "why.h"

enum { MOST_IDS = 4096, MOST_HEIGHT = 12, MOST_SLOTS = 8, MOST_STASH = 255, MOST_CHAPTER = 31 };
enum { USUAL_SLOTS = 4, USUAL_STASH = 128, KEY = 32, MANY = 500 };

/* ---- options */

enum { NEW = 1, READ = 2, WRITE = 4, ROW = 8, RANGED = READ | WRITE | ROW };
enum option { IDS, CHAPTER, YEAR, HEIGHT, SLOTS, STASH, DRAWS, KEY_FILE, OPTIONS };

static const struct {
    const char *name;
    int taken, needed; /* by which commands */
} options[OPTIONS] = {
    [IDS] = {"--ids", NEW | RANGED, NEW | RANGED}, [CHAPTER] = {"--chapter", RANGED, RANGED},
    [YEAR] = {"--year", READ, READ},               [HEIGHT] = {"--height", NEW, 0},
    [SLOTS] = {"--slots", NEW, 0},                 [STASH] = {"--stash", NEW, 0},
    [DRAWS] = {"--draws", NEW | RANGED, 0},        [KEY_FILE] = {"--key", NEW, 0},
};

static const struct {
    const char *name;
    int bit;
    int words; /* how many it takes at most: the store, and a file */
} commands[] = {{"new", NEW, 1}, {"read", READ, 2}, {"write", WRITE, 2}, {"row", ROW, 1}};

struct request {
    int command;
    const char *store, *file;
    const char *given[OPTIONS];
};

#define SEE "; ./tap --help says more"

static enum option option_named(const char *word, size_t length)
{
    for (int i = 0; i < OPTIONS; i++)
        if (strlen(options[i].name) == length && strncmp(options[i].name, word, length) == 0)
            return (enum option)i;
    ended(TROUBLE, "there is no option '%.*s'" SEE, (int)length, word);
}

static struct request request_in(int count, char **words)
{
    struct request request = {0};
    size_t which = 0, plain = 0;
    while (which < 4 && strcmp(commands[which].name, words[1]) != 0)
        which++;
    if (which == 4)
        ended(TROUBLE, "there is no command '%s'" SEE, words[1]);
    request.command = commands[which].bit;
    for (int i = 2; i < count; i++) {
        const char *word = words[i];
        if (word[0] != '-' || !word[1]) {
            if (++plain > (size_t)commands[which].words)
                ended(TROUBLE, "'%s' is one word too many for '%s'" SEE, word, words[1]);
            *(plain == 1 ? &request.store : &request.file) = word;
            continue;
        }
        const char *equals = strchr(word, '=');
        enum option option = option_named(word, equals ? (size_t)(equals - word) : strlen(word));
        if (!(options[option].taken & request.command))
            ended(TROUBLE, "'%s' takes no %s" SEE, words[1], options[option].name);
        if (request.given[option])
            ended(TROUBLE, "%s is given twice", options[option].name);
        if (!equals && i + 1 == count)
            ended(TROUBLE, "%s needs a value" SEE, options[option].name);
        request.given[option] = equals ? equals + 1 : words[++i];
    }
    if (!request.store)
        ended(TROUBLE, "'%s' needs the folder of a store" SEE, words[1]);
    for (int i = 0; i < OPTIONS; i++)
        if ((options[i].needed & request.command) && !request.given[i])
            ended(TROUBLE, "'%s' needs %s" SEE, words[1], options[i].name);
    return request;
}

/* The decimal number that stands at the front of a word, up to a byte; false where none does. */
static bool number_before(const char **word, char end, unsigned *number)
{
    const char *at = *word;
    unsigned value = 0;
    while (*at >= '0' && *at <= '9' && value <= UINT16_MAX)
        value = value * 10 + (unsigned)(*at++ - '0');
    if (at == *word || *at != end)
        return false;
    *word = at + 1;
    *number = value;
    return true;
}

static unsigned number_for(const struct request *request, enum option option, unsigned least, unsigned most,
                           unsigned usual)
{
    const char *word = request->given[option];
    unsigned number = usual;
    if (word && (!number_before(&word, '\0', &number) || number < least || number > most))
        ended(TROUBLE, "%s %s: a number from %u to %u is wanted", options[option].name, request->given[option], least,
              most);
    return number;
}

struct range {
    unsigned first, last, ids;
};

static struct range range_for(const struct request *request)
{
    const char *word = request->given[IDS];
    struct range range;
    if (!number_before(&word, '-', &range.first) || !number_before(&word, '\0', &range.last) || range.first < 1 ||
        range.first > range.last || range.last > MOST_IDS)
        ended(TROUBLE, "--ids %s: a range of ids such as 1-40 is wanted, from 1 to %d", request->given[IDS], MOST_IDS);
    range.ids = range.last - range.first + 1;
    return range;
}

/* ---- what a good desk says of itself: contents of five pairs of offset and length, then bodies (a) to (e) */

struct sizes {
    unsigned height, slots, status, ids;
};

static const uint8_t *body(const uint8_t *desk, int which)
{
    const uint8_t *pair = desk + 8 * which;
    return desk + (pair[0] | (uint32_t)pair[1] << 8 | (uint32_t)pair[2] << 16 | (uint32_t)pair[3] << 24);
}

static struct sizes sizes_in(const uint8_t *desk)
{
    const uint8_t *a = body(desk, 0);
    return (struct sizes){.height = a[0], .slots = a[1], .status = a[3], .ids = a[6] + 256U * a[7]};
}

/* The id of the request that the desk keeps. */
static unsigned id_kept(const uint8_t *desk)
{
    const uint8_t *c = body(desk, 2);
    return c[2] + 256U * c[3];
}

/* ---- refusals */

static const char *const names[] = {"",          "BadDesk", "Stopped", "Open", "NotOpen", "BadId",     "BadLeaf",
                                    "BadLength", "BadSize", "Forged",  "Worn", "Full",    "Malformed", "BadPlan"};

/* What a command that was refused has not done. */
static const char *undone(int command)
{
    return command == READ ? "nothing was stored" : command == WRITE ? "no text was written" : "nothing was counted";
}

/* A refusal before the first request. */
static _Noreturn void refused(const struct store *store, int32_t code, const char *why, int command)
{
    ended(REFUSED, "%s: refused %d %s: %s; %s", store->name, -code, names[-code], why, undone(command));
}

/* A refusal that stopped the store at an id: what was done before stays. */
static _Noreturn void stopped(const struct store *store, int32_t code, struct range range, int command)
{
    static const char *const whys[] = {"the tree was altered, or is not the one that the desk belongs to",
                                       "a counter has come to its end",
                                       "more records remain than the stash has room for"};
    unsigned id = id_kept(store->desk.at);
    char before[64];
    if (command == READ && id > range.first)
        snprintf(before, sizeof before, "ids %u-%u stay as they were stored", range.first, id - 1);
    else
        snprintf(before, sizeof before, "%s", undone(command));
    ended(REFUSED, "%s: refused %d %s at id %u: %s; %s, and the store has stopped", store->name, -code, names[-code],
          id, whys[-code - 9], before);
}

/* The library's answer, said and followed. The store is saved where a refusal has changed it. */
static void followed(struct store *store, int32_t code, struct range range, int command)
{
    static const char *const stops[] = {"", "", "forged", "worn", "full"};
    char why[200] = "the library does not take it";
    if (code >= 0)
        return;
    if (code == BAWNAROY_BAD_DESK)
        refused(store, code, "the file desk is not a good desk", command);
    struct sizes sizes = sizes_in(store->desk.at);
    store_save(store);
    switch (code) {
    case BAWNAROY_FORGED:
    case BAWNAROY_WORN:
    case BAWNAROY_FULL:
        stopped(store, code, range, command);
    case BAWNAROY_STOPPED:
        snprintf(why, sizeof why, "the store has stopped as %s and answers no more", stops[sizes.status]);
        break;
    case BAWNAROY_OPEN:
        snprintf(why, sizeof why, "a request is open at id %u; the host that asked must finish it",
                 id_kept(store->desk.at));
        break;
    case BAWNAROY_BAD_ID:
        snprintf(why, sizeof why, "the store has the ids 1-%u, not all of %u-%u", sizes.ids, range.first, range.last);
        break;
    case BAWNAROY_BAD_LENGTH:
        snprintf(why, sizeof why, "the file tree has %zu bytes; a tree of height %u with %u slots has %zu",
                 store->tree.length, sizes.height, sizes.slots,
                 bawnaroy_tree_length((uint8_t)sizes.height, (uint8_t)sizes.slots));
        break;
    default:
        break;
    }
    refused(store, code, why, command);
}

/* ---- commands */

static const char *plural(unsigned count)
{
    return count == 1 ? "" : "s";
}

static void make(const struct request *request)
{
    unsigned ids = number_for(request, IDS, 1, MOST_IDS, 0);
    unsigned height = 1;
    while ((1U << height) * 2 < ids)
        height++;
    height = number_for(request, HEIGHT, 1, MOST_HEIGHT, height);
    unsigned slots = number_for(request, SLOTS, 1, MOST_SLOTS, USUAL_SLOTS);
    unsigned stash = number_for(request, STASH, 0, MOST_STASH, ids < USUAL_STASH ? ids : USUAL_STASH);
    struct bytes key = {NULL, KEY};
    if (request->given[KEY_FILE]) {
        key = whole_file(request->given[KEY_FILE]);
        if (key.length != KEY)
            ended(TROUBLE, "%s: %zu bytes; a key has %d", request->given[KEY_FILE], key.length, KEY);
    } else {
        key.at = lent(KEY);
        unpredictable(key.at, KEY);
    }
    uint16_t *leaves = leaves_for(request->given[DRAWS], ids, height);
    struct bytes desk = {NULL, bawnaroy_desk_length((uint16_t)ids, (uint8_t)stash)};
    struct bytes tree = {NULL, bawnaroy_tree_length((uint8_t)height, (uint8_t)slots)};
    desk.at = lent(desk.length);
    tree.at = lent(tree.length);
    int32_t code = bawnaroy_format(desk.at, desk.length, (uint8_t)height, (uint8_t)slots, (uint8_t)stash, (uint16_t)ids,
                                   key.at, key.length, leaves, ids);
    if (code < 0)
        ended(REFUSED, "%s: refused %d %s", request->store, -code, names[-code]);
    store_make(request->store, desk, tree);
    fprintf(stderr, "tap: %s: a store of %u id%s: height %u, %u slot%s in a bucket, room for %u in the stash\n",
            request->store, ids, plural(ids), height, slots, plural(slots), stash);
    unsigned room = ((2U << height) - 1) * slots + stash;
    if (room < ids)
        fprintf(stderr, "tap: %s: it has room for %u records, fewer than its ids\n", request->store, room);
}

/* Loads the store and draws a leaf for each id. A desk that is not good says nothing of its height. */
static uint16_t *loaded(struct store *store, const struct request *request, struct range range)
{
    store_load(store);
    /* Id 0 is always refused, and nothing changes; that the desk is not good would be said first. */
    if (bawnaroy_ask_read(store->desk.at, store->desk.length, 0, 0) == BAWNAROY_BAD_DESK)
        followed(store, BAWNAROY_BAD_DESK, range, request->command);
    if (range.ids > MANY && isatty(STDERR_FILENO))
        fprintf(stderr, "tap: %s: %u ids go through the store, one after the other\n", store->name, range.ids);
    return leaves_for(request->given[DRAWS], range.ids, sizes_in(store->desk.at).height);
}

static void text_read(const struct request *request)
{
    struct range range = range_for(request);
    unsigned chapter = number_for(request, CHAPTER, 0, MOST_CHAPTER, 0);
    unsigned year = number_for(request, YEAR, 0, UINT16_MAX, 0);
    struct store store;
    uint64_t line[1] = {0};
    char words[WORDS];
    store_open(&store, request->store);
    struct bytes text = whole_file(request->file);
    uint16_t *draws = loaded(&store, request, range);
    int32_t code = bawnaroy_tap_read(store.desk.at, store.desk.length, store.tree.at, store.tree.length,
                                     (uint8_t)chapter, (uint16_t)year, (uint16_t)range.first,
                                     (uint16_t)(range.last + 1), draws, range.ids, text.at, text.length, line);
    if (code == BAWNAROY_MALFORMED || code == BAWNAROY_BAD_PLAN) {
        if (code == BAWNAROY_MALFORMED)
            why_malformed(text, line[0], words);
        else
            why_bad_plan(text, line[0], range.first, range.last, words);
        ended(REFUSED, "%s: line %" PRIu64 ": %s (refused %d %s); nothing was stored",
              is_standard(request->file) ? "standard input" : request->file, line[0], words, -code, names[-code]);
    }
    followed(&store, code, range, READ);
    store_save(&store);
}

static void text_write(const struct request *request)
{
    struct range range = range_for(request);
    unsigned chapter = number_for(request, CHAPTER, 0, MOST_CHAPTER, 0);
    struct store store;
    store_open(&store, request->store);
    uint16_t *draws = loaded(&store, request, range);
    struct bytes text = {NULL, bawnaroy_tap_room((uint16_t)range.ids)};
    text.at = lent(text.length);
    int32_t code = bawnaroy_tap_write(store.desk.at, store.desk.length, store.tree.at, store.tree.length,
                                      (uint8_t)chapter, (uint16_t)range.first, (uint16_t)(range.last + 1), draws,
                                      range.ids, text.at, text.length);
    followed(&store, code, range, WRITE);
    text.length = (size_t)code;
    hand_out(&store, request->file, text);
    unsigned hidden = hidden_directives(text);
    if (hidden > 0)
        fprintf(stderr,
                "tap: %s: %u line%s with '#' in the name before SKIP or TODO; TAP::Parser and prove take %s for a "
                "plain result\n",
                store.name, hidden, plural(hidden), hidden == 1 ? "it" : "them");
}

static void row_count(const struct request *request)
{
    struct range range = range_for(request);
    unsigned chapter = number_for(request, CHAPTER, 0, MOST_CHAPTER, 0);
    struct store store;
    uint16_t counts[BAWNAROY_COUNTS] = {0};
    char row[200];
    store_open(&store, request->store);
    uint16_t *draws = loaded(&store, request, range);
    int32_t code =
        bawnaroy_row(store.desk.at, store.desk.length, store.tree.at, store.tree.length, (uint8_t)chapter,
                     (uint16_t)range.first, (uint16_t)(range.last + 1), draws, range.ids, counts);
    followed(&store, code, range, ROW);
    snprintf(row, sizeof row,
             "chapter %u, ids %u-%u: passed %d, failed %d, skipped %d, errors %d, bad %d, not run %d: %s\n", chapter,
             range.first, range.last, counts[BAWNAROY_COUNT_PASSED], counts[BAWNAROY_COUNT_FAILED],
             counts[BAWNAROY_COUNT_SKIPPED], counts[BAWNAROY_COUNT_ERRORS], counts[BAWNAROY_COUNT_BAD],
             counts[BAWNAROY_COUNT_NOT_RUN], code == BAWNAROY_COMPLETE ? "complete" : "incomplete");
    hand_out(&store, NULL, (struct bytes){(uint8_t *)row, strlen(row)});
}

int main(int count, char **words)
{
    for (int i = 1; i < count; i++)
        if (strcmp(words[i], "--help") == 0 || strcmp(words[i], "-h") == 0) {
            fputs(HELP, stdout);
            return fflush(stdout) == 0 ? DONE : TROUBLE;
        }
    if (count < 2)
        ended(TROUBLE, "a command is wanted: new, read, write or row" SEE);
    struct request request = request_in(count, words);
    switch (request.command) {
    case NEW:
        make(&request);
        break;
    case READ:
        text_read(&request);
        break;
    case WRITE:
        text_write(&request);
        break;
    default:
        row_count(&request);
        break;
    }
    return DONE;
}
