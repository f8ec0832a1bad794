/*
 * A small verdict book from C: two cases get a verdict, three are looked up, and the one that nobody wrote answers
 * never. Then rows of the matrix: a case that was not run leaves its row incomplete, whatever the others say. Then a
 * text of the Test Anything Protocol (TAP) is read into the book, one is refused, and what the book holds is written.
 *
 * The draws are fixed so that the output can be compared. A real host draws each leaf afresh and unpredictably.
 */
#include <stdio.h>
#include <stdlib.h>
#include <string.h>

#include "bawnaroy.h"

enum { HEIGHT = 2, SLOTS = 1, STASH = 4, IDS = 3, CHAPTER = 7, YEAR = 2026 };

static uint8_t *desk, *tree, *path;
static size_t desk_length, tree_length, path_length;

/* A buffer of some length, filled with what the server might have left there. */
static uint8_t *lent(size_t length)
{
    uint8_t *bytes = malloc(length);
    if (!bytes) {
        fputs("no memory\n", stderr);
        exit(1);
    }
    memset(bytes, 0xA5, length);
    return bytes;
}

static void refused(const char *what, int32_t number)
{
    fprintf(stderr, "%s: refused %d\n", what, -number);
    exit(1);
}

/* The rest of a request that was asked: the server's path, the answer, the path back. */
static int32_t finished(int32_t leaf, uint8_t record[BAWNAROY_RECORD_LENGTH])
{
    if (leaf < 0)
        refused("ask", leaf);
    int32_t code = bawnaroy_fetch(tree, tree_length, HEIGHT, SLOTS, (uint16_t)leaf, path, path_length);
    if (code < 0)
        refused("fetch", code);
    int32_t answer = bawnaroy_finish(desk, desk_length, path, path_length, record, BAWNAROY_RECORD_LENGTH);
    if (answer < 0)
        refused("finish", answer);
    code = bawnaroy_put(tree, tree_length, HEIGHT, SLOTS, (uint16_t)leaf, path, path_length);
    if (code < 0)
        refused("put", code);
    return answer;
}

static const char *word(int32_t verdict)
{
    static const char *const words[] = {"bad", "pass", "fail", "skipped", "error"};
    return words[verdict];
}

static void write_verdict(uint16_t id, uint16_t draw, uint8_t verdict, const char *name)
{
    uint8_t record[BAWNAROY_RECORD_LENGTH];
    uint8_t buffer[BAWNAROY_RECORD_LENGTH] = {0};
    if (!bawnaroy_verdict_make(record, sizeof record, verdict, CHAPTER, YEAR, (const uint8_t *)name, strlen(name))) {
        fputs("not a verdict\n", stderr);
        exit(1);
    }
    finished(bawnaroy_ask_write(desk, desk_length, id, draw, record, sizeof record), buffer);
    printf("case %d: wrote %s, %s\n", id, word(verdict), name);
}

static void read_verdict(uint16_t id, uint16_t draw)
{
    uint8_t buffer[BAWNAROY_RECORD_LENGTH] = {0};
    uint16_t said[3] = {0};
    int32_t answer = finished(bawnaroy_ask_read(desk, desk_length, id, draw), buffer);
    if (answer == BAWNAROY_NEVER) {
        printf("case %d: never\n", id);
        return;
    }
    int32_t verdict = bawnaroy_verdict_read(buffer, sizeof buffer, said);
    /* A name of full length has no zero behind it, so its length is what ends it. */
    printf("case %d: %s, %.*s, chapter %d of %d\n", id, word(verdict), said[2], (const char *)buffer + 4, said[0],
           said[1]);
}

/* A row of the matrix: the cases from first up to, not including, end. */
static void print_row(uint8_t chapter, uint16_t first, uint16_t end, const uint16_t *draws)
{
    uint16_t counts[BAWNAROY_COUNTS] = {0};
    int32_t answer =
        bawnaroy_row(desk, desk_length, tree, tree_length, chapter, first, end, draws, (size_t)(end - first), counts);
    if (answer < 0)
        refused("row", answer);
    printf("chapter %d, cases %d to %d: passed %d, failed %d, skipped %d, errors %d, bad %d, not run %d: %s\n", chapter,
           first, end - 1, counts[BAWNAROY_COUNT_PASSED], counts[BAWNAROY_COUNT_FAILED], counts[BAWNAROY_COUNT_SKIPPED],
           counts[BAWNAROY_COUNT_ERRORS], counts[BAWNAROY_COUNT_BAD], counts[BAWNAROY_COUNT_NOT_RUN],
           answer == BAWNAROY_COMPLETE ? "complete" : "incomplete");
}

/* Reads a text of TAP for all cases: those that it has no line for stay as they were. */
static void read_text(const char *text, const uint16_t *draws)
{
    uint64_t line[1] = {0};
    int32_t code = bawnaroy_tap_read(desk, desk_length, tree, tree_length, CHAPTER, YEAR, 1, IDS + 1, draws, IDS,
                                     (const uint8_t *)text, strlen(text), line);
    if (code == BAWNAROY_MALFORMED || code == BAWNAROY_BAD_PLAN)
        printf("text: refused %d at line %d\n", -code, (int)line[0]);
    else if (code < 0)
        refused("text", code);
    else
        printf("text: read\n");
}

/* Writes the text that says the chapter's verdicts of all cases. */
static void print_text(const uint16_t *draws)
{
    size_t room = bawnaroy_tap_room(IDS);
    uint8_t *text = lent(room);
    int32_t length =
        bawnaroy_tap_write(desk, desk_length, tree, tree_length, CHAPTER, 1, IDS + 1, draws, IDS, text, room);
    if (length < 0)
        refused("text", length);
    fwrite(text, 1, (size_t)length, stdout);
    free(text);
}

int main(void)
{
    uint8_t key[32];
    const uint16_t starts[IDS] = {3, 0, 1};
    for (int i = 0; i < 32; i++)
        key[i] = (uint8_t)i;
    desk_length = bawnaroy_desk_length(IDS, STASH);
    tree_length = bawnaroy_tree_length(HEIGHT, SLOTS);
    path_length = bawnaroy_path_length(HEIGHT, SLOTS);
    desk = lent(desk_length);
    tree = lent(tree_length);
    path = lent(path_length);
    int32_t code = bawnaroy_format(desk, desk_length, HEIGHT, SLOTS, STASH, IDS, key, sizeof key, starts, IDS);
    if (code < 0)
        refused("format", code);
    write_verdict(1, 2, BAWNAROY_PASS, "open then close");
    write_verdict(2, 0, BAWNAROY_FAIL, "timeout");
    read_verdict(1, 1);
    read_verdict(2, 3);
    read_verdict(3, 2);
    const uint16_t draws[IDS] = {0, 3, 1};
    print_row(CHAPTER, 1, 4, draws);
    print_row(CHAPTER, 1, 2, draws);
    print_row(CHAPTER + 1, 1, 4, draws);
    read_text("TAP version 13\n1..3\nok 1 - open then close\nnot ok 3 - locks # TODO slow server\n", draws);
    read_text("TAP version 13\n1..3\nok 2 - timeout\nok 2 - timeout\n", draws);
    print_text(draws);
    /* A byte altered on the server is noticed, and the store stops. */
    tree[9] ^= 1;
    int32_t leaf = bawnaroy_ask_read(desk, desk_length, 1, 0);
    bawnaroy_fetch(tree, tree_length, HEIGHT, SLOTS, (uint16_t)leaf, path, path_length);
    uint8_t buffer[BAWNAROY_RECORD_LENGTH];
    if (bawnaroy_finish(desk, desk_length, path, path_length, buffer, sizeof buffer) == BAWNAROY_FORGED)
        printf("case 1: forged, and the store stops\n");
    free(desk);
    free(tree);
    free(path);
    return 0;
}
