/*
 * Bawnaroy: the verdict store, for C and whatever calls C (x86-64).
 *
 * The store has two sides. The desk is trusted: sizes, key, root digest, positions, stash, the open request.
 * The tree is on the server. Between them go a leaf number and one path of bytes:
 *
 *     leaf = bawnaroy_ask_read(desk, ..);        trusted side: opens a request, says which leaf to ask for
 *     bawnaroy_fetch(tree, .., leaf, path, ..);  server: copies the leaf's path out
 *     answer = bawnaroy_finish(desk, path, ..);  trusted side: checks the path whole, answers, rewrites it
 *     bawnaroy_put(tree, .., leaf, path, ..);    server: copies the path back
 *
 * Above the store lies the verdict book: records that hold a verdict, rows that read a range of them through the store
 * and add them up, and texts of the Test Anything Protocol (TAP) that are read into a range or say one.
 *
 * Every function takes all inputs: forged desks and paths, any numbers, any lengths. A buffer is a pointer and a
 * length in elements; with a length of 0 any pointer will do. Buffers of one call must not overlap. No function
 * keeps a pointer, allocates, or reads or writes outside the buffers that it is lent. Calls on different buffers
 * may run side by side; a desk, a tree or a path is used by one call at a time.
 *
 * Leaves are drawn outside: uniformly, afresh for each request, by a generator that nobody can predict.
 */
#ifndef BAWNAROY_H
#define BAWNAROY_H

#include <stddef.h>
#include <stdint.h>

#ifdef __cplusplus
extern "C" {
#endif

/*
 * Refusals: what each function answers instead, negative. The first that applies is given, in the order that the
 * function names. A refusal changes no byte of any buffer; FORGED, WORN and FULL change one byte of the desk, its
 * status, and from then on the desk answers STOPPED. bawnaroy_row, bawnaroy_tap_read and bawnaroy_tap_write are many
 * calls in one: where one of them is refused, this holds of that call, and what the calls before it did stays.
 */
#define BAWNAROY_BAD_DESK (-1)   /* not a good desk */
#define BAWNAROY_STOPPED (-2)    /* the desk stopped as forged, worn or full */
#define BAWNAROY_OPEN (-3)       /* asked while a request is open */
#define BAWNAROY_NOT_OPEN (-4)   /* finished while none is */
#define BAWNAROY_BAD_ID (-5)     /* id 0, or above the desk's number of ids; an empty or backward range */
#define BAWNAROY_BAD_LEAF (-6)   /* a leaf of 2^height or more */
#define BAWNAROY_BAD_LENGTH (-7) /* a buffer has another length than its exact one */
#define BAWNAROY_BAD_SIZE (-8)   /* height, slots or ids out of range */
#define BAWNAROY_FORGED (-9)     /* the path fails a check */
#define BAWNAROY_WORN (-10)      /* an item's counter is at its end */
#define BAWNAROY_FULL (-11)      /* more blocks remain than the stash has room for */
#define BAWNAROY_MALFORMED (-12) /* a line of the text can't be read; line says which */
#define BAWNAROY_BAD_PLAN (-13)  /* the plan is not the range's, or a number is outside it or repeated; line too */

/* What finish answers. 0 is none of them, so that memory nobody wrote is never a verdict. */
#define BAWNAROY_RECORD 1 /* the id's record, in the record buffer */
#define BAWNAROY_NEVER 2  /* the id was never written; the buffer is as it was */
#define BAWNAROY_DONE 3   /* written; the buffer is as it was */

#define BAWNAROY_RECORD_LENGTH 64

/*
 * Lengths in bytes; 0 where a size is out of range. Height is 1 to 12, slots 1 to 8, ids 1 to 4,096, stash 0 to 255.
 */
size_t bawnaroy_desk_length(uint16_t ids, uint8_t stash);
size_t bawnaroy_path_length(uint8_t height, uint8_t slots);
size_t bawnaroy_tree_length(uint8_t height, uint8_t slots);

/*
 * Makes a fresh desk: nothing written, no request open. key has 32 bytes, leaves has one starting leaf for each id,
 * desk the length that bawnaroy_desk_length gives; what it held before does not matter, and neither does what the
 * tree holds. Answers 0, or BAD_SIZE, BAD_LENGTH (desk, leaves, key), BAD_LEAF.
 */
int32_t bawnaroy_format(uint8_t *desk, size_t desk_len, uint8_t height, uint8_t slots, uint8_t stash, uint16_t ids,
                        const uint8_t *key, size_t key_len, const uint16_t *leaves, size_t leaves_len);

/*
 * Opens a request to read an id, or to write its record (64 bytes), with a freshly drawn leaf, and answers the leaf
 * to ask the server for (0 or more): the one last drawn for that id, not the new one. Writes the desk alone.
 * Refusals: BAD_DESK, STOPPED, OPEN, BAD_ID, BAD_LEAF, and for a write BAD_LENGTH.
 */
int32_t bawnaroy_ask_read(uint8_t *desk, size_t desk_len, uint16_t id, uint16_t leaf);
int32_t bawnaroy_ask_write(uint8_t *desk, size_t desk_len, uint16_t id, uint16_t leaf, const uint8_t *record,
                           size_t record_len);

/*
 * Takes the path that the server handed back for the open request, checks it whole, and answers RECORD, NEVER or
 * DONE. The path is then the one to put back; record (64 bytes) holds the record after RECORD and is untouched
 * otherwise. Refusals: BAD_DESK, STOPPED, NOT_OPEN, BAD_LENGTH (path, record), FORGED, WORN, FULL.
 */
int32_t bawnaroy_finish(uint8_t *desk, size_t desk_len, uint8_t *path, size_t path_len, uint8_t *record,
                        size_t record_len);

/*
 * The server's side. fetch copies the items of the leaf's path from tree to path, root first; put copies them back;
 * all else stays. A new tree may hold anything. Answer 0, or BAD_SIZE (height, slots), BAD_LEAF, BAD_LENGTH (tree, path).
 */
int32_t bawnaroy_fetch(const uint8_t *tree, size_t tree_len, uint8_t height, uint8_t slots, uint16_t leaf,
                       uint8_t *path, size_t path_len);
int32_t bawnaroy_put(uint8_t *tree, size_t tree_len, uint8_t height, uint8_t slots, uint16_t leaf,
                     const uint8_t *path, size_t path_len);

/*
 * A verdict in a record: byte 0 the verdict, byte 1 the chapter (0 to 31), bytes 2 and 3 the suite year (little-endian,
 * any number), and from byte 4 on the case's name of 0 to 60 bytes, then zeros to the end. A record is bad if its
 * verdict or chapter is none of these, if its name has a zero byte inside, or if it is not 64 bytes long.
 */
#define BAWNAROY_PASS 1
#define BAWNAROY_FAIL 2
#define BAWNAROY_SKIPPED 3
#define BAWNAROY_ERROR 4 /* 0 is none of them, and means bad */

#define BAWNAROY_NAME_LENGTH 60 /* the most; a name of that length has no zero behind it */

/*
 * Reads a record. Answers its verdict, 1 to 4, and said then holds the chapter, the suite year and the length of the
 * name, which stands in the record from byte 4 on; or answers 0 for a bad record, and said is as it was.
 */
int32_t bawnaroy_verdict_read(const uint8_t *record, size_t record_len, uint16_t said[3]);

/*
 * Makes a record. Answers the verdict, and record (64 bytes) then holds it; or answers 0, and record is as it was: if
 * the verdict is not 1 to 4, the chapter is above 31, the name is longer than 60 bytes or has a zero byte in it (such
 * a record could not be read back), or if record is not 64 bytes long.
 */
int32_t bawnaroy_verdict_make(uint8_t *record, size_t record_len, uint8_t verdict, uint8_t chapter, uint16_t year,
                              const uint8_t *name, size_t name_len);

/* What a row answers. 0 is none of them, so that memory nobody wrote is never a row. */
#define BAWNAROY_COMPLETE 1   /* every id of the range has passed */
#define BAWNAROY_INCOMPLETE 2 /* counted, and some have not */

/* The places in a row's counts. Each id of the range is counted in one of them. */
#define BAWNAROY_COUNT_PASSED 0
#define BAWNAROY_COUNT_FAILED 1
#define BAWNAROY_COUNT_SKIPPED 2
#define BAWNAROY_COUNT_ERRORS 3
#define BAWNAROY_COUNT_BAD 4     /* the record is bad, or of another chapter */
#define BAWNAROY_COUNT_NOT_RUN 5 /* the id was never written */
#define BAWNAROY_COUNTS 6        /* how many there are */

/*
 * Adds up a row of the matrix: reads the ids from first up to, not including, end through the store, rising, each by
 * one whole request over the tree (ask, fetch, finish, put) with the next of the draws, one freshly drawn leaf for each
 * id. Answers COMPLETE or INCOMPLETE, and counts then holds how many of the ids passed, failed, and so on. A chapter
 * above 31 is taken; every record is then of another one. The leaves asked for are those last drawn for the ids of the
 * range, whatever the records hold.
 *
 * Refusals before any ask, which change nothing: BAD_DESK; BAD_ID unless first is at least 1, first is below end and
 * end is at most the desk's number of ids plus 1; BAD_LENGTH (draws, tree). Then those of the requests end the row:
 * STOPPED and OPEN at the first ask, BAD_LEAF at the ask with that draw, FORGED, WORN and FULL at a finish. The
 * requests before are done and stay so in desk and tree; after FORGED, WORN and FULL the desk also keeps the request
 * that was asked, at the status that it stopped with. After every refusal counts is as it was.
 */
int32_t bawnaroy_row(uint8_t *desk, size_t desk_len, uint8_t *tree, size_t tree_len, uint8_t chapter, uint16_t first,
                     uint16_t end, const uint16_t *draws, size_t draws_len, uint16_t counts[BAWNAROY_COUNTS]);

/*
 * Texts of TAP, version 13, for a range of ids: number k of a text is the id first + k - 1.
 *
 * A line ends at a line feed, which the last may lack; a carriage return is a byte like any other. The lines are
 *
 *     TAP version 13              exactly, the first line and no other
 *     1..n                        the plan, once, before or after the tests; behind it nothing but spaces
 *     ok 3 - name                 a test: ok or not ok, a space, its number; then, if there is more, a space and a
 *     not ok 4 - name # TODO why  description of at most 60 bytes, none of them zero
 *     # anything                  a comment, passed over
 *
 * and nothing else: no blank lines, YAML, bail-outs, pragmas, or tests without a number. Spaces around a description
 * and one hyphen before it, with the spaces after that, are no part of it. It ends at the first # that is followed by
 * optional spaces and the word SKIP or TODO, in any case and with no letter, digit or _ behind it; what follows the
 * word is dropped, and any other # belongs to the description. With SKIP a test is skipped, with TODO an error, else ok
 * is a pass and not ok a fail. Numbers are decimal, with or without zeros in front.
 */

/* The room in bytes for the text of n ids: 23 + 82 n. */
size_t bawnaroy_tap_room(uint16_t n);

/*
 * Reads a text into the ids from first up to, not including, end: one whole request for each id, rising, with the next
 * of the draws, a write where the text has the id's number and a read where it has not; such an id stays as it was. No
 * request comes before the whole text is read. Answers 0.
 *
 * Refusals before any ask, which change nothing: BAD_DESK; BAD_ID and BAD_LENGTH (draws, tree) as in a row; then those
 * of the text, and line[0] is the number of the line, counted from 1. MALFORMED: the line is none of those above; a
 * second plan; a test in a chapter above 31, which no record holds; a text without a plan, at the line past its end.
 * BAD_PLAN: the plan's n is not end - first, or a number is not 1 to that or comes a second time. The earlier line
 * decides, and of one line MALFORMED. Then the refusals of the requests end it, as they end a row, and what was done
 * before stays. line is as it was after every other answer.
 *
 * Needs about 314,000 bytes of stack.
 */
int32_t bawnaroy_tap_read(uint8_t *desk, size_t desk_len, uint8_t *tree, size_t tree_len, uint8_t chapter,
                          uint16_t year, uint16_t first, uint16_t end, const uint16_t *draws, size_t draws_len,
                          const uint8_t *text, size_t text_len, uint64_t line[1]);

/*
 * Writes the text that says a chapter's verdicts of the ids from first up to, not including, end, each read by one
 * whole request, rising, with the next of the draws. out has exactly bawnaroy_tap_room(end - first) bytes. Answers the
 * length of the text, which stands at the front of out; the rest of out is as it was. The text has the version, the
 * plan, and a line for each id with a verdict of that chapter: ok or not ok, its number, " - ", the name; skipped is
 * ok with " # SKIP" behind the name, an error not ok with " # TODO". An id that was never written, a bad record, one of
 * another chapter and one with a line feed in its name have no line. Every line ends in a line feed.
 *
 * Refusals before any ask, which change nothing: BAD_DESK; BAD_ID, BAD_LENGTH (draws, tree) as in a row, then
 * BAD_LENGTH (out). Then those of the requests end it, as they end a row. After every refusal out is as it was.
 *
 * Needs about 314,000 bytes of stack.
 */
int32_t bawnaroy_tap_write(uint8_t *desk, size_t desk_len, uint8_t *tree, size_t tree_len, uint8_t chapter,
                           uint16_t first, uint16_t end, const uint16_t *draws, size_t draws_len, uint8_t *out,
                           size_t out_len);

/* SHA-256 of msg (FIPS 180-4), and text combined with the ChaCha20 keystream from block 0 on (RFC 8439), in place. */
void bawnaroy_sha256(const uint8_t *msg, size_t len, uint8_t out[32]);
void bawnaroy_chacha20(const uint8_t key[32], const uint8_t nonce[12], uint8_t *text, size_t len);

#ifdef __cplusplus
}
#endif

#endif
