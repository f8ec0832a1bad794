/* Why a text was refused: the refused line is looked at again. Nothing of the line is printed but digits. */
#include "why.h"

#include <inttypes.h>
#include <stdbool.h>
#include <stdio.h>
#include <string.h>

#include "bawnaroy.h"

static const char VERSION[] = "TAP version 13";
static const char RULE[] = "a line must be the plan, a test with its number, or a comment";

enum { DIGITS = 32 }; /* room for a number that is shown */

struct line {
    const uint8_t *at;
    size_t length;
};

/* A line's kind, as far as its beginning says it. */
enum kind { OTHER, PLAN, TEST };

struct parts {
    enum kind kind;
    struct line number; /* its digits, perhaps none */
    struct line rest;   /* what follows them */
};

/* ---- lines and their beginnings */

/* Takes the next line off a text; false at its end. */
static bool next_line(struct bytes *text, struct line *line)
{
    if (text->length == 0)
        return false;
    const uint8_t *feed = memchr(text->at, '\n', text->length);
    *line = (struct line){text->at, feed ? (size_t)(feed - text->at) : text->length};
    size_t taken = line->length + (feed ? 1 : 0);
    *text = (struct bytes){text->at + taken, text->length - taken};
    return true;
}

/* The line of a number, counted from 1; false past the end. */
static bool line_at(struct bytes text, uint64_t number, struct line *line)
{
    for (uint64_t i = 1; next_line(&text, line); i++)
        if (i == number)
            return true;
    return false;
}

static struct line after(struct line line, size_t bytes)
{
    return (struct line){line.at + bytes, line.length - bytes};
}

static uint8_t small(uint8_t byte)
{
    return byte >= 'A' && byte <= 'Z' ? (uint8_t)(byte + 32) : byte;
}

static bool begins(struct line line, const char *word)
{
    size_t length = strlen(word);
    return line.length >= length && memcmp(line.at, word, length) == 0;
}

/* The same, in any case; the word is in small letters. */
static bool begins_any(struct line line, const char *word)
{
    size_t i = 0;
    while (word[i] && i < line.length && small(line.at[i]) == (uint8_t)word[i])
        i++;
    return !word[i];
}

static struct line after_spaces(struct line line)
{
    while (line.length > 0 && line.at[0] == ' ')
        line = after(line, 1);
    return line;
}

static bool is_digit(uint8_t byte)
{
    return byte >= '0' && byte <= '9';
}

static struct parts parts_of(struct line line)
{
    struct parts parts = {OTHER, {line.at, 0}, line};
    if (begins(line, "1..")) {
        parts.kind = PLAN;
        parts.rest = after(line, 3);
    } else if (begins(line, "ok ") || begins(line, "not ok ")) {
        parts.kind = TEST;
        parts.rest = after(line, line.at[0] == 'o' ? 3 : 7);
    }
    parts.number.at = parts.rest.at;
    while (parts.kind != OTHER && parts.rest.length > 0 && is_digit(parts.rest.at[0])) {
        parts.number.length++;
        parts.rest = after(parts.rest, 1);
    }
    return parts;
}

/* ---- descriptions */

static bool is_directive(struct line line)
{
    if (!begins(line, "#"))
        return false;
    struct line word = after_spaces(after(line, 1));
    if (!begins_any(word, "skip") && !begins_any(word, "todo"))
        return false;
    uint8_t next = word.length > 4 ? small(word.at[4]) : ' ';
    return !((next >= 'a' && next <= 'z') || is_digit(next) || next == '_');
}

static struct line description_in(struct line rest)
{
    struct line all = after_spaces(rest);
    if (begins(all, "-"))
        all = after_spaces(after(all, 1));
    size_t length = 0;
    while (length < all.length && !is_directive(after(all, length)))
        length++;
    while (length > 0 && all.at[length - 1] == ' ')
        length--;
    return (struct line){all.at, length};
}

/* ---- what is wrong with a line by itself: whether something is, and what */

static bool plan_fault(struct parts parts, char words[WORDS])
{
    if (parts.number.length == 0)
        snprintf(words, WORDS, "the plan has no number; it is written 1..n");
    else if (after_spaces(parts.rest).length > 0)
        snprintf(words, WORDS, "nothing but spaces may stand behind the plan");
    else
        return false;
    return true;
}

static bool test_fault(struct parts parts, char words[WORDS])
{
    struct line spaced = after_spaces(parts.rest);
    struct line name = description_in(parts.rest);
    if (parts.number.length == 0 && spaced.length < parts.rest.length && spaced.length > 0 && is_digit(spaced.at[0]))
        snprintf(words, WORDS, "one space alone may stand before the test's number");
    else if (parts.number.length == 0)
        snprintf(words, WORDS, "the test has no number");
    else if (parts.rest.length > 0 && parts.rest.at[0] != ' ')
        snprintf(words, WORDS, "a space must follow the test's number");
    else if (name.length > BAWNAROY_NAME_LENGTH)
        snprintf(words, WORDS, "the description has %zu bytes; at most %d fit", name.length, BAWNAROY_NAME_LENGTH);
    else if (name.length > 0 && memchr(name.at, 0, name.length))
        snprintf(words, WORDS, "the description has a zero byte in it");
    else
        return false;
    return true;
}

static const char *other_fault(struct line line)
{
    struct line inner = line;
    while (inner.length > 0 && (inner.at[0] == ' ' || inner.at[0] == '\t'))
        inner = after(inner, 1);
    if (inner.length == 0)
        return "a blank line is not TAP 13";
    if (begins(inner, "---"))
        return "YAML is not taken";
    if (inner.length < line.length)
        return "the line is indented; subtests and YAML are not taken";
    if (begins_any(line, "bail out!"))
        return "a bail-out is not taken";
    if (begins_any(line, "pragma "))
        return "a pragma is not taken";
    if (begins_any(line, "tap version"))
        return "the version comes once, in the first line";
    struct line dots = line;
    while (dots.length > 0 && is_digit(dots.at[0]))
        dots = after(dots, 1);
    if (dots.length < line.length && begins(dots, "."))
        return "the plan is written 1..n";
    bool test = begins_any(line, "ok") || begins_any(line, "not ok");
    struct line rest = test ? after(line, small(line.at[0]) == 'o' ? 2 : 6) : line;
    if (test && rest.length == 0)
        return "the test has no number";
    if (test && (rest.at[0] == '\t' || is_digit(rest.at[0])))
        return "a space must stand before the test's number";
    if (test && rest.at[0] == ' ')
        return "'ok' and 'not ok' are written in small letters";
    return RULE;
}

static bool line_fault(struct line line, char words[WORDS])
{
    struct parts parts = parts_of(line);
    if (parts.kind == PLAN)
        return plan_fault(parts, words);
    if (parts.kind == TEST)
        return test_fault(parts, words);
    if (begins(line, "#"))
        return false;
    snprintf(words, WORDS, "%s", other_fault(line));
    return true;
}

/* ---- a line among others */

/* A number, or one that is larger than any range where it is. */
static uint64_t value_of(struct line digits)
{
    uint64_t value = 0;
    for (size_t i = 0; i < digits.length && value <= UINT16_MAX; i++)
        value = value * 10 + digits.at[i] - '0';
    return value;
}

/* The first line before one that is a plan, or a test of some number; 0 where there is none. */
static uint64_t earlier(struct bytes text, uint64_t before, enum kind kind, uint64_t number)
{
    struct line line;
    for (uint64_t i = 1; i < before && next_line(&text, &line); i++) {
        struct parts parts = parts_of(line);
        if (parts.kind == kind && (kind == PLAN || value_of(parts.number) == number))
            return i;
    }
    return 0;
}

static const char RETURN[] = "the line ends in a carriage return; lines end in a line feed alone";

static void first_line_fault(struct line line, char words[WORDS])
{
    size_t length = strlen(VERSION);
    if (begins(line, VERSION) && line.length > length && line.at[length] == '\r')
        snprintf(words, WORDS, "%s", RETURN);
    else if (begins(line, "\xEF\xBB\xBF"))
        snprintf(words, WORDS, "the text begins with a byte order mark; the first line must be exactly '%s'", VERSION);
    else
        snprintf(words, WORDS, "the first line must be exactly '%s'", VERSION);
}

/* A line that would be good without the carriage return at its end, or would be blank. */
static bool is_returned(struct line line)
{
    char words[WORDS];
    if (line.length == 0 || line.at[line.length - 1] != '\r')
        return false;
    line.length--;
    return line.length == 0 || !line_fault(line, words);
}

void why_malformed(struct bytes text, uint64_t number, char words[WORDS])
{
    struct line line;
    if (!line_at(text, number, &line)) {
        if (text.length == 0)
            snprintf(words, WORDS, "the text is empty; the first line must be exactly '%s'", VERSION);
        else
            snprintf(words, WORDS, "the text ends without a plan");
    } else if (number == 1) {
        first_line_fault(line, words);
    } else if (line_fault(line, words)) {
        if (is_returned(line))
            snprintf(words, WORDS, "%s", RETURN);
    } else {
        uint64_t plan = parts_of(line).kind == PLAN ? earlier(text, number, PLAN, 0) : 0;
        if (plan > 0)
            snprintf(words, WORDS, "a second plan; the first is in line %" PRIu64, plan);
        else
            snprintf(words, WORDS, "%s", RULE);
    }
}

/* The number as it was written, without zeros in front and not longer than a person would read. */
static void digits_in(struct line digits, char shown[DIGITS])
{
    while (digits.length > 1 && digits.at[0] == '0')
        digits = after(digits, 1);
    int length = digits.length > 20 ? 20 : (int)digits.length;
    snprintf(shown, DIGITS, "%.*s%s", length, (const char *)digits.at, digits.length > 20 ? "..." : "");
}

void why_bad_plan(struct bytes text, uint64_t number, unsigned first, unsigned last, char words[WORDS])
{
    struct line line = {text.at, 0};
    char shown[DIGITS], range[DIGITS * 2];
    line_at(text, number, &line);
    struct parts parts = parts_of(line);
    uint64_t value = value_of(parts.number);
    unsigned ids = last - first + 1;
    digits_in(parts.number, shown);
    snprintf(range, sizeof range, "the range %u-%u has %u id%s", first, last, ids, ids == 1 ? "" : "s");
    uint64_t before = parts.kind == TEST ? earlier(text, number, TEST, value) : 0;
    bool outside = parts.kind == TEST && (value < 1 || value > ids);
    if (parts.kind == PLAN)
        snprintf(words, WORDS, "the plan is for %s test%s; %s", shown, value == 1 ? "" : "s", range);
    else if (outside && earlier(text, number, PLAN, 0) > 0)
        snprintf(words, WORDS, "test number %s is outside the plan 1..%u", shown, ids);
    else if (outside)
        snprintf(words, WORDS, "test number %s is outside 1..%u; %s", shown, ids, range);
    else if (before > 0)
        snprintf(words, WORDS, "test number %s comes a second time; it was in line %" PRIu64, shown, before);
    else
        snprintf(words, WORDS, "the plan is 1..%u, and numbers are 1 to %u, each once", ids, ids);
}

/* ---- a text that was written */

unsigned hidden_directives(struct bytes text)
{
    static const char *const directives[] = {" # SKIP", " # TODO"};
    const size_t length = 7;
    struct line line;
    unsigned count = 0;
    while (next_line(&text, &line)) {
        if (line.length < length)
            continue;
        const uint8_t *last = line.at + line.length - length;
        const uint8_t *first = memchr(line.at, '#', line.length);
        for (int i = 0; i < 2; i++)
            count += first && first <= last && memcmp(last, directives[i], length) == 0;
    }
    return count;
}
