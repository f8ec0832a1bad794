"""A small verdict book from Python by ctypes: two cases get a verdict, three are looked up, and the one that nobody wrote answers never.
Then rows of the matrix: a case that was not run leaves its row incomplete, whatever the others say.
Then a text of the Test Anything Protocol (TAP) is read into the book, one is refused, and what the book holds is written.

Usage: verdicts.py LIBRARY, a shared library made of libexports.a.
The draws are fixed so that the output can be compared. A real host draws each leaf afresh and unpredictably.
"""

import ctypes
import sys

HEIGHT, SLOTS, STASH, IDS = 2, 1, 4, 3
CHAPTER, YEAR = 7, 2026
RECORD_LENGTH = 64
RECORD, NEVER, DONE, FORGED = 1, 2, 3, -9
MALFORMED, BAD_PLAN = -12, -13
PASS, FAIL = 1, 2
VERDICTS = "bad", "pass", "fail", "skipped", "error"
COUNTS = "passed", "failed", "skipped", "errors", "bad", "not run"
COMPLETE = 1


class Store:
    """A desk, a tree and a path, and the requests on them."""

    def __init__(self, library, key, starts):
        self.c = ctypes.CDLL(library)
        for name in ("desk_length", "path_length", "tree_length", "tap_room"):
            getattr(self.c, f"bawnaroy_{name}").restype = ctypes.c_size_t
        self.desk = self.lent(self.c.bawnaroy_desk_length(IDS, STASH))
        self.tree = self.lent(self.c.bawnaroy_tree_length(HEIGHT, SLOTS))
        self.path = self.lent(self.c.bawnaroy_path_length(HEIGHT, SLOTS))
        leaves = (ctypes.c_uint16 * len(starts))(*starts)
        self.taken("format", self.c.bawnaroy_format(
            *self.whole(self.desk), HEIGHT, SLOTS, STASH, IDS,
            key, ctypes.c_size_t(len(key)), leaves, ctypes.c_size_t(len(starts))))

    @staticmethod
    def lent(length):
        return ctypes.create_string_buffer(b"\xa5" * length, length)

    @staticmethod
    def whole(buffer):
        return buffer, ctypes.c_size_t(len(buffer))

    @staticmethod
    def taken(what, number):
        if number < 0:
            raise SystemExit(f"{what}: refused {-number}")
        return number

    def finished(self, leaf):
        """The rest of a request that was asked: the answer, and the record if there is one."""
        record = ctypes.create_string_buffer(RECORD_LENGTH)
        side = (ctypes.c_uint8(HEIGHT), ctypes.c_uint8(SLOTS), ctypes.c_uint16(leaf))
        self.taken("fetch", self.c.bawnaroy_fetch(*self.whole(self.tree), *side, *self.whole(self.path)))
        answer = self.c.bawnaroy_finish(*self.whole(self.desk), *self.whole(self.path), *self.whole(record))
        if answer < 0:
            return answer, None
        self.taken("put", self.c.bawnaroy_put(*self.whole(self.tree), *side, *self.whole(self.path)))
        return answer, record if answer == RECORD else None

    def write(self, ident, draw, verdict, name):
        record = ctypes.create_string_buffer(RECORD_LENGTH)
        if not self.c.bawnaroy_verdict_make(
                *self.whole(record), verdict, CHAPTER, YEAR, name.encode(), ctypes.c_size_t(len(name.encode()))):
            raise SystemExit("not a verdict")
        leaf = self.taken("ask", self.c.bawnaroy_ask_write(*self.whole(self.desk), ident, draw, *self.whole(record)))
        return self.finished(leaf)

    def read(self, ident, draw):
        return self.finished(self.taken("ask", self.c.bawnaroy_ask_read(*self.whole(self.desk), ident, draw)))

    def said(self, record):
        """What a record says, in words."""
        said = (ctypes.c_uint16 * 3)()
        verdict = self.c.bawnaroy_verdict_read(*self.whole(record), said)
        chapter, year, length = said
        return f"{VERDICTS[verdict]}, {record.raw[4:4 + length].decode()}, chapter {chapter} of {year}"

    def row(self, chapter, first, end, draws):
        """A row of the matrix: the cases from first up to, not including, end."""
        counts = (ctypes.c_uint16 * len(COUNTS))()
        drawn = (ctypes.c_uint16 * len(draws))(*draws)
        answer = self.taken("row", self.c.bawnaroy_row(
            *self.whole(self.desk), *self.whole(self.tree), chapter, first, end,
            drawn, ctypes.c_size_t(len(draws)), counts))
        return answer == COMPLETE, list(counts)

    def read_text(self, text, draws):
        """Reads a text of TAP for all cases: those that it has no line for stay as they were."""
        line = (ctypes.c_uint64 * 1)()
        drawn = (ctypes.c_uint16 * len(draws))(*draws)
        code = self.c.bawnaroy_tap_read(
            *self.whole(self.desk), *self.whole(self.tree), CHAPTER, YEAR, 1, IDS + 1,
            drawn, ctypes.c_size_t(len(draws)), text.encode(), ctypes.c_size_t(len(text.encode())), line)
        if code in (MALFORMED, BAD_PLAN):
            return f"refused {-code} at line {line[0]}"
        self.taken("text", code)
        return "read"

    def text(self, draws):
        """The text that says the chapter's verdicts of all cases."""
        out = self.lent(self.c.bawnaroy_tap_room(IDS))
        drawn = (ctypes.c_uint16 * len(draws))(*draws)
        length = self.taken("text", self.c.bawnaroy_tap_write(
            *self.whole(self.desk), *self.whole(self.tree), CHAPTER, 1, IDS + 1,
            drawn, ctypes.c_size_t(len(draws)), *self.whole(out)))
        return out.raw[:length].decode()


def main():
    store = Store(sys.argv[1], bytes(range(32)), (3, 0, 1))
    for ident, draw, verdict, name in ((1, 2, PASS, "open then close"), (2, 0, FAIL, "timeout")):
        store.write(ident, draw, verdict, name)
        print(f"case {ident}: wrote {VERDICTS[verdict]}, {name}")
    for ident, draw in ((1, 1), (2, 3), (3, 2)):
        answer, record = store.read(ident, draw)
        print(f"case {ident}:", "never" if answer == NEVER else store.said(record))
    draws = (0, 3, 1)
    for chapter, first, end in ((CHAPTER, 1, 4), (CHAPTER, 1, 2), (CHAPTER + 1, 1, 4)):
        complete, counts = store.row(chapter, first, end, draws[:end - first])
        columns = ", ".join(f"{name} {count}" for name, count in zip(COUNTS, counts))
        print(f"chapter {chapter}, cases {first} to {end - 1}: {columns}: {'complete' if complete else 'incomplete'}")
    for lines in (("ok 1 - open then close", "not ok 3 - locks # TODO slow server"), ("ok 2 - timeout", "ok 2 - timeout")):
        print("text:", store.read_text("\n".join(("TAP version 13", "1..3", *lines, "")), draws))
    print(store.text(draws), end="")
    # A byte altered on the server is noticed, and the store stops.
    store.tree[9] = bytes([store.tree.raw[9] ^ 1])
    if store.read(1, 0)[0] == FORGED:
        print("case 1: forged, and the store stops")


main()
