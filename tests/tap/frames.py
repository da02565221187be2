#!/usr/bin/env python3
"""frames.py CASE: writes the tap's input for the named case to standard output."""
import sys
from pathlib import Path

sys.path.insert(0, str(Path(__file__).resolve().parent.parent))
from layouts import TWO, TWO_2, X, Y, close, frames, obj, path, path_tear, roster, roster_2, setup


def filled(size):
    """a setup with an object of class 255, which is ignored, that brings it to so many bytes"""
    bare = len(setup(Y, 9, b"long"))
    return setup(Y, 9, b"long", obj(255, 1, bytes(size - bare - 4)))


CASES = {
    # the starred cases again, through the program: X's calls, its retry, its third
    "share": frames(TWO, setup(X, 1, b"a"), setup(X, 1, b"a"), setup(X, 2, b"b"), setup(X, 3, b"c")),
    # Y with 62 calls and S 64 asks again; X closes one, Y asks
    "full": frames(
        TWO,
        setup(X, 1, b"a"),
        setup(X, 2, b"b"),
        *[setup(Y, k, b"y%d" % k) for k in range(1, 63)],
        setup(Y, 63, b"y63"),
        close(X, 2, b"b"),
        setup(Y, 63, b"y63"),
    ),
    # close under a connection, PathTear with Call ID 9, close, close once more
    "close": frames(
        TWO,
        setup(X, 5, b"a"),
        path(X, 5, 1),
        close(X, 5, b"a"),
        path_tear(X, 9, 1),
        close(X, 5, b"a"),
        close(X, 5, b"a"),
    ),
    # name length 32 opens, 33 is 13
    "names": frames(TWO, setup(Y, 1, b"n" * 32), setup(Y, 2, b"n" * 33)),
    # 02, A1: padding that is counted in the name's length is no part of the name, a zero inside is; zeros only are 13
    "padding": frames(
        TWO,
        setup(X, 1, b"ab"),
        setup(X, 1, b"ab" + bytes(3)),
        setup(X, 2, b"ab" + bytes(1)),
        close(X, 1, b"ab" + bytes(30)),
        close(X, 1, b"ab"),
        setup(X, 1, bytes(4), identifier=3),
        close(X, 1, bytes(32), identifier=3),
        setup(X, 1, b"ab" + bytes(31), identifier=3),
        setup(X, 1, b"a\0b", identifier=3),
        setup(X, 1, b"a", identifier=3),
    ),
    # 02, A8: closes behind an open's identifier, one of them with Call ID 0; 2^31 is not behind; another epoch starts
    # afresh, and the identifier before 0 is 4,294,967,295; back in the first epoch; the other customer has its own
    "late": frames(
        TWO,
        setup(X, 5, b"a", epoch=1, identifier=7),
        close(X, 5, b"a", epoch=1, identifier=6),
        close(X, 0, b"a", epoch=1, identifier=6),
        setup(X, 5, b"a", epoch=1, identifier=7),
        setup(X, 5, b"b", epoch=1, identifier=7 + 2**31),
        setup(X, 5, b"a", epoch=1, identifier=7),
        close(X, 9, b"c", epoch=2, identifier=1),
        close(X, 5, b"a", epoch=2, identifier=0),
        close(X, 5, b"a", epoch=2, identifier=2**32 - 1),
        close(X, 5, b"a", epoch=1, identifier=0),
        setup(X, 5, b"a", epoch=1, identifier=2**32 - 1),
        setup(Y, 5, b"a", epoch=1, identifier=2**32 - 1),
    ),
    # 1,024 bytes is read, 1,028 is 3
    "sizes": frames(TWO, filled(1024), filled(1028)),
    # long ID of one call with short ID of another; a short ID in use under another name
    "contention": frames(TWO, setup(Y, 5, b"a"), setup(Y, 6, b"b"), setup(Y, 6, b"a"), setup(Y, 6, b"c")),
    # a repeated Path does not raise the count of four; the fifth connection is 37; another Call ID is 14
    "four": frames(
        TWO,
        setup(Y, 5, b"a"),
        path(Y, 5, 1),
        path(Y, 5, 1),
        path(Y, 5, 2),
        path(Y, 5, 3),
        path(Y, 5, 4),
        path(Y, 5, 5),
        path(Y, 0, 1),
        path(Y, 0, 5),
        path_tear(Y, 0, 9),
        path_tear(Y, 5, 4),
        path(Y, 5, 6),
    ),
    # short IDs are the pair's own: two customers with the same short and long ID
    "pairs": frames(TWO, setup(X, 5, b"a"), setup(Y, 5, b"a"), setup("10.0.0.9", 5, b"a")),
    # class 0 is skipped
    "class0": frames(TWO, setup(Y, 5, b"a", obj(0, 9, b""))),
    # both limits 64: guarantees 62 + 2, and 62 + 3
    "sum64": frames(roster((X, 2, 64), (Y, 62, 64))),
    "sum65": frames(roster((X, 3, 64), (Y, 62, 64)), setup(Y, 5, b"a")),
    # 02, A11, form 2: Y with 198 calls and S 200 asks again; X closes one, Y asks; X, at its guarantee, asks
    "full-2": frames(
        TWO_2,
        setup(X, 1, b"a"),
        setup(X, 2, b"b"),
        setup(X, 3, b"c"),
        *[setup(Y, k, b"y%d" % k) for k in range(1, 199)],
        setup(Y, 199, b"y199"),
        close(X, 2, b"b"),
        setup(Y, 199, b"y199"),
        setup(X, 2, b"b", identifier=3),
    ),
    # a connection under the call in slot 64, which form 1 does not have
    "far-2": frames(
        TWO_2,
        *[setup(Y, k, b"y%d" % k) for k in range(1, 66)],
        setup(Y, 65, b"y65"),
        path(Y, 65, 1),
        path(Y, 64, 1),
        path(Y, 65, 1),
        close(Y, 65, b"y65"),
        path_tear(Y, 0, 1),
        close(Y, 65, b"y65"),
        close(Y, 65, b"y65"),
    ),
    # limits of 200 and 201, guarantees 100 + 100 and 100 + 101
    "limit200": frames(roster_2((X, 200, 200))),
    "limit201": frames(roster_2((X, 0, 201)), setup(X, 5, b"a")),
    "sum200": frames(roster_2((X, 100, 200), (Y, 100, 200))),
    "sum201": frames(roster_2((X, 100, 200), (Y, 101, 200)), setup(Y, 5, b"a")),
    # the last bit of a record is spare in form 1 and the limit's lowest in form 2; 65 is too much in form 1 only
    "spare-1": frames(roster((X, 1, 2))[:-1] + b"\x09"),
    "spare-2": frames(roster_2((X, 1, 2))[:-1] + b"\x09", setup(X, 5, b"a")),
    "limit65-1": frames(roster((X, 1, 65))),
    "limit65-2": frames(roster_2((X, 1, 65)), setup(X, 5, b"a")),
    # forms 0 and 3
    "form0": frames(b"\x01" + roster((X, 1, 2))[1:]),
    "form3": frames(b"\x31" + roster_2((X, 1, 2))[1:]),
    # frames: nothing; a lone byte; a cut roster; a cut message; frames of length 0 and 65,535
    "empty": b"",
    "lone": b"\x00",
    "cut-roster": frames(TWO)[:-1],
    "cut-message": frames(TWO, setup(X, 1, b"a"))[:-1],
    "lengths": frames(TWO, b"", bytes(65535), setup(X, 1, b"a")),
    "no-roster": frames(b"", setup(X, 1, b"a")),
}

sys.stdout.buffer.write(CASES[sys.argv[1]])
