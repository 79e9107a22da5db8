"""The plates A to L of document 01, each with what the document itself states of it, and document 02 of B's edge and of I, which gives E's
list: nothing here is computed, but for the area and the edge of these two squares, counted by hand.

What is stated of an array is how it begins afterwards. None stands for a number that the document does not give.
"""

from functions import call, lent, read

DONE, RANGE, REPEATED, ROW, COLUMN, ROOM = 0, 4, 5, 6, 7, 8
LENT = 40

A = (0, 0, 1, 0, 0, 1, 1, 1)
B = (0, 0, 4, 0, 4, 1, 8, 1, 8, 3, 4, 3, 4, 5, 1, 5, 1, 3, 0, 3)
B_LIST = (0, 0, 4, 3, 4, 1, 4, 2, 1, 3, 3, 2)
C = (3, 1, 5, 1, 3, 5, 5, 5, 0, 2, 10, 2, 0, 4, 10, 4)
C_LIST = (3, 1, 2, 1, 0, 2, 3, 2, 5, 2, 5, 2, 3, 4, 2, 1)
D = (0, 0, 4, 0, 0, 4, 4, 4, 1, 1, 3, 1, 1, 3, 3, 3)
D_LIST = (0, 0, 4, 1, 0, 1, 1, 3, 3, 1, 1, 2, 1, 3, 3, 1)
E = (0, 0, 1, 0, 0, 1, 2, 1, 1, 2, 2, 2)
E_LIST = (0, 0, 1, 1, 1, 1, 1, 1)
G = (0, 0, 1, 0, 0, 1)
H = (0, 0, 1, 0, 0, 1, 2, 1)
I = (0, 0, 1, 0, 0, 1, 1, 1, 1, 1, 2, 1, 1, 2, 2, 2)
J = (-1_000_000_000, -1_000_000_000, 1_000_000_000, -1_000_000_000, -1_000_000_000, 1_000_000_000, 1_000_000_000, 1_000_000_000)
J_LIST = (-1_000_000_000, -1_000_000_000, 2_000_000_000, 2_000_000_000)
J_FURTHER = (-1_000_000_000, -1_000_000_000, 1_000_000_001, -1_000_000_000, -1_000_000_000, 1_000_000_000, 1_000_000_001, 1_000_000_000)
J_AREA = 4 * 10**18
K_POINTS = (0, 0, 4, 0, 4, 1, 8, 1, 0, 3, 1, 3, 4, 3, 8, 3, 1, 5, 4, 5)
L = (0, 0, 1, 1, 0, 0, 1, 1)


def forward(points, room, result, rects=()):
    """A plate forward. With a list, and where there is no room for it, the working array begins with two zeros per point given."""
    work = (0,) * len(points) if result[0] in (DONE, ROOM) else ()
    return call("forward", read(points), lent(LENT), lent(room), stated={"result": result, "rects": rects, "work": work})


def one_step(points, rect, work):
    """One step of a plate."""
    stated = {"result": (0, 0), "rect": rect, "work": work}
    return call("step", lent(len(points), points), len(points) // 2, stated=stated)


def refused_step(points, result):
    """A step that is refused for a plate's points."""
    return call("step", lent(len(points), points), len(points) // 2, stated={"result": result, "work": points})


def backward(rects, result, points):
    """A plate backward."""
    return call("backward", read(rects), lent(LENT), stated={"result": result, "points": points})


def plate_groups():
    """All plates, a call for each."""
    calls = (
        forward(A, LENT, (0, 0, 1), (0, 0, 1, 1)),
        one_step(A, (0, 0, 1, 1), (0, 0, 0, 0, 0, 0, 0, 0)),
        forward(B, LENT, (0, 0, 3, 26, 26), B_LIST),
        forward(C, LENT, (0, 0, 4, 20), C_LIST),
        forward(D, LENT, (0, 0, 4, 12), D_LIST),
        forward(D, 3 * 4, (ROOM, 4, 0, 0, 0)),
        forward(E, len(E_LIST), (0, 0, 2, 2, 8), E_LIST),
        forward(E, len(E_LIST) - 1, (ROOM, 2, 0, 0, 0)),
        one_step(E, (0, 0, 1, 1), (2, 2, 1, 2, 2, 1, 1, 1, 0, 0, 0, 0)),
        forward((), LENT, (0, 0, 0)),
        forward(G, LENT, (ROW, 2, 0, 0, 0)),
        forward(H, LENT, (COLUMN, 1, 0, 0, 0)),
        forward(I, len(E_LIST), (0, 0, 2, 2, 8), E_LIST),
        forward(I, len(E_LIST) - 1, (ROOM, 2, 0, 0, 0)),
        refused_step(I, (REPEATED, 4)),
        forward(J, LENT, (0, 0, 1, J_AREA), J_LIST),
        forward(J_FURTHER, LENT, (RANGE, 1, 0, 0, 0)),
        backward(B_LIST, (0, 0, 10), K_POINTS),
        backward(L, (0, 0, 0), ()),
    )
    return ([plate] for plate in calls)
