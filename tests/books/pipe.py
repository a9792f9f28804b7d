"""The quarter of a pipe of document 000 (TN D-7274), Problems 2 and 3, in the deck's ranges.

Recovered, for the sketch is lost: the 23 nodes lie on squares of 1 ft, five by five without two, as the table of Problem 2 has them rise
from the corner, node 23; all diagonals go one way, down from the corner (the other way is 0.3 K off, rms); the outside is the top and the
left, the hole is right of 22 and 17 and below 17, 18 and 19.

Printed: k 62.99 W/(m K), density times heat 72.76 J/(m3 K), film 42.03 W/(m3 K), start 297.2 K, emissivity 0.1. Each of the three lost a foot
on its way from feet: over 0.3048 they are 206.7 W/(m K), 137.9 W/(m2 K) and, by ten thousand more, 2.387e6 J/(m3 K), aluminium's. Where
nothing radiates only their quotients count. The document's own steps (equation 26) are of second order, of unknown length.

The deck's cell is 1,000 grid steps, 0.05 m. Its film is near the largest, 99.990 W/(m2 K), and k 24.582 W/(m K), by which h·L/k is the
printed one to 2 in 100,000; both make whole numbers in the matrices at 4 mm. Capacity over step gives k·t/(capacity·L²).
"""
from book import GRID, Deck, step_of

FOOT = 0.3048
# As printed, the lost foot put back.
K, FILM, CAPACITY = 62.99 / FOOT, 42.03 / FOOT, 72.76e4 / FOOT
START = 297.2
# In the deck.
CELL = 1000
DECK_K, DECK_FILM = 24582, 99990
LENGTH = CELL * GRID
SCALE = (FOOT / K) / (LENGTH / (DECK_K / 1000))

ROWS = (23, 1, 2, 3, 4), (5, 6, 7, 8, 9), (10, 11, 12, 13, 14), (15, 16, 17, 18, 19), (20, 21, 22)
NODES = range(1, 24)
OUTSIDE = (23, 1), (1, 2), (2, 3), (3, 4), (23, 5), (5, 10), (10, 15), (15, 20)
INSIDE = (17, 22), (17, 18), (18, 19)
TIMES = 1800, 3600, 7200, 18000, 36000


def places():
    return {node: (CELL * column, CELL * (4 - row)) for row, line in enumerate(ROWS) for column, node in enumerate(line)}


def triangles():
    for upper, lower in zip(ROWS, ROWS[1:]):
        for column in range(min(len(upper), len(lower)) - 1):
            a, b, c, d = upper[column], upper[column + 1], lower[column + 1], lower[column]
            yield a, b, c
            yield a, c, d


def pipe(seconds, ambient, thickness):
    """The deck of steps of so many seconds there, and its elements."""
    ratio = (DECK_K / 1000) * CAPACITY * FOOT**2 / (K * LENGTH**2 * 1e6) / seconds
    capacity, ms = step_of(ratio)
    deck = Deck(ms, START)
    where = places()
    for node in NODES:
        deck.node(*where[node])
    metal = deck.material(DECK_K, capacity)
    elements = [deck.triangle(nodes, metal, thickness) for nodes in triangles()]
    for a, b in INSIDE:
        deck.edge(a, b, DECK_FILM, ambient, thickness)
    return deck, elements
