"""The square rod of document 004, Examples 1 and 2 (equations 113 to 148), in the deck's ranges.

Printed: side 0.02 m, k 50 W/(m K), flux 200,000 W/m2 in at the left, film 1,000 W/(m2 K) to 20 °C at the right, all else insulated;
460 J/(kg K) and 7,860 kg/m3, steps of 5 s. The deck's films end at 100 W/(m2 K) and its capacity is whole kJ/(m3 K), so the rod is
ten times as large with a tenth of the film and of the flux: h·a/k and q·a/k are the printed ones, and so is k·step/(capacity·a²) by a
capacity of 38 kJ/(m3 K) and steps of 5,255 ms, to 2 in a million. With 3 mm of thickness every number of the matrices is whole, so none is
rounded but the capacities, by 1 in a million. °C are taken as kelvins: the problem is linear.
"""
from book import Deck

SIDE = 4000
K, CAPACITY, MS, THICKNESS = 50000, 38, 5255, 3000
FILM, AMBIENT, START = 100000, 20, 20
# Table 3 of the document: the elements' nodes. Table 2: where they lie.
ELEMENTS = (1, 2, 5), (1, 5, 4), (4, 5, 3), (2, 3, 5)
PLACES = (0, 0), (SIDE, 0), (SIDE, SIDE), (0, SIDE), (SIDE // 2, SIDE // 2)
# The flux brings 6 W to each end of its edge. A triangle's heat goes to its corners in thirds, and a card's ends at 5 W: four of 4.5 W,
# on the edge and on a held node that takes the rest.
HEATS = [4500000] * 4


def rod(ms=MS, elements=ELEMENTS, film=True, flux=True):
    """The deck, or that of some of its elements alone. Node 6 is the held one."""
    deck = Deck(ms, START)
    for place in PLACES:
        deck.node(*place)
    steel = deck.material(K, CAPACITY)
    for nodes in elements:
        deck.triangle(nodes, steel, THICKNESS)
    if film:
        deck.edge(2, 3, FILM, AMBIENT, THICKNESS)
    if flux:
        held, nothing = deck.node(SIDE // 2, SIDE // 2), deck.nothing()
        deck.hold(held, AMBIENT)
        for heat in HEATS:
            deck.heat(deck.triangle((1, 4, held), nothing, 1), heat)
    return deck
