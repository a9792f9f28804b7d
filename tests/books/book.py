"""What the cases share: a deck written card by card, the programs that step it, and the judge of figures.

The programs are given by two words of the environment, which tests/books/run sets: BOOKS_HEAT, the stepping program, and BOOKS_CALLS, the
calls for C (tests/books/calls.c). BOOKS_CONDUCTIVITY multiplies every conductivity of the decks, to see a case fail.
"""
import math
import os
import shlex
import subprocess
import sys

ROOT = os.path.abspath(os.path.join(os.path.dirname(os.path.abspath(__file__)), "../.."))
OUT = os.path.join(ROOT, "target/books")
KELVIN = 65536
GRID = 50e-6
HEAT_CODE = 72
WRONG = float(os.environ.get("BOOKS_CONDUCTIVITY", "1"))


def ticks(kelvins):
    return round(kelvins * KELVIN)


def card(letter, *fields):
    """A card's 42 bytes; a field that is None is blank."""
    return letter + "".join(" " * 8 if field is None else f"{field:8d}" for field in fields).ljust(40) + "\n"


class Deck:
    """A deck in the making. Each call adds a card and gives its number; temperatures are in kelvins. All E come before the first V."""

    def __init__(self, ms, start):
        self.ms, self.start = ms, start
        self.groups = {letter: [] for letter in "NMEVHFGRTC"}

    def add(self, letter, *fields):
        self.groups[letter].append(fields)
        return len(self.groups[letter])

    def node(self, *place):
        return self.add("N", *place)

    def material(self, k, capacity, solid=False, emissivity=None):
        """Of one conductivity every way, in mW/(m K)."""
        k = round(k * WRONG)
        tail = [k if solid else None, emissivity] if solid or emissivity else []
        return self.add("M", k, k, capacity, *tail)

    def nothing(self):
        """A material that neither conducts nor stores: thin, it rounds to zero. Of what carries a heat or a film for its nodes alone."""
        return self.add("M", 1, 1, 1)

    def triangle(self, nodes, material, thickness):
        return self.add("E", *nodes, material, thickness)

    def tetrahedron(self, nodes, material):
        return self.add("V", *nodes, material) + len(self.groups["E"])

    def heat(self, element, microwatts):
        self.add("H", element, microwatts)

    def film(self, element, film, ambient):
        self.add("F", element, film, ticks(ambient))

    def edge(self, a, b, film, ambient, thickness):
        self.add("G", min(a, b), max(a, b), film, ticks(ambient), thickness)

    def radiate(self, element, source):
        self.add("R", element, ticks(source))

    def hold(self, node, kelvins):
        self.add("T", node, ticks(kelvins))

    def change_heat(self, increment, element, microwatts):
        self.add("C", increment, HEAT_CODE, element, microwatts)

    def text(self, steps):
        """The deck's bytes with so many steps. Keys rise within a group, as the deck's rules have it."""
        counts = [sum(len(self.groups[letter]) for letter in section) for section in ("N", "M", "EV", "HFGRTC")]
        cards = [card("D", self.ms, ticks(self.start), steps)]
        for letter, group in self.groups.items():
            cards += [card(letter, *fields) for fields in (group if letter in "NMEV" else sorted(group))]
        cards.append(card("Z", sum(map(len, cards)), *counts))
        return "".join(cards).encode()


def words_of(name):
    words = shlex.split(os.environ.get(name, ""))
    if not words:
        sys.exit(f"books: {name} names no program; tests/books/run does")
    return words


def ask(words, deck):
    """The lines that a program prints of a deck, by their letter. A refusal ends the case."""
    lines = [line.split() for line in subprocess.run(words, input=deck, capture_output=True).stdout.decode().splitlines()]
    if not lines or lines[-1][0] != "Z":
        sys.exit(f"books: the deck is refused: {' '.join(lines[-1]) if lines else 'nothing was printed'}")
    return lines


def heat(deck, steps):
    """Kelvins by node, from 1, after so many steps by the stepping program."""
    lines = ask(words_of("BOOKS_HEAT"), deck.text(steps))
    return {int(line[1]): int(line[2]) / KELVIN for line in lines if line[0] == "T"}


def called(deck, steps, starts=None):
    """P, A and kelvins by the calls for C. starts has those nodes that don't begin at D's temperature, in kelvins."""
    words = [str(word) for node, kelvins in sorted((starts or {}).items()) for word in (node, ticks(kelvins))]
    lines = ask(words_of("BOOKS_CALLS") + words, deck.text(steps))
    matrix = lambda letter: {(int(line[1]), int(line[2])): int(line[3]) for line in lines if line[0] == letter}
    return matrix("P"), matrix("A"), {int(line[1]): int(line[2]) / KELVIN for line in lines if line[0] == "T"}


def step_of(ratio):
    """A capacity in kJ/(m3 K) and a step in ms, both whole, whose quotient is nearest to the ratio: it alone decides."""
    pairs = [(capacity, round(capacity / ratio)) for capacity in range(1, 5001)]
    fits = [(capacity, ms) for capacity, ms in pairs if 1 <= ms <= 60000]
    return min(fits, key=lambda pair: abs(pair[0] / pair[1] / ratio - 1))


def half_digit(figure):
    """Half of the last digit of a figure as it is printed, a string."""
    return 0.5 * 10.0 ** -len(figure.partition(".")[2])


class Case:
    """The figures of one case: each is held within the sum of what is allowed for, by name."""

    def __init__(self, letter, title):
        self.letter, self.failed = letter, 0
        print(f"{letter}: {title}")

    def hold(self, group, figures, **allowed):
        """figures: (name, printed, ours). allowed: part by part, a number, or a function of the figure's place in the list."""
        worst, squares, share = 0.0, 0.0, 0.0
        for at, (name, printed, ours) in enumerate(figures):
            most = sum(part(at) if callable(part) else part for part in allowed.values())
            apart = ours - printed
            squares += apart * apart
            worst = max(worst, apart, key=abs)
            share = max(share, abs(apart) / most)
            if not abs(apart) <= most:
                self.failed += 1
                print(f"   FAILS: {group}, {name}: printed {printed:g}, ours {ours:.5g}, {apart:+.4g}, allowed {most:.2g}")
        parts = ", ".join(f"{name} {self.span(part, len(figures))}" for name, part in allowed.items())
        print(f"   {group}: {len(figures)} figures, rms {math.sqrt(squares / len(figures)):.2g}, worst {worst:+.2g}, at most {share:.0%} of what is allowed: {parts}")

    @staticmethod
    def span(part, count):
        if not callable(part):
            return f"{part:.2g}"
        low, high = min(map(part, range(count))), max(map(part, range(count)))
        return f"{low:.2g} to {high:.2g}" if high > low else f"{low:.2g}"

    def end(self):
        print(f"   {self.letter}: {'all held' if not self.failed else f'{self.failed} out of tolerance'}")
        sys.exit(1 if self.failed else 0)


def write(name, lines):
    """What a picture is drawn of."""
    os.makedirs(OUT, exist_ok=True)
    with open(os.path.join(OUT, name), "w") as out:
        out.writelines(line + "\n" for line in lines)
