"""Document 000's own loop for Problem 2 in its machine's arithmetic: an IBM 360's single precision, six hexadecimal digits, the rest cut off.

Where something radiates its cards are in degrees Rankine, some 600 of them: there the sixth digit is 1/4,096 of a degree, and to cut is always
down. So each step loses a little, the more steps the more. drift() is what that comes to: the loop of the listing (equation 26, the flux
of the last two steps, FORCE summed up term by term) with every product and sum cut, less the same in double precision. Units are its own: Btu, h,
ft, °R. Its equations are solved in double precision and then cut, as its solver corrects itself to that.
"""
import math

from pipe import CAPACITY, FILM, INSIDE, K, NODES, OUTSIDE, TIMES, triangles, places, CELL

RANKINE = 1.8
BTU_FT = 1.730735
BTU_FT2 = BTU_FT / 0.3048
BTU_FT3 = 1055.056 * RANKINE / 0.3048**3
THICKNESS = 1 / 12


def cut(number):
    """Toward zero, to six hexadecimal digits."""
    _, power = math.frexp(number)
    last = 4 * -(-power // 4) - 24
    return math.ldexp(math.trunc(math.ldexp(number, -last)), last)


def matrices():
    """H and P of the listing, from 0."""
    size = len(NODES)
    h, p = ([[0.0] * size for _ in range(size)] for _ in range(2))
    where = {node: (x / CELL, y / CELL) for node, (x, y) in places().items()}
    for nodes in triangles():
        (x1, y1), (x2, y2), (x3, y3) = (where[node] for node in nodes)
        b, c = (y2 - y3, y3 - y1, y1 - y2), (x3 - x2, x1 - x3, x2 - x1)
        area = abs(b[0] * c[1] - b[1] * c[0]) / 2
        for i, m in enumerate(nodes):
            for j, n in enumerate(nodes):
                h[m - 1][n - 1] += K / BTU_FT * THICKNESS * (b[i] * b[j] + c[i] * c[j]) / (4 * area)
                p[m - 1][n - 1] += CAPACITY / BTU_FT3 * THICKNESS * area / 12 * (1 + (i == j))
    for ends in INSIDE:
        for m in ends:
            for n in ends:
                h[m - 1][n - 1] += FILM / BTU_FT2 * THICKNESS / 6 * (1 + (m == n))
    return h, p


def factored(a):
    a = [row[:] for row in a]
    for i, pivot in enumerate(a):
        for row in a[i + 1 :]:
            if row[i]:
                row[i] /= pivot[i]
                for j in range(i + 1, len(a)):
                    row[j] -= row[i] * pivot[j]
    return a


def solved(a, b):
    b = b[:]
    for i, row in enumerate(a):
        b[i] -= sum(row[k] * b[k] for k in range(i))
    for i in reversed(range(len(a))):
        b[i] = (b[i] - sum(a[i][k] * b[k] for k in range(i + 1, len(a)))) / a[i][i]
    return b


def loop(seconds, digits, start, ambient, stand, emissivity):
    """Kelvins at the five times, by node."""
    h, p = matrices()
    double = 2 / (seconds / 3600)
    left = [[digits(x + digits(y * double)) for x, y in zip(*rows)] for rows in zip(h, p)]
    right = [[(j, digits(x - digits(y * double))) for j, (x, y) in enumerate(zip(*rows)) if x or y] for rows in zip(h, p)]
    factor, film = factored(left), [0.0] * len(NODES)
    for ends in INSIDE:
        for node in ends:
            film[node - 1] -= digits(FILM / BTU_FT2 * THICKNESS / 6 * ambient * RANKINE * 3)

    def forces(t):
        f = film[:]
        lit = digits((stand * RANKINE * 0.01) ** 4 * 0.0857 * THICKNESS * emissivity)
        for a, b in OUTSIDE:
            lost = digits(digits(digits(0.005 * digits(t[a - 1] + t[b - 1])) ** 4 * 0.0857) * THICKNESS * emissivity)
            for node in (a, b):
                f[node - 1] = digits(digits(f[node - 1] + lost) - lit)
        return f

    t = [digits(start * RANKINE)] * len(NODES)
    before, seen = forces(t), {}
    for step in range(1, TIMES[-1] // seconds + 1):
        now, side = forces(t), []
        for i, row in enumerate(right):
            force = digits(-now[i] - before[i])
            for j, number in row:
                force = digits(force - digits(number * t[j]))
            side.append(force)
        t, before = [digits(x) for x in solved(factor, side)], now
        if step * seconds in TIMES:
            seen[step * seconds] = [x / RANKINE for x in t]
    return seen


def drift(seconds, *problem):
    """What the digits cut off come to at the five times, by node from 1."""
    machine, exact = loop(seconds, cut, *problem), loop(seconds, float, *problem)
    return {time: {node: machine[time][node - 1] - exact[time][node - 1] for node in NODES} for time in TIMES}
