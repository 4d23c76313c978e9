"""Contours of a raster of heights, by marching squares. Where the height jumps at the edge of a surface, a contour ends: none is drawn across."""
import math
from collections.abc import Callable, Iterable, Sequence
from dataclasses import dataclass

Field = Sequence[Sequence[float | None]]  # rows from south to north, each from west to east; nothing where there is no height
Corner = tuple[int, int]  # column and row
Edge = tuple[int, int, int]  # column and row of its first corner, and whether it goes eastward or northward
EAST, NORTH = 0, 1


@dataclass(frozen=True)
class Contour:
    """A line of one height; its points are columns and rows of the raster, with fractions. A closed one ends where it begins."""
    level: float
    points: list[tuple[float, float]]


@dataclass(frozen=True)
class Squares:
    """A field, and how much its height may change from a corner to the next one, by what is there: across a greater change nothing is drawn."""
    field: Field
    steepest: Callable[[Corner], float]

    def corners(self, edge: Edge) -> tuple[Corner, Corner]:
        column, row, way = edge
        return (column, row), (column + 1, row) if way == EAST else (column, row + 1)

    def is_jump(self, edge: Edge) -> bool:
        first, second = self.corners(edge)
        return abs(self.field[first[1]][first[0]] - self.field[second[1]][second[0]]) > max(self.steepest(first), self.steepest(second))

    def point(self, edge: Edge, level: float) -> tuple[float, float]:
        """Where a level crosses an edge of a square."""
        (column, row), second = self.corners(edge)
        low, high = self.field[row][column], self.field[second[1]][second[0]]
        part = (level - low) / (high - low)
        return (column + part, row) if edge[2] == EAST else (column, row + part)

    def pairs(self, column: int, row: int, level: float) -> list[tuple[Edge, Edge]]:
        """The edges of a square that a level crosses, two by two."""
        south, north = self.field[row], self.field[row + 1]
        heights = (south[column], south[column + 1], north[column + 1], north[column])
        is_above = [height >= level for height in heights]
        edges = [(column, row, EAST), (column + 1, row, NORTH), (column, row + 1, EAST), (column, row, NORTH)]
        crossed = [edge for i, edge in enumerate(edges) if is_above[i] != is_above[(i + 1) % 4]]
        if len(crossed) == 4 and (sum(heights) / 4 >= level) != is_above[0]:
            crossed = crossed[1:] + crossed[:1]  # a saddle: the corners that are like its middle hang together
        return [pair for pair in zip(crossed[::2], crossed[1::2]) if not any(map(self.is_jump, pair))]

    def by_level(self, every: float) -> dict[float, list[tuple[Edge, Edge]]]:
        """The crossings of all squares, by level."""
        out: dict[float, list[tuple[Edge, Edge]]] = {}
        for row, (south, north) in enumerate(zip(self.field, self.field[1:])):
            for column in range(len(south) - 1):
                heights = (south[column], south[column + 1], north[column], north[column + 1])
                if None in heights:
                    continue
                low, high = min(heights), max(heights)
                for i in range(math.floor(low / every) + 1, math.floor(high / every) + 1) if low < high else ():
                    out.setdefault(i * every, []).extend(self.pairs(column, row, i * every))
        return out


def joined(pairs: Iterable[tuple[Edge, Edge]]) -> list[list[Edge]]:
    """Chains of edges out of pairs of them, the open ones first."""
    beside: dict[Edge, list[Edge]] = {}
    for a, b in pairs:
        beside.setdefault(a, []).append(b)
        beside.setdefault(b, []).append(a)
    out = []
    for start in sorted(beside, key=lambda edge: len(beside[edge]) != 1):
        while beside[start]:
            chain = [start]
            while beside[chain[-1]]:
                following = beside[chain[-1]].pop()
                beside[following].remove(chain[-1])
                chain.append(following)
            out.append(chain)
    return out


def contours(squares: Squares, every: float) -> list[Contour]:
    """All contours at the multiples of a height, from the lowest on."""
    return [Contour(level, [squares.point(edge, level) for edge in chain])
            for level, pairs in sorted(squares.by_level(every).items()) for chain in joined(pairs)]
