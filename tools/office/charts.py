"""Both limits over a raster, each with its contours."""
from collections.abc import Sequence
from dataclasses import dataclass

from office import contours
from office.contours import Contour, Corner, Squares
from office.heights import Heights, Limit
from office.records import TENTHS
from office.sites import Raster

STEEPEST, STEEPEST_OF_HELIPORT = .16, .55  # feet up for a foot across, a little more than 7 to 1 and 2 to 1
ROUNDED = .2  # feet; two heights that the desk has rounded


@dataclass(frozen=True)
class Sort:
    """One of the two limits: what it is called in files and on its sheet."""
    key: str
    title: str
    lead: str

    def of(self, heights: Heights) -> Limit:
        return heights.notice if self.key == "notice" else heights.standard


SORTS = (Sort("notice", "How high without notice to the FAA (77.9)", "Up to these heights no notice rule is met."),
         Sort("standard", "How high below every standard (77.17)", "Up to these heights no obstruction standard is exceeded."))


@dataclass(frozen=True)
class Chart:
    """A limit over a raster, with its contours."""
    sort: Sort
    raster: Raster
    limits: list[Limit]
    every: float
    contours: list[Contour]


def steepest(limit: Limit) -> float:
    """How many feet a limit may differ over a foot, if no surface ends between."""
    return STEEPEST_OF_HELIPORT if any(entry.rule.name.startswith("23") for entry in limit.entries) else STEEPEST


def chart(sort: Sort, raster: Raster, some: Sequence[Heights], every: float) -> Chart:
    """The chart of one of the limits, with a contour at each multiple of a height in feet."""
    limits = [sort.of(heights) for heights in some]

    def change(at: Corner) -> float:
        return steepest(limits[at[1] * raster.columns + at[0]]) * raster.step / TENTHS + ROUNDED
    squares = Squares(raster.rowwise([limit.feet for limit in limits]), change)
    return Chart(sort, raster, limits, every, contours.contours(squares, every))


def charts(raster: Raster, some: Sequence[Heights], every: float) -> list[Chart]:
    return [chart(sort, raster, some, every) for sort in SORTS]
