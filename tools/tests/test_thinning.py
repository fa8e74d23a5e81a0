"""What is thinned for a report keeps its peaks, each at its own place."""
from __future__ import annotations

import random
import unittest

from report.thinning import Peaks, Thinned


def held_at(places: list[int], values: list[int], place: int) -> list[int]:
    """The value that a curve holds when it comes to a place, if it has begun."""
    before = [value for at, value in zip(places, values) if at < place]
    return before[-1:]


class Thinning(unittest.TestCase):
    def curve(self, many: int, most: int, seed: int) -> tuple[Thinned, list[tuple[int, int]]]:
        """A thinned curve of values at random, with a peak here and there, and the values."""
        at = random.Random(seed)
        place, points, thinned = 0, [], Thinned(most)
        for _ in range(many):
            place += at.choice((0, 1, 1, 3, 50))
            points.append((place, at.choice((at.randrange(100), at.randrange(-5000, 5000)))))
            thinned.add(*points[-1])
        return thinned, points

    def test_a_short_curve_is_as_it_came(self) -> None:
        thinned = Thinned()
        for place, value in [(3, 5), (4, 5), (9, 1), (9, 7), (12, 7)]:
            thinned.add(place, value)
        self.assertEqual((thinned.points(), thinned.width), (([3, 9, 9], [5, 1, 7]), 1), "a value that is held is told once")

    def test_each_bin_keeps_its_first_least_greatest_and_last(self) -> None:
        for seed in range(20):
            thinned, points = self.curve(3000, 64, seed)
            self.assertLessEqual(len(thinned), 64)
            self.assertGreater(thinned.width, 1)
            places, values = thinned.points()
            self.assertEqual(places, sorted(places))
            self.assertTrue(set(zip(places, values)) <= set(points), "each stood there, at its own place")
            for key in {place // thinned.width for place, _ in points}:
                of_bin = [value for place, value in points if place // thinned.width == key]
                kept = [value for place, value in zip(places, values) if place // thinned.width == key]
                kept = held_at(places, values, key * thinned.width) + kept
                self.assertEqual(kept[-1], of_bin[-1])
                self.assertIn(of_bin[0], kept)
                self.assertTrue(min(of_bin) in kept and max(of_bin) in kept, (seed, key))

    def test_no_peak_is_lost(self) -> None:
        for peak in (0, 1, 4096, 5001, 59999):
            thinned = Thinned()
            for place in range(60000):
                thinned.add(place, 9 if place == peak else 0)
            places, values = thinned.points()
            self.assertEqual([place for place, value in zip(places, values) if value == 9], [peak])
            self.assertIn(0, values)

    def test_places_out_of_order(self) -> None:
        """What checks of several CPUs read comes part by part."""
        thinned, points = self.curve(2000, 64, 7)
        other = Thinned(64)
        for place, value in points[1000:] + points[:1000]:
            other.add(place, value)
        self.assertEqual(other.width, thinned.width)
        self.assertEqual(max(other.points()[1]), max(thinned.points()[1]))
        self.assertEqual(other.points()[0], sorted(other.points()[0]))

    def test_few_items_all_stay(self) -> None:
        peaks: Peaks[tuple[int, int]] = Peaks([lambda it: it[0], lambda it: it[1]], 10)
        items = [(1, 1), (1, 1), (0, 3), (0, 2)]
        for item in items:
            peaks.add("a", 5, item)
        self.assertEqual((peaks.all(), peaks.width, peaks.many), (items, 0, 4))

    def test_of_many_items_the_greatest_of_each_bin_stay(self) -> None:
        at = random.Random(3)
        peaks: Peaks[tuple[str, int, int, int]] = Peaks([lambda it: it[2], lambda it: it[3]], 50)
        items = [(at.choice("abc"), at.randrange(10000), at.randrange(500), at.randrange(500)) for _ in range(4000)]
        for item in items:
            peaks.add(item[0], item[1], item)
        kept = peaks.all()
        self.assertLessEqual(len(kept), 100)
        self.assertEqual([item[1] for item in kept], sorted(item[1] for item in kept))
        for sort, key in {(item[0], item[1] // peaks.width) for item in items}:
            whole, stay = ([item for item in of if (item[0], item[1] // peaks.width) == (sort, key)] for of in (items, kept))
            for measure in (2, 3):
                self.assertEqual(max(item[measure] for item in stay), max(item[measure] for item in whole))

    def test_more_sorts_than_bins(self) -> None:
        peaks: Peaks[int] = Peaks([lambda it: it], 4)
        for sort in range(9):
            peaks.add(sort, sort, sort)
        self.assertEqual(peaks.all(), list(range(9)))


if __name__ == "__main__":
    unittest.main()
