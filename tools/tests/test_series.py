"""Long curves keep their greatest and least values, and long bars what they cover, in bounded memory."""
from __future__ import annotations

import unittest

from journals.series import MOST_PIECES, Bar, Bars, Curve, Passage

LONG = 25 * MOST_PIECES


class Series(unittest.TestCase):
    def test_a_short_curve_is_as_it_came(self) -> None:
        curve = Curve()
        for place, value in [(3, 5), (4, 5), (9, 1)]:
            curve.add(place, value)
        self.assertEqual(curve.points(), ([3, 4, 9], [5, 5, 1]))

    def test_values_at_one_place(self) -> None:
        curve = Curve()
        for value in (2, 7, 1, 3):
            curve.add(6, value)
        self.assertEqual(curve.points(), ([6] * 4, [2, 1, 7, 3]), "first, least, greatest, last")

    def test_a_long_curve(self) -> None:
        curve = Curve()
        for place in range(LONG):
            curve.add(place, 10**6 if place == 77777 else -5 if place == 99999 else place % 100)
        places, values = curve.points()
        self.assertLessEqual(len(curve), MOST_PIECES)
        self.assertEqual((min(values), max(values), values[-1]), (-5, 10**6, (LONG - 1) % 100))
        self.assertLess(abs(places[values.index(10**6)] - 77777), LONG / MOST_PIECES * 4)
        self.assertEqual(places, sorted(places))

    def test_no_peak_is_lost(self) -> None:
        for peak in (1000, 1001, 5002, 9003, 20004):
            curve = Curve()
            for place in range(6 * MOST_PIECES):
                curve.add(place, {peak: 9, peak + 7: -9}.get(place, 0))
            self.assertEqual((min(curve.points()[1]), max(curve.points()[1])), (-9, 9), peak)

    def test_places_far_apart(self) -> None:
        curve = Curve()
        for number in range(2 * MOST_PIECES):
            curve.add(number * 10**9, number)
        self.assertLessEqual(len(curve), MOST_PIECES)
        self.assertEqual(max(curve.points()[1]), 2 * MOST_PIECES - 1)

    def test_bars_that_touch_stay_apart(self) -> None:
        bars = Bars()
        for begin, end in [(1, 8), (8, 13), (20, 21)]:
            bars.add(begin, end)
        self.assertEqual(bars.all(), [Bar(1, 8, 7), Bar(8, 13, 5), Bar(20, 21, 1)])

    def test_many_bars(self) -> None:
        bars = Bars()
        for number in range(LONG):
            bars.add(10 * number, 10 * number + (9 if number == LONG // 3 else 3))
        self.assertTrue(MOST_PIECES // 4 < len(bars.all()) <= MOST_PIECES)
        self.assertEqual((bars.all()[0].begin, bars.all()[-1].end), (0, 10 * LONG - 7))
        highest = [bar for bar in bars.all() if bar.height == 9]
        self.assertEqual(len(highest), 1)
        self.assertTrue(highest[0].begin <= 10 * (LONG // 3) < highest[0].end)

    def test_many_bars_that_touch_do_not_become_one(self) -> None:
        bars = Bars()
        for number in range(LONG):
            bars.add(number, number + 1)
        self.assertGreater(len(bars.all()), MOST_PIECES // 4)

    def test_a_long_pause_without_bars_stays_free(self) -> None:
        bars = Bars()
        for number in range(LONG):
            begin = number + (LONG if number > LONG // 2 else 0)
            bars.add(begin, begin + 1)
        pairs = zip(bars.all(), bars.all()[1:])
        free = [(before.end, after.begin) for before, after in pairs if after.begin - before.end > LONG // 2]
        self.assertEqual(free, [(LONG // 2 + 1, LONG // 2 + 1 + LONG)])

    def test_the_step_of_a_moment(self) -> None:
        passage = Passage()
        for moment, step in [(1, 1), (1, 2), (5, 3), (9, 4), (9, 5)]:
            passage.add(moment, step)
        self.assertEqual([passage.step(moment) for moment in (0, 1, 2, 5, 9, 10)], [1, 1, 3, 3, 4, 4])
        for step in range(6, 6 + 3 * Passage.MOST):
            passage.add(10 + step, step)
        self.assertLess(abs(passage.step(10 + Passage.MOST) - Passage.MOST), 9)
