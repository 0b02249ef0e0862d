"""Places on the time axis."""

import unittest

from scale import DENSE, MANY_STEPS, WIDE, Waits, bands_of, lay, seconds


class Places(unittest.TestCase):
    def test_to_scale(self) -> None:
        (band,) = bands_of([0, 1000, 3000], 900, WIDE, Waits())
        first, second = band.gaps
        self.assertAlmostEqual(second.right - second.left, 2 * (first.right - first.left))
        self.assertFalse(first.is_cut or second.is_cut)

    def test_same_tick_is_side_by_side(self) -> None:
        (band,) = bands_of([0, 0, 0, 100], 900, WIDE, Waits())
        self.assertEqual([after - before for before, after in zip(band.places, band.places[1:3])], [WIDE.slot] * 2)
        self.assertGreaterEqual(band.places[3] - band.places[2], WIDE.slot + WIDE.least)

    def test_long_wait_is_cut(self) -> None:
        ticks = [0] + [100 * place for place in range(1, 9)] + [10_000_000]
        (band,) = bands_of(ticks, 2000, WIDE, Waits())
        self.assertEqual([gap.ticks for gap in band.gaps if gap.is_cut], [10_000_000 - 800])

    def test_bands_hold_all_steps_in_order(self) -> None:
        ticks = [place // 3 * 500 for place in range(400)]
        bands = lay(ticks, 900)
        self.assertEqual([step for band in bands for step in range(band.first, band.last + 1)], list(range(400)))
        for band in bands:
            self.assertEqual(len(band.places), band.last - band.first + 1)
            self.assertEqual(band.places, sorted(band.places))
            self.assertLessEqual(band.right, 900)

    def test_bands_end_while_idle(self) -> None:
        ticks = [place * 500 for place in range(40)]
        idle = frozenset(range(0, 40, 3))
        firsts = [band.first for band in bands_of(ticks, 900, WIDE, Waits(idle=idle))[1:]]
        self.assertTrue(firsts)
        self.assertTrue(all(first in idle for first in firsts), firsts)

    def test_many_steps_are_dense(self) -> None:
        self.assertEqual(lay([0] * (MANY_STEPS + 1), 900)[0].slot, DENSE.slot)
        self.assertEqual(lay([0] * MANY_STEPS, 900)[0].slot, WIDE.slot)

    def test_seconds(self) -> None:
        self.assertEqual([seconds(ticks) for ticks in (0, 1, 16_384, 327_680)], ["0 s", "0.00003 s", "0.5 s", "10 s"])
