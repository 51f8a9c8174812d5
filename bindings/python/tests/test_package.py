"""The package's own surface: what goes in, what comes out, and refusals as exceptions."""
import doctest
import math
import os
import pickle
import random
import unittest
from array import array

import wejdarox
from wejdarox._lent import lend

try:
    from _testbuffer import ND_FORTRAN, ndarray  # CPython's own, for buffers of two dimensions
except ImportError:
    ndarray = None

TOP = os.path.join(os.path.dirname(os.path.abspath(__file__)), "..", "..", "..")


def crossing(name: str) -> bytes:
    with open(os.path.join(TOP, "crossings", name), "rb") as f:
        return f.read()


class Factors(unittest.TestCase):
    def test_a_solve(self) -> None:
        lu = wejdarox.factor([[0, 1], [2, 0]])
        self.assertEqual((lu.shape, lu.swaps, lu.dead_columns, lu.toss_ups), ((2, 2), [(0, 1)], 0, 0))
        self.assertEqual(lu.solve([5, 8]), [4.0, 5.0])
        self.assertEqual(lu.solve([[5, 0], [8, 1]]).tolist(), [[4.0, 0.5], [5.0, 0.0]])
        self.assertEqual(lu.tr_solve([5, 8]), [8.0, 2.5])
        self.assertEqual(lu.inverse().tolist(), [[0.0, 0.5], [1.0, 0.0]])
        self.assertEqual((lu.determinant(), lu.scaled_determinant(), lu.is_invertible()), (-2.0, (-1.0, 1), True))
        self.assertEqual((lu.l().tolist(), lu.u().tolist()), ([[1.0, 0.0], [0.0, 1.0]], [[2.0, 0.0], [0.0, 1.0]]))
        self.assertEqual(wejdarox.solve(lu, (5, 8)), [4.0, 5.0])

    def test_shapes(self) -> None:
        wide = [[1, 2, 3], [4, 5, 6]]
        lu = wejdarox.factor(wide)
        self.assertEqual((lu.shape, lu.l().shape, lu.u().shape), ((2, 3), (2, 2), (2, 3)))
        flat = wejdarox.factor([1, 4, 2, 5, 3, 6], shape=(2, 3))
        self.assertEqual(flat.factors, lu.factors)
        none = wejdarox.factor([], shape=(3, 0))
        self.assertEqual((none.shape, none.l().tolist(), none.u().tolist()), ((3, 0), [[], [], []], []))
        self.assertRaises(ValueError, wejdarox.factor, [1, 2])
        self.assertRaises(ValueError, wejdarox.factor, [[1, 2], [3]])
        self.assertRaises(TypeError, wejdarox.Lu)

    def test_adding_is_factoring_afresh(self) -> None:
        chance = random.Random(34)
        for _ in range(200):
            rows, columns = chance.randint(1, 12), chance.randint(1, 12)
            a = [[chance.choice([0.0, 1.0, -1.0, chance.gauss(0, 1)]) for _ in range(columns)] for _ in range(rows)]
            afresh, grown = wejdarox.factor(a), wejdarox.factor([], shape=(rows, 0))
            for j in range(columns):
                before, seen = grown, (grown.factors, grown.swaps)
                grown = wejdarox.add_column(grown, [row[j] for row in a])
                self.assertEqual((before.factors, before.swaps), seen)
                narrowed = wejdarox.remove_column(grown)
                self.assertEqual((narrowed.factors, narrowed.swaps, narrowed.dead_columns), (before.factors, before.swaps, before.dead_columns))
            self.assertEqual(grown.factors.data.tobytes(), afresh.factors.data.tobytes())
            self.assertEqual((grown.swaps, grown.dead_columns, grown.toss_ups), (afresh.swaps, afresh.dead_columns, afresh.toss_ups))

    def test_refusals(self) -> None:
        lu = wejdarox.factor([[1, 1], [0, 0]])
        for number, call in [(1, lambda: wejdarox.factor([], shape=(0, 3))), (1, lambda: wejdarox.factor([], shape=(-1, 1 << 70))),
                             (2, lambda: wejdarox.factor([[1, 2]]).determinant()), (3, lambda: lu.solve([1, 2, 3])), (3, lambda: lu.add_column([1])),
                             (5, lambda: lu.solve([1, math.inf])), (6, lambda: lu.solve([1, 2])), (6, lu.inverse),
                             (7, lambda: wejdarox.factor([[1, 1e308], [-1, 1e308]])), (1, lambda: wejdarox.factor([], shape=(1, 0)).remove_column()),
                             (1, lambda: wejdarox.rank([])), (5, lambda: wejdarox.rank([math.nan]))]:
            with self.subTest(number):
                with self.assertRaises(wejdarox.Refused) as caught:
                    call()
                self.assertEqual(caught.exception.number, number)
                self.assertIn(caught.exception.words, str(caught.exception))
                self.assertEqual(str(pickle.loads(pickle.dumps(caught.exception))), str(caught.exception))
        self.assertEqual(lu.shape, (2, 2))
        self.assertEqual(lu.why_solve([1, 2]), (6, (1,)))
        self.assertEqual(wejdarox.factor([[1]]).why_solve([1]), (0, None))
        self.assertEqual(wejdarox.why_factor([[1, 1e308], [-1, 1e308]]), (7, (0, 1, 1)))
        self.assertEqual(wejdarox.why_factor([[1]]), (0, None))

    def test_ranks(self) -> None:
        self.assertEqual((wejdarox.rank([-1, 0.0, 2]), wejdarox.rank_all([-1, 0.0, 2])), ([3, 1], [3, 1, 2]))


class Buffers(unittest.TestCase):
    def test_no_copies(self) -> None:
        for given in (array("d", [1, 2]), memoryview(array("d", [1, 2])), memoryview(array("d", [1, 2])).toreadonly()):
            with lend(given) as lent:
                self.assertFalse(lent.copied)
        for given in ([1.0, 2.0], array("f", [1, 2]), array("i", [1, 2]), (1, 2), range(2), memoryview(array("d", [1, 2, 3, 4]))[::2]):
            with lend(given) as lent:
                self.assertTrue(lent.copied)
        whole = array("d", [5, 8])
        with lend(whole):
            self.assertRaises(BufferError, whole.append, 1.0)
        whole.append(1.0)  # it was given back

    @unittest.skipUnless(ndarray, "this Python has no _testbuffer")
    def test_orders(self) -> None:
        columns = ndarray([0.0, 2.0, 1.0, 0.0], shape=[2, 2], format="d", flags=ND_FORTRAN)
        rows = ndarray([0.0, 1.0, 2.0, 0.0], shape=[2, 2], format="d")
        with lend(columns) as lent:
            self.assertFalse(lent.copied)
        with lend(rows) as lent:
            self.assertTrue(lent.copied)
        for given in (columns, rows):
            self.assertEqual(wejdarox.factor(given).solve(array("d", [5, 8])), [4.0, 5.0])
        self.assertRaises(ValueError, lend, ndarray([1.0] * 8, shape=[2, 2, 2], format="d"))

    def test_an_array_of_numpy(self) -> None:
        try:
            import numpy
        except ImportError:
            self.skipTest("there is no numpy")
        a = numpy.array([[0.0, 1.0], [2.0, 0.0]], order="F")
        with lend(a) as lent:
            self.assertFalse(lent.copied)
        made = numpy.asarray(wejdarox.factor(a).inverse())
        self.assertTrue(numpy.array_equal(made @ a, numpy.eye(2)))


class Panels(unittest.TestCase):
    def test_files(self) -> None:
        file = wejdarox.write_panel([[0, 1], [2, 0]], [5, 8])
        panel = wejdarox.read_panel(file)
        self.assertEqual((panel.matrix.tolist(), panel.readings), ([[0.0, 1.0], [2.0, 0.0]], [5.0, 8.0]))
        self.assertEqual(wejdarox.write_panel(panel.matrix, panel.readings), file)
        self.assertEqual(wejdarox.pad_order(file), ([(2, 5.0), (1, 4.0)], 0))
        self.assertEqual(wejdarox.text(bytearray(file)), "pads 2\n2 4014000000000000\n1 4010000000000000\n")
        self.assertEqual((wejdarox.moves(file, 1), wejdarox.stiffness(file), wejdarox.why(file)), ([0.0, 0.5], (-1.0, 1), "no reason\n"))
        for number, call in [(8, lambda: wejdarox.read_panel(b"")), (3, lambda: wejdarox.pad_order(file[:-1])), (1, lambda: wejdarox.moves(file, 3)),
                             (1, lambda: wejdarox.moves(file, -1)), (3, lambda: wejdarox.write_panel([[1, 2], [3, 4]], [1])),
                             (1, lambda: wejdarox.write_panel([], [])), (5, lambda: wejdarox.write_panel([[math.nan]], [1])),
                             (1, lambda: wejdarox.write_panel([1] * 4225, [1] * 65))]:
            with self.assertRaises(wejdarox.Refused) as caught:
                call()
            self.assertEqual(caught.exception.number, number)

    def test_the_crossings(self) -> None:
        self.assertEqual(wejdarox.why(crossing("singular.lxp")), "refused 6\ncolumn 2\n")
        self.assertEqual([pad.number for pad in wejdarox.pad_order(crossing("four-pads.lxp")).pads], [2, 1, 3, 4])
        self.assertEqual(wejdarox.stiffness(crossing("soft-ground.lxp")), (1.25, -1200))

    def test_a_season(self) -> None:
        season = wejdarox.season([crossing("four-pads.lxp"), crossing("singular.lxp"), b""])
        self.assertEqual((season.accepted, season.files, season.pads, sum(season.bands)), (1, 3, 4, 1))
        self.assertEqual(season.refused, (0, 0, 0, 0, 0, 1, 0, 1, 0))
        with self.assertRaises(wejdarox.Refused) as caught:
            wejdarox.season([b""] * 4001)
        self.assertEqual(caught.exception.number, 10)


class Documents(unittest.TestCase):
    def test_the_version_and_the_words(self) -> None:
        with open(os.path.join(TOP, "VERSION")) as f:
            self.assertEqual(wejdarox.__version__, f.read().strip())
        self.assertEqual(doctest.testmod(wejdarox).failed, 0)
        for name in wejdarox.__all__:
            self.assertTrue(getattr(wejdarox, name).__doc__, name)


if __name__ == "__main__":
    unittest.main()
