"""What a notebook shows of circuits, costs and tables of costs."""
import tempfile
import unittest
from pathlib import Path
from typing import List
from xml.etree import ElementTree

from revc import U2, U8, U32, Circuit, Source, oracle
from revc.costs import Costs


@oracle
def small(a: U2, b: U2):
    return a * b == 6


@oracle
def long(a: U32, b: U32):
    return a * b == 6


@oracle
def wide(a: U8):
    return [a] * 24 + [a[0] & a[1]]


def cells(html: str) -> List[List[str]]:
    """The texts of a table, row by row."""
    return [[cell.text or "" for cell in row] for row in ElementTree.fromstring(html)]


class Notebooks(unittest.TestCase):
    def test_circuits(self) -> None:
        """A small circuit is a picture; of a long or wide one the cost is shown."""
        for each, is_picture in ((small, True), (long, False), (wide, False)):
            circuit = each.compile()
            svg, html = circuit._repr_svg_(), circuit._repr_html_()
            self.assertEqual((svg is not None, html is not None), (is_picture, not is_picture), each.name)
            if svg:
                self.assertTrue(ElementTree.fromstring(svg).tag.endswith("svg"))
            if html:
                self.assertEqual(cells(html), cells(circuit.cost._repr_html_()))

    def test_costs(self) -> None:
        cost = small.compile().cost
        names, counts = cells(cost._repr_html_())
        self.assertEqual(dict(zip(names, counts))["toffoli depth"], str(cost.toffoli_depth))
        self.assertEqual(dict(zip(names, counts))["lines"], str(cost.lines))

    def test_tables_of_costs(self) -> None:
        costs = small.costs(["lean"], points=1)
        heads, *rows = cells(costs._repr_html_())
        self.assertEqual([row[heads.index("Toffoli")] for row in rows], [str(row.cost.toffoli) for row in costs])
        self.assertEqual([row[-1] for row in rows], [row.call for row in costs])

    def test_pictures(self) -> None:
        """What is drawn into a file returns nothing; else it is a text that a notebook shows."""
        circuit: Circuit = small.compile()
        costs: Costs = small.costs(["lean"], points=1)
        with tempfile.TemporaryDirectory() as folder:
            for each in (circuit, costs):
                path = Path(folder) / "picture.svg"
                self.assertIsNone(each.draw(str(path)))
                self.assertEqual(path.read_text(), each.draw())
                self.assertEqual(each.draw()._repr_svg_(), path.read_text())

    def test_texts(self) -> None:
        self.assertEqual(repr(Source("main (a : bool) (b : bool) = a && b", "both")), "<both: a: Bits[1], b: Bits[1]>")
        self.assertTrue(repr(small.compile()).startswith("<small: "))


if __name__ == "__main__":
    unittest.main()
