"""Tests of tools/draw: what is in its pictures, that no id gets out of them, and how they behave in a browser."""
import html
import html.parser
import json
import re
import subprocess
import sys
import time
import unittest
import xml.etree.ElementTree as ElementTree
from pathlib import Path

import common
from common import ROOT, FolderTest, run_tool, topology
from test_finderlib import LIST

from finderlib.documents import read_answer
from finderlib.drawing.circuits import HIDDEN, SEEN, CircuitPicture
from finderlib.drawing.networks import NetworkPicture
from finderlib.drawing.page import answer_page
from finderlib.drawing.svg import colours_of, shorten
from finderlib.drawing.walks import Walk
from finderlib.faults import accepted_network
from finderlib.lists import answer_of, read_list
from finderlib.topologies import Network

SVG = "{http://www.w3.org/2000/svg}"
AGAIN_FILE = topology("d", "P x1", "P m1", "P y1", "P x0 hasService=f,g isSource=l", "P y0 hasService=u,v isSink=l", "A f f=F providesPort=x1",
                      "A g f=G providesPort=m1", "D u f=F providesPort=m1", "D v f=G providesPort=y1", "L l cost=7")
AGAIN = b"""circuit 1
request x1 any y1 any
outcome found 18 6
hop 1 adapt f x1 - x0 - d
hop 2 link l x0 - y0 - d
hop 3 deadapt u y0 - m1 - d
hop 4 adapt g m1 - x0 - d again 1
hop 5 link l x0 - y0 - d again 2
hop 6 deadapt v y0 - y1 - d
domain d
rule 1 wrap f x1 - x0 -
rule 2 carry l x0 - y0 -
rule 3 unwrap u y0 - m1 -
rule 4 wrap g m1 - x0 -
rule 5 carry l x0 - y0 -
rule 6 unwrap v y0 - y1 -
top m1 - 9 3
top x1 - 0 0
top y1 - 18 6
seg x0 - x0 - 0 0
seg x0 - y0 - 7 1
end
"""
NONE = b"circuit 1\nrequest x1 any y0 any\noutcome none\ntop m1 - 9 3\ntop x1 - 0 0\nseg x0 - x0 - 0 0\nend\n"
HOSTILE = ["<script>alert(1)</script>", "a\"b'c&d\\e", "]]></style><b>", "-->\\N\\l%s${x}", "\"/onload=alert(1)", "x" * 255]


def chain(count: int) -> tuple[Network, bytes]:
    """A chain of links, and the document of the circuit through it."""
    ports = [{"type": "Port", "id": f"p{at}", "isSink": [f"l{at - 1}"], "isSource": [f"l{at}"]} for at in range(count + 1)]
    links = [{"type": "Link", "id": f"l{at}"} for at in range(count)]
    file = json.dumps({"format": 1, "topology": "d", "elements": ports + links}).encode()
    hops = "".join(f"hop {at + 1} link l{at} p{at} - p{at + 1} - d\n" for at in range(count))
    rules = "".join(f"rule {at + 1} carry l{at} p{at} - p{at + 1} -\n" for at in range(count))
    document = f"circuit 1\nrequest p0 any p{count} any\noutcome found {count} {count}\n{hops}domain d\n{rules}end\n"
    return accepted_network([file]), document.encode()


def hostile() -> tuple[bytes, bytes]:
    """A network whose ids are what pages and Graphviz fear, and its document."""
    first, second, link, service, domain, long = HOSTILE
    layer = {"encoding": "<&>", "hasLabelGroup": {"labeltype": "</text>", "values": "3-9"}}
    elements = [{"type": "PortGroup", "id": first, "isSource": [link], **layer}, {"type": "PortGroup", "id": second, "isSink": [link], **layer},
                {"type": "Link", "id": link}, {"type": "PortGroup", "id": long, **layer},
                {"type": "SwitchingService", "id": service, "hasInboundPort": [second], "hasOutboundPort": [long]},
                {"type": "Node", "id": "\"]node[", "hasInboundPort": [second], "hasService": [service]}]
    file = json.dumps({"format": 1, "topology": domain, "elements": elements}).encode()
    document = (f"circuit 1\nrequest {first} any {long} 3\noutcome found 2 2\nhop 1 link {link} {first} 3 {second} 3 {domain}\n"
                f"hop 2 cross {service} {second} 3 {long} 3 {domain}\ndomain {domain}\nrule 1 carry {link} {first} 3 {second} 3\n"
                f"rule 2 connect {service} {second} 3 {long} 3\ntop {first} 3 0 0\nend\n")
    return file, document.encode()


def parts(svg: str, name: str) -> list[ElementTree.Element]:
    """The groups of a class in a picture, which has to be XML."""
    return [group for group in ElementTree.fromstring(svg).iter(SVG + "g") if group.get("class", "").split()[:1] == [name]]


def words(element: ElementTree.Element) -> str:
    return " ".join(text.text or "" for text in element.iter(SVG + "text"))


class Walks(unittest.TestCase):
    def test_depths_frames_and_potentials(self) -> None:
        walk = Walk(read_answer(AGAIN), accepted_network([AGAIN_FILE]))
        self.assertEqual([stop.depth for stop in walk.stops], [0, 1, 1, 0, 1, 1, 0])
        self.assertEqual([(frame.first, frame.last, frame.depth) for frame in walk.frames], [(1, 2, 1), (4, 5, 1)])
        self.assertEqual([stop.again for stop in walk.stops], [None, None, None, None, 1, 2, None])
        self.assertEqual([walk.potential_at(stop).weight.cost for stop in walk.stops], [0, 0, 7, 9, 0, 7, 18])

    def test_two_ports_of_one_class(self) -> None:
        network = accepted_network([topology("d", "P a isSource=l", "P b isSink=l isAlias=c", "P c isSource=m", "P e isSink=m", "L l", "L m")])
        document = b"circuit 1\nrequest a any e any\noutcome found 2 2\nhop 1 link l a - b - d\nhop 2 link m c - e - d\nend\n"
        self.assertEqual([stop.ports for stop in Walk(read_answer(document), network).stops], [("a",), ("b", "c"), ("e",)])

    def test_documents_that_are_no_walk(self) -> None:
        network = accepted_network([topology("d", "P a")])
        document = b"circuit 1\nrequest a any b any\noutcome found 0 0\nhop 1 deadapt x a - q 5 z again 9\nhop 2 adapt y q - r - z\nend\n"
        walk = Walk(read_answer(document), network)
        self.assertEqual([stop.depth for stop in walk.stops], [0, -1, 0])
        ElementTree.fromstring(CircuitPicture(walk.answer, network).svg())


class Lists(FolderTest):
    def draw(self, data: bytes, *words: str) -> subprocess.CompletedProcess[bytes]:
        return run_tool("draw", "--answer", "-", *words, str(ROOT / "examples" / "backup.json"), data=data)

    def test_walks_are_drawn_by_their_numbers(self) -> None:
        for walk, elements, said in (("1", ["inland"], "cost 460, 1 hop"), ("2", ["south", "north"], "cost 760, 2 hops")):
            svg = self.draw(LIST, "--walk", walk).stdout.decode()
            self.assertEqual([words(hop).split()[0] for hop in parts(svg, "hop")], elements)
            self.assertIn(f"a circuit of a list of the cheapest: {said}", svg)

    def test_one_walk_or_none_need_no_number(self) -> None:
        lines = LIST.splitlines(keepends=True)
        self.assertEqual(len(parts(self.draw(b"".join([*lines[:4], *lines[7:]])).stdout.decode(), "hop")), 1)
        for more, said in ((b"none", "no circuit"), (b"past", "every circuit costs 2^64 or more"), (b"long 7 70000", "too long to list: cost 7")):
            self.assertIn(said, self.draw(b"".join([*lines[:2], b"more %s\n" % more, b"end\n"])).stdout.decode())

    def test_flags_and_rules_are_those_of_a_document(self) -> None:
        document = read_answer(AGAIN)
        document.tops, document.segs = [], []
        hops = AGAIN.replace(b" again 1", b"").replace(b" again 2", b"").split(b"\n")[3:9]
        data = b"\n".join([b"circuits 1", b"request x1 any y1 any", b"walk 1 18 6", *hops, b"more none", b"end", b""])
        answer = answer_of(read_list(data), 1, accepted_network([AGAIN_FILE]))
        self.assertEqual((answer.hops, answer.domains), (document.hops, document.domains))

    def test_refusals(self) -> None:
        for data, options, said in ((LIST, [], b"a list of 2 walks"), (LIST, ["--walk", "3"], b"there is no walk 3"), (LIST, ["--walk", "0"], b"--walk"),
                                    (LIST[:-1], ["--walk", "1"], b"line 9"), (AGAIN, ["--walk", "1"], b"for lists of k-find")):
            ended = self.draw(data, *options)
            self.assertEqual((ended.returncode, ended.stdout), (2, b""))
            self.assertIn(said, ended.stderr)


class Circuits(unittest.TestCase):
    def picture(self, document: bytes = AGAIN, potentials: str = SEEN) -> str:
        return CircuitPicture(read_answer(document), accepted_network([AGAIN_FILE]), None, potentials).svg()

    def test_hops_and_places(self) -> None:
        svg = self.picture()
        hops = parts(svg, "hop")
        self.assertEqual([hop.get("data-hop") for hop in hops], ["1", "2", "3", "4", "5", "6"])
        self.assertEqual([words(hop) for hop in hops[:3]], ["f wrap \u00b7 1", "l carry \u00b7 7", "u unwrap \u00b7 1"])
        self.assertTrue(hops[1].findtext(SVG + "title").startswith("hop 2 link l x0 - y0 - d\nrule 2 carry l x0 - y0 -\nin domain d\n"))
        self.assertEqual(hops[1].get("data-lines"), "hop 2 link l x0 - y0 - d\nrule 2 carry l x0 - y0 -")
        stops = parts(svg, "stop")
        self.assertEqual([words(stop) for stop in stops], ["x1 0 FROM 0 in 0", "x0 1 0 in 0", "y0 2 7 in 1", "m1 3 9 in 3", "x0 4 = 1 0 in 0",
                                                           "y0 5 = 2 7 in 1", "y1 6 TO 18 in 6"])
        depths = [float(stop.findall(SVG + "rect")[0].get("y")) for stop in stops]
        self.assertTrue(depths[0] == depths[3] == depths[6] < depths[1] == depths[2])
        self.assertEqual(svg.count("stroke-dasharray=\"4 3\""), 2)

    def test_potentials_on_demand(self) -> None:
        self.assertNotIn("7 in 1", CircuitPicture(read_answer(AGAIN), accepted_network([AGAIN_FILE])).svg())
        self.assertIn(".potential { display: none; }", self.picture(potentials=HIDDEN))

    def test_domains_have_colours(self) -> None:
        colours = colours_of(f"d{at}" for at in range(64))
        self.assertEqual(len(set(colours.values())), 64)
        self.assertTrue(all(re.fullmatch("#[0-9a-f]{6}", colour) for colour in colours.values()))

    def test_without_hops(self) -> None:
        for document, said in ((NONE, "no circuit"), (NONE.replace(b"none", b"past"), "every circuit costs 2^64 or more"),
                               (NONE.replace(b"none", b"long 7 70000"), "too long to list: cost 7, 70000 hops")):
            svg = self.picture(document)
            self.assertIn(said, svg)
            self.assertEqual(parts(svg, "hop"), [])
        here = b"circuit 1\nrequest x1 any x1 any\noutcome found 0 0\ntop x1 - 0 0\nend\n"
        self.assertEqual(words(parts(self.picture(here), "stop")[0]), "x1 0 FROM TO 0 in 0")

    def test_texts_fit(self) -> None:
        self.assertEqual(shorten("abcdefghij", 10), "abcdefghij")
        self.assertEqual(shorten("abcdefghijk", 10), "abcdef\u2026ijk")
        self.assertEqual(shorten("abc", 1), "\u2026")

    def test_long_walks_in_linear_time(self) -> None:
        def seconds(count: int) -> float:
            network, document = chain(count)
            start = time.process_time()
            svg = CircuitPicture(read_answer(document), network).svg()
            self.assertEqual(len(parts(svg, "hop")), 2000)
            self.assertIn(f"cost {count}, {count} hops; drawn are the hops 1 to 2000", svg)
            return time.process_time() - start
        self.assertLess(seconds(16_000), 12 * seconds(4_000) + 1)

    def test_deep_walks_in_linear_time(self) -> None:
        def seconds(depth: int) -> float:
            hops = [f"hop {at + 1} adapt a p - p - d" for at in range(depth)]
            hops += [f"hop {depth + at + 1} deadapt u p - p - d" for at in range(depth)]
            document = "\n".join(["circuit 1", "request p any p any", "outcome found 1 1", *hops, "end", ""]).encode()
            network = accepted_network([topology("d", "P p")])
            start = time.process_time()
            CircuitPicture(read_answer(document), network, (1, 2 * depth)).svg()
            return time.process_time() - start
        self.assertLess(seconds(4000), 12 * seconds(1000) + 1)


@common.needs_dot
class Networks(unittest.TestCase):
    def test_ports_links_services_aliases_and_nodes(self) -> None:
        network = accepted_network([
            topology("west", "PG a labels=vlan:2-9,20 isSource=l,m", "PG b labels=vlan:2-9 isSink=l", "L l cost=3", "PG c labels=vlan:7",
                     "S s swap hasInboundPort=b hasOutboundPort=c", "N n hasInboundPort=b hasOutboundPort=c hasService=s", "L m", encoding="eth"),
            topology("east", "PG d labels=vlan:7 isAlias=c hasService=ad", "P e enc=tag", "A ad f=gfp providesPort=e", encoding="eth")])
        svg = NetworkPicture(network).svg()
        drawn = [part.findtext(SVG + "title").split("\n")[0] for part in parts(svg, "part")]
        self.assertEqual(sorted(drawn), sorted([
            "PortGroup a", "PortGroup b", "SwitchingService s", "PortGroup c", "Link m", "PortGroup d", "Port e", "AdaptationService ad",
            "Link l, cost 3: a to b", "Link m, cost 1: a to m", "SwitchingService s, cost 1: b to s", "SwitchingService s, cost 1: s to c",
            "alias: d = c", "AdaptationService ad, cost 1: e to ad", "AdaptationService ad, cost 1: ad to d"]))
        self.assertIn("Node n", svg)
        self.assertIn("vlan 2-9,20", svg)

    def test_an_answer_upon_it(self) -> None:
        network = accepted_network([AGAIN_FILE])
        svg = NetworkPicture(network, read_answer(AGAIN)).svg()
        self.assertEqual([part for part in parts(svg, "part") if part.get("class") == "part apart"], [])
        self.assertIn("hop 5 link l x0 - y0 - d again 2", svg)
        svg = NetworkPicture(network, read_answer(NONE)).svg()
        apart = {part.findtext(SVG + "title").split("\n")[0] for part in parts(svg, "part") if part.get("class") == "part apart"}
        self.assertIn("Port y1", apart)
        self.assertFalse(apart & {"Port x1", "Port m1", "Port x0", "Port y0"})

    def test_empty_files(self) -> None:
        ElementTree.fromstring(NetworkPicture(accepted_network([topology("d"), topology("e", "P a")])).svg())
        ElementTree.fromstring(NetworkPicture(accepted_network([topology("d")])).svg())


class Hostile(FolderTest):
    def setUp(self) -> None:
        super().setUp()
        file, document = hostile()
        self.network = accepted_network([file])
        self.answer = read_answer(document)

    def test_ids_stay_texts(self) -> None:
        svg = CircuitPicture(self.answer, self.network, None, SEEN).svg()
        titles = [hop.findtext(SVG + "title") for hop in parts(svg, "hop")]
        self.assertTrue(titles[0].startswith(f"hop 1 link {HOSTILE[2]} {HOSTILE[0]} 3 {HOSTILE[1]} 3 {HOSTILE[4]}\n"))
        self.assertLess(max(float(rect.get("width")) for stop in parts(svg, "stop") for rect in stop.iter(SVG + "rect")), 400)

    @common.needs_dot
    def test_ids_stay_texts_in_topologies_and_pages(self) -> None:
        network = NetworkPicture(self.network, self.answer).svg()
        ElementTree.fromstring(network)
        page = answer_page(self.answer, CircuitPicture(self.answer, self.network).svg(), network, True)
        tags = Tags()
        tags.feed(page)
        self.assertEqual(tags.seen["script"], 1)
        self.assertNotIn("b", tags.seen)
        self.assertFalse(tags.handlers)


class Tags(html.parser.HTMLParser):
    """Counts the tags of a page, and collects attributes that would run."""

    def __init__(self) -> None:
        super().__init__()
        self.seen: dict[str, int] = {}
        self.handlers: list[str] = []

    def handle_starttag(self, tag: str, attrs: list[tuple[str, str | None]]) -> None:
        self.seen[tag] = self.seen.get(tag, 0) + 1
        self.handlers += [name for name, _ in attrs if name.startswith("on") or name in ("href", "src")]


class Tool(FolderTest):
    def setUp(self) -> None:
        super().setUp()
        self.put("again.json", AGAIN_FILE)
        self.put("again.doc", AGAIN)

    def run_draw(self, *args: str, data: bytes = b"") -> subprocess.CompletedProcess[bytes]:
        return run_tool("draw", *args, data=data, folder=self.folder)

    def test_svg_from_standard_input(self) -> None:
        ended = self.run_draw("--answer", "-", "again.json", data=AGAIN)
        self.assertEqual((ended.returncode, ended.stderr), (0, b""))
        self.assertEqual(len(parts(ended.stdout.decode(), "hop")), 6)
        ended = self.run_draw("--hops", "4-5", "--answer", "again.doc", "again.json")
        self.assertEqual([hop.get("data-hop") for hop in parts(ended.stdout.decode(), "hop")], ["4", "5"])

    @common.needs_dot
    def test_forms(self) -> None:
        for args, begins in ((("again.json",), b"<svg"), (("-t", "-a", "again.doc", "again.json"), b"<svg"),
                             (("-f", "html", "again.json"), b"<!DOCTYPE html>"),
                             (("-f", "html", "-a", "again.doc", "again.json"), b"<!DOCTYPE html>")):
            with self.subTest(args):
                ended = self.run_draw(*args)
                self.assertEqual((ended.returncode, ended.stderr), (0, b""))
                self.assertTrue(ended.stdout.startswith(begins))
        self.assertEqual(self.run_draw("-a", "again.doc", "again.json", "-o", "again.html").returncode, 0)
        self.assertTrue((self.folder / "again.html").read_bytes().startswith(b"<!DOCTYPE html>"))

    def test_bad_input(self) -> None:
        self.put("bad.json", b"\xff\xfe{")
        self.put("long.json", topology("d", *(f"P p{at}" for at in range(1501))))
        self.put("out.svg", b"old")
        rows = [((), b""), (("gone.json",), b"not read"), (("bad.json",), b"fault 1 0 json"), (("again.json", "again.json"), b"duplicate-topology"),
                (("-a", "gone", "again.json"), b"not read"), (("-a", "again.json", "again.json"), b"line 1 of the document does not fit"),
                (("-a", "again.doc", "again.json", "-o", "no/out.svg"), b"not written"), (("--hops", "0-5", "again.json"), b"A-B"),
                (("long.json",), b"more than 1500"),
                (("--hops", "7-5", "again.json"), b"A-B"), (("-f", "png", "again.json"), b"png"), (["again.json"] * 65, b"64")]
        for args, says in rows:
            with self.subTest(args[:3]):
                ended = self.run_draw(*args, "-o", "out.svg") if "-o" not in args else self.run_draw(*args)
                self.assertEqual((ended.returncode, ended.stdout), (2, b""))
                self.assertIn(says, ended.stderr)
                self.assertNotIn(b"Traceback", ended.stderr)
        self.assertEqual((self.folder / "out.svg").read_bytes(), b"old")

    def test_a_page_without_dot(self) -> None:
        words = [sys.executable, str(common.TOOLS / "draw"), "-f", "html", "-a", "again.doc", "again.json"]
        ended = subprocess.run(words, capture_output=True, cwd=self.folder, env={"PATH": str(self.folder)}, check=False)
        self.assertEqual(ended.returncode, 0)
        self.assertIn(b"without the topology", ended.stderr)
        self.assertEqual(ended.stdout.count(b"<svg"), 1)


@common.needs_browser
class Browser(FolderTest):
    PROBE = """<script>
    const words = [];
    addEventListener('error', event => words.push('error ' + event.message));
    const hop = document.querySelector('g.hop[data-hop="2"]');
    hop.dispatchEvent(new PointerEvent('pointerenter'));
    words.push('panel ' + JSON.stringify(panel.textContent), 'lit ' + document.querySelectorAll('.lit').length);
    hop.dispatchEvent(new PointerEvent('pointerleave'));
    words.push('rest ' + document.querySelectorAll('.lit').length);
    const seen = () => getComputedStyle(document.querySelector('.potential')).display;
    words.push('before ' + seen()); asked.click(); words.push('asked ' + (seen() !== 'none'));
    for (const group of document.querySelectorAll('g.stop, g.part')) {
      const box = group.querySelector('rect'), inside = group.querySelectorAll('.id, .layer');
      if (box) for (const text of inside) if (text.getBBox().width > box.getBBox().width) words.push('too wide ' + text.textContent);
    }
    document.body.replaceChildren(Object.assign(document.createElement('pre'), {textContent: words.join('\\n'), id: 'said'}));
    </script>"""

    def said(self, page: str) -> str:
        """What the probe says behind a page."""
        path = Path(self.put("page.html", (page + self.PROBE).encode()))
        options = ["--headless", "--no-sandbox", "--disable-gpu", f"--user-data-dir={self.folder / 'profile'}", "--dump-dom"]
        ended = subprocess.run([common.browser_path() or "", *options, path.as_uri()], capture_output=True, timeout=60, check=True)
        match = re.search('<pre id="said">(.*?)</pre>', ended.stdout.decode(), re.DOTALL)
        self.assertIsNotNone(match, ended.stdout[-500:])
        return html.unescape(match[1]) if match else ""

    @common.needs_dot
    def test_hovering_and_asking(self) -> None:
        network, answer = accepted_network([AGAIN_FILE]), read_answer(AGAIN)
        page = answer_page(answer, CircuitPicture(answer, network, None, HIDDEN).svg(), NetworkPicture(network, answer).svg(), False)
        hovered = json.dumps("hop 2 link l x0 - y0 - d\nrule 2 carry l x0 - y0 -")
        self.assertEqual(self.said(page).split("\n"), [f"panel {hovered}", "lit 2", "rest 0", "before none", "asked true"])

    @common.needs_dot
    def test_hostile_ids(self) -> None:
        file, document = hostile()
        network, answer = accepted_network([file]), read_answer(document)
        page = answer_page(answer, CircuitPicture(answer, network, None, HIDDEN).svg(), NetworkPicture(network, answer).svg(), False)
        said = self.said(page).split("\n")
        self.assertIn(f"hop 2 cross {HOSTILE[3]}", json.loads(said[0].removeprefix("panel ")))
        self.assertEqual(said[1:], ["lit 2", "rest 0", "before none", "asked true"])


if __name__ == "__main__":
    unittest.main()
