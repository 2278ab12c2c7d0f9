"""tools/from-nml: NML to topology files and back, what is left out, and what is refused."""
import json
import random
import time
import unittest

from common import FolderTest, kept_files, run_tool, topology
from test_verify import NETWORKS

from finderlib.nml import NAMESPACE, NmlFault, from_nml, to_nml
from finderlib.topologies import Domain, Labels, read_domain, write_domain

ETHERNET = "http://schemas.ogf.org/nml/2012/10/ethernet"


def nml(inner: str, attributes: str = 'id="t"') -> bytes:
    """A Topology in NML; `{R}x` stands for the type of a Relation."""
    inner = inner.replace("{R}", NAMESPACE)
    return f'<?xml version="1.0"?>\n<n:Topology xmlns:n="{NAMESPACE}" {attributes}>{inner}</n:Topology>'.encode()


def relation(name: str, *targets: str) -> str:
    return f'<n:Relation type="{NAMESPACE}{name}">{"".join(targets)}</n:Relation>'


EXAMPLE = nml(f"""
<n:name>Example</n:name>
<n:Location id="here"><n:name>Here</n:name></n:Location>
{relation("hasOutboundPort", '<n:PortGroup id="out" encoding="' + ETHERNET + '"><n:LabelGroup labeltype="v">1480-1499, 1601</n:LabelGroup>'
          + relation("isSource", '<n:LinkGroup id="lg"/>') + relation("isAlias", '<n:PortGroup id="away"/>') + '</n:PortGroup>')}
{relation("hasInboundPort", '<n:Port id="in"/>')}
<n:BidirectionalPort id="both"><n:name>Both</n:name><n:PortGroup id="out"/><n:Port id="in"/></n:BidirectionalPort>
<n:Port id="in"><n:Label labeltype="v"> 0100 </n:Label>{relation("hasService", '<n:AdaptationService id="ad" adaptationFunction="gfp">'
    + relation("providesPort", '<n:Port id="client" encoding="otn"/>') + relation("canProvidePort", '<n:Port id="later"/>') + '</n:AdaptationService>')}</n:Port>
<n:Node id="node">{relation("hasInboundPort", '<n:Port id="in"/>')}{relation("hasService", '<n:SwitchingService id="sw" labelSwapping="1"/>')}</n:Node>
<n:SwitchingService id="sw" labelSwapping="true"/>
<n:LinkGroup id="lg"><n:LabelGroup labeltype="v">7</n:LabelGroup></n:LinkGroup>
<n:DeadaptationService id="de" adaptationFunction="gfp"/>
""")
CONVERTED = {
    "format": 1, "topology": "t", "elements": [
        {"type": "PortGroup", "id": "out", "encoding": ETHERNET, "hasLabelGroup": {"labeltype": "v", "values": "1480-1499,1601"},
         "isSource": ["lg"], "isAlias": ["away"]},
        {"type": "Port", "id": "in", "hasLabel": {"labeltype": "v", "value": 100}, "hasService": ["ad"]},
        {"type": "AdaptationService", "id": "ad", "adaptationFunction": "gfp", "cost": 1, "providesPort": ["client"]},
        {"type": "Port", "id": "client", "encoding": "otn"},
        {"type": "Node", "id": "node", "hasInboundPort": ["in"], "hasService": ["sw"]},
        {"type": "SwitchingService", "id": "sw", "labelSwapping": True, "cost": 1},
        {"type": "LinkGroup", "id": "lg", "hasLabelGroup": {"labeltype": "v", "values": "7"}, "cost": 1},
        {"type": "DeadaptationService", "id": "de", "adaptationFunction": "gfp", "cost": 1}]}

# what a Topology has, what is left out of it, words of the reason, and whether circuits may depend on it
LEFT_OUT = [
    ("<n:name>x</n:name>", "name", "names", False),
    ("<n:Lifetime><n:start/></n:Lifetime>", "Lifetime", "now", True),
    ('<n:Port id="p"><n:Label labeltype="l">C21</n:Label></n:Port>', "Port p", "'C21' is no whole number", True),
    ('<n:Port id="p"><n:Label labeltype="l">4294967296</n:Label></n:Port>', "Port p", "no whole number below 2^32", True),
    ('<n:Port id="p"><n:Label>7</n:Label></n:Port>', "Port p", "labeltype", True),
    ('<n:Port id="p"><n:LabelGroup labeltype="l">1-2</n:LabelGroup></n:Port>', "Port p", "a Port has one label", True),
    ('<n:PortGroup id="p"><n:Label labeltype="l">1</n:Label><n:Label labeltype="l">2</n:Label></n:PortGroup>', "PortGroup p", "several", True),
    ('<n:PortGroup id="p"><n:LabelGroup labeltype="l">5-3</n:LabelGroup></n:PortGroup>', "PortGroup p", "no whole number", True),
    ('<n:Port id="p" encoding="a b"/>', "Port p", "encoding 'a b' is not 1 to 255", True),
    ('<n:Port id="a b"/>', "Port", "is not 1 to 255", True),
    ("<n:Port/>", "Port", "has no id", True),
    ('<n:AdaptationService id="a"/>', "AdaptationService a", "no adaptationFunction", True),
    ('<n:Link id="l" noReturnTraffic="true"/>', "noReturnTraffic", "one way", False),
    ('<n:Port id="p" speed="9"/>', "speed", "a Port has no such member", True),
    ('<n:Link id="l">' + relation("isSerialCompoundLink", '<n:Link id="m"/>') + "</n:Link>", "isSerialCompoundLink", "made of others", True),
    ('<n:Link id="l">' + relation("isAlias", '<n:Link id="m"/>') + "</n:Link>", "isAlias", "a Link has no such relation", True),
    (relation("isAlias", '<n:Topology id="u"/>'), "isAlias", "a Topology is none", True),
    (relation("hasService", '<n:SwitchingService id="s"/>'), "hasService", "lends its services no ports", False),
    ('<n:Topology id="inner"><n:Port id="p"/></n:Topology>', "Topology", "part of it", True),
    ('<other xmlns="urn:other"><n:Port id="p"/></other>', "other", "nothing of this name", True),
    ('<n:Port id="p">' + relation("isSource", "<n:Link/>") + "</n:Port>", "isSource", "names ''", True),
]
REFUSED = [
    b"", b"\xff\xfe", b"<a>", b"<a/><b/>", b"text", nml('<n:Port id="&x;"/>'), nml("", 'id="a b"'), nml("", ""),
    b"<!DOCTYPE a><a/>",
    b'<!DOCTYPE a [<!ENTITY x "y">]><a>&x;</a>',
    b'<!DOCTYPE a SYSTEM "file:///etc/passwd"><a/>',
    b'<!DOCTYPE a [<!ENTITY x SYSTEM "file:///etc/passwd">]><a>&x;</a>',
    b'<?xml version="1.0" encoding="no-such"?><a/>',
    f'<a xmlns="{NAMESPACE}"><Topology id="t"/><Topology id="u"/></a>'.encode(),
    b'<Topology id="t"/>',
    b'<a xmlns="urn:x">' * 200 + b"</a>" * 200,
    nml('<n:Port id="p"/><n:Link id="p"/>'),
    nml('<n:Port id="p" encoding="a"/><n:Port id="p" encoding="b"/>'),
    nml('<n:SwitchingService id="s" labelSwapping="yes"/>'),
]


class FromNml(unittest.TestCase):
    def test_example(self) -> None:
        domain, left_out = from_nml(EXAMPLE)
        self.assertEqual(json.loads(write_domain(domain)), CONVERTED)
        self.assertEqual([(item.what, item.matters) for item in left_out], [
            ("name", False), ("Location", False), ("name", False), ("hasOutboundPort", False), ("hasInboundPort", False),
            ("BidirectionalPort", False), ("name", False), ("canProvidePort", True)])

    def test_what_is_left_out(self) -> None:
        for inner, what, why, matters in LEFT_OUT:
            with self.subTest(inner):
                domain, left_out = from_nml(nml(inner))
                self.assertEqual([(item.what, item.matters) for item in left_out if why in item.why], [(what, matters)], left_out)
                self.assertEqual(read_domain(write_domain(domain)), domain)

    def test_refused(self) -> None:
        for data in REFUSED:
            with self.subTest(data[:80]), self.assertRaises(NmlFault):
                from_nml(data)

    def test_a_topology_of_several(self) -> None:
        text = f'<a xmlns="{NAMESPACE}"><Topology id="t"/><Topology id="u"><Port id="p"/></Topology></a>'.encode()
        self.assertEqual([element.id for element in from_nml(text, "u")[0].elements], ["p"])

    def test_many_elements_in_linear_time(self) -> None:
        comments = "<n:Label labeltype='v'>" + "1<!-- -->" * 9 + "</n:Label>"
        start = time.process_time()
        domain, _ = from_nml(nml("".join(f'<n:Port id="p{n}">{comments if n == 5 else ""}</n:Port>' for n in range(20_000))))
        self.assertEqual((len(domain.elements), domain.elements[5].labels), (20_000, Labels("v", ((111111111, 111111111),))))
        self.assertLess(time.process_time() - start, 30)


class ThereAndBack(FolderTest):
    def test_random_networks(self) -> None:
        """What NML can say comes back as it was, with each encoding stated."""
        for seed in range(200):
            domains, _ = NETWORKS.random_network(random.Random(seed))
            for tree in domains:
                domain = sayable(read_domain(json.dumps(tree).encode()))
                text, left_out = to_nml(domain)
                self.assertEqual(left_out, [])
                again, left_out = from_nml(text)
                self.assertEqual((again, left_out), (domain, []), f"seed {seed}")

    def test_strange_ids(self) -> None:
        domain = read_domain(topology('"<&>\'', 'P "<a&b>\'\\ isSource=]]> isAlias=<x/>', "L ]]>"))
        self.assertEqual(from_nml(to_nml(domain)[0]), (domain, []))

    def test_what_nml_cannot_say(self) -> None:
        _, left_out = to_nml(read_domain(topology("d", "C c", "L l cost=2", "S s hasInboundPort=", "N n hasService=c,s")))
        self.assertEqual([item.what for item in left_out], ["ConversionService c", "cost 2 of Link l", "the empty hasInboundPort of SwitchingService s"])

    def test_command(self) -> None:
        source, target, xml = self.put("in.xml", EXAMPLE), str(self.folder / "out.json"), str(self.folder / "back.xml")
        run = run_tool("from-nml", source, "-o", target)
        self.assertEqual((run.returncode, json.loads((self.folder / "out.json").read_bytes())), (1, CONVERTED))
        self.assertIn(b"line 3 and 2 more: name: names do not matter to a circuit\n", run.stderr)
        self.assertEqual(run_tool("from-nml", "--back", target, "-o", xml).returncode, 0)
        self.assertEqual(run_tool("from-nml", xml).stdout, (self.folder / "out.json").read_bytes())
        self.assertEqual(len(run_tool("from-nml", "--all", source).stderr.splitlines()), 8)
        self.assertEqual(run_tool("from-nml", "--help").returncode, 0)
        for words, data in [(["-"], b"<a"), (["gone.xml"], b""), ([], b""), (["--back", "-"], b"{}"), (["--topology", "u", "-"], EXAMPLE),
                            (["-"], nml('<n:Port id="p">' + relation("isAlias", '<n:Link id="l"/>') + '</n:Port><n:Link id="l"/>'))]:
            with self.subTest(words):
                run = run_tool("from-nml", *words, "-o", "never", data=data, folder=self.folder)
                self.assertEqual((run.returncode, run.stdout, (self.folder / "never").exists()), (2, b"", False))
                self.assertTrue(run.stderr)

    def test_examples(self) -> None:
        """All but what NML cannot say comes back; test_command runs the tool itself."""
        for path in (it for it in kept_files("examples") if it.suffix == ".json"):
            again, left_out = from_nml(to_nml(read_domain(path.read_bytes()))[0])
            self.assertEqual((again, left_out), (sayable(read_domain(path.read_bytes())), []), path)


def sayable(domain: Domain) -> Domain:
    """A domain without what NML cannot say."""
    conversions = {element.id for element in domain.elements if element.type == "ConversionService"}
    elements = [element for element in domain.elements if element.id not in conversions]
    for number, element in enumerate(elements, 1):
        element.number, element.cost = number, 1
        if element.type in ("Port", "PortGroup"):
            element.encoding = element.encoding or domain.encoding
        element.relations = {name: targets for name, targets in element.relations.items() if targets}
    return Domain(domain.id, None, elements)


if __name__ == "__main__":
    unittest.main()
