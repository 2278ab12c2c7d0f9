"""tools/lint: each kind of finding, files without any, and bad input."""
import time
import unittest

from common import ROOT, FolderTest, run_tool, topology

from finderlib.findings import KINDS, Finding, findings
from finderlib.topologies import TopologyFault


def entries(*texts: str) -> bytes:
    """A file of elements in JSON."""
    return f'{{"format":1,"topology":"d","elements":[{",".join(texts)}]}}'.encode()


# what is found in a file: the kind, the element, and words of the sentence
CASES = [
    (entries('{"type":"port","id":"p"}'), "unread-type", 1, "Port is meant?"),
    (entries('{"type":"BidirectionalPort"}'), "unread-type", 1, "a port each way"),
    (entries('{"type":"x y\\n","id":7}'), "unread-type", 1, 'the type "x y\\n" is read over'),
    (entries('{"type":"Port","id":"p","issource":[]}'), "unread-member", 1, "isSource is meant?"),
    (entries('{"type":"Port","id":"p","hasLabelGroup":{}}'), "unread-member", 1, "it is of PortGroup, LinkGroup"),
    (entries('{"type":"Port","id":"p","hasLabel":{"labeltype":"v","value":1,"values":"1"}}'), "unread-member", 1, '"values" is not read of hasLabel'),
    (b'{"format":1,"topology":"d","elements":[],"encodings":"eth"}', "unread-member", 0, "encoding is meant?"),
    (entries('{"type":"Port","id":"p","isSource":["l"],"isSource":["l"]}', '{"type":"Link","id":"l"}'), "repeated-member", 1, '"isSource"'),
    (topology("d", "P p isSource=nowhere"), "open-reference", 1, "isSource names nowhere, which no file has"),
    (topology("d", "P p isSource=LINK", "L link"), "open-reference", 1, "link is meant?"),
    (entries('{"type":"Port","id":"p","isSource":["x"]}', '{"type":"OrderedList","id":"x"}'), "open-reference", 1, 'of the type "OrderedList"'),
    (topology("d", "P p isSource=l", "L l"), "no-port", 2, "no port takes from it"),
    (topology("d", "P p isSink=l", "L l"), "no-port", 2, "no port sends into it"),
    (topology("d", "S s"), "no-port", 1, "no Node names it"),
    (topology("d", "S s enc=otn", "P p", "N n hasService=s hasInboundPort=p hasOutboundPort=p"), "no-port", 1, "nothing of the encoding otn"),
    (topology("d", "S s hasInboundPort=p", "P p"), "no-port", 1, "hasOutboundPort names no port"),
    (topology("d", "C s hasOutboundPort=p", "P p"), "no-port", 1, "hasInboundPort names no port"),
    (topology("d", "A a f=F providesPort=p", "P p"), "no-port", 1, "no server port"),
    (topology("d", "D a f=F", "P p hasService=a"), "no-port", 1, "no client port"),
    (topology("d", "P p enc=eth isAlias=q", "P q enc=otn"), "alias-layer", 1, "has the encoding otn, and it has eth"),
    (topology("d", "P p label=v:1 isAlias=q", "P q"), "alias-layer", 1, "has the label type none, and it has v"),
    (topology("d", "PG p labels=v:1-4 isAlias=q", "PG q labels=v:5"), "no-label", 1, "it and its alias q have no label in common"),
    (topology("d", "A a f=F providesPort=p", "D b f=G providesPort=p", "P p", "P q hasService=a,b"), "no-match", 2, "AdaptationService has the function G"),
    (topology("d", "P p enc=Ethernet", "P q enc=ethernet"), "near-name", 2, "the encoding ethernet is another than Ethernet"),
    (topology("d", "A a f=g.fp providesPort=p", "D b f=gfp providesPort=p", "P p", "P q hasService=a,b"), "near-name", 2, "the function gfp"),
]


class Lint(FolderTest):
    def test_each_kind(self) -> None:
        for data, kind, element, words in CASES:
            with self.subTest(data):
                found = [one for one in findings([data]) if (one.kind, one.element) == (kind, element)]
                self.assertTrue(any(words in one.sentence for one in found), findings([data]))
        self.assertEqual({kind for _, kind, _, _ in CASES}, set(KINDS))

    def test_sound_files(self) -> None:
        tunnel = topology("d", "P c1 enc=eth", "P s1 enc=otn hasService=ad isSource=t", "P s2 enc=otn hasService=de isSink=t", "P c2 enc=eth",
                          "A ad f=gfp providesPort=c1", "D de f=gfp providesPort=c2", "L t")
        self.assertEqual(findings([tunnel]), [])
        for name in ("one", "vpn", "dear"):
            self.assertEqual(findings([(ROOT / "examples" / f"{name}.json").read_bytes()]), [])

    def test_references_over_files(self) -> None:
        """What one file names may be in another."""
        files = [topology("d", "P p isSource=l"), topology("e", "P q isSink=l", "L l")]
        self.assertEqual(findings(files), [])
        self.assertEqual(findings(files[:1]), [Finding(1, 1, "open-reference", "Port p", "isSource names l, which no file has")])

    def test_faults(self) -> None:
        for files in ([b""], [b"{}"], [b"\xff"], [topology("d", "P a"), topology("d", "P b")], [topology("d", "P a isSource=b", "P b")]):
            with self.subTest(files), self.assertRaises(TopologyFault):
                findings(files)

    def test_command(self) -> None:
        sound = self.put("sound.json", topology("d", "P a isSource=l", "P b isSink=l", "L l"))
        odd = self.put("o d d.json", topology("e", 'P "<&\\ isSource=k', "L k", "P c isSink=k isSource=gone"))
        broken = self.put("broken.json", b"[")
        for words, status, out in [
                ([sound], 0, ""),
                ([sound, odd], 1, f"{odd}: element 3, Port c: open-reference: isSource names gone, which no file has\n"),
                (["--without", "open-reference", odd], 0, ""),
                ([broken], 2, ""), (["gone.json"], 2, ""), ([], 2, ""), (["--without", "x", sound], 2, ""), ([sound] * 65, 2, "")]:
            with self.subTest(words):
                run = run_tool("lint", *words, folder=self.folder)
                self.assertEqual((run.returncode, run.stdout.decode()), (status, out))
                self.assertEqual(status == 2, run.stderr != b"")
        self.assertEqual(run_tool("lint", "--help").returncode, 0)

    def test_many_findings_in_linear_time(self) -> None:
        texts = [f'{{"type":"Port","id":"p{n}","isSource":["l{n}"],"note{n}":1}}' for n in range(10_000)]
        start = time.process_time()
        self.assertEqual(len(findings([entries(*texts)])), 20_000)
        self.assertLess(time.process_time() - start, 60)


if __name__ == "__main__":
    unittest.main()
