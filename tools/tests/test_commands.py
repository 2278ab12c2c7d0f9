"""What `replay` and `drill` print, on the program, in worked rows."""
import unittest

from common import FolderTest, needs_finder, run_finder, topology

ONE = ["P a isSource=l", "P b isSink=l", "L l"]
TUNNEL = [
    "P c1 enc=eth", "P s1 enc=otn hasService=ad isSource=t", "P s2 enc=otn hasService=de isSink=t", "P c2 enc=eth",
    "A ad f=gfp providesPort=c1", "D de f=gfp providesPort=c2", "L t",
]
AGAIN = [
    "P x1", "P m1", "P y1", "P x0 hasService=f,g isSource=l", "P y0 hasService=u,v isSink=l", "A f f=F providesPort=x1",
    "A g f=G providesPort=m1", "D u f=F providesPort=m1", "D v f=G providesPort=y1", "L l",
]

TUNNEL_RULES = ["rule 1 wrap ad c1 - s1 -", "rule 2 carry t s1 - s2 -", "rule 3 unwrap de s2 - c2 -"]
AGAIN_RULES = [
    "rule 1 wrap f x1 - x0 -", "rule 2 carry l x0 - y0 -", "rule 3 unwrap u y0 - m1 -", "rule 4 wrap g m1 - x0 -",
    "rule 5 carry l x0 - y0 -", "rule 6 unwrap v y0 - y1 -",
]


def document(request: str, outcome: str, rules: list[str]) -> str:
    """A document of these rules alone: `replay` looks at nothing else of it but its request and outcome."""
    return "\n".join(["circuit 1", f"request {request}", f"outcome {outcome}", *(["domain d"] if rules else []), *rules, "end", ""])


@needs_finder
class ReplayTest(FolderTest):
    def replayed(self, elements: list[str], text: str) -> tuple[int, str]:
        (self.folder / "net.json").write_bytes(topology("d", *elements))
        (self.folder / "answer").write_text(text)
        ran = run_finder("replay", "answer", "net.json", folder=self.folder)
        return ran.returncode, ran.stdout.decode()

    def test_rows(self) -> None:
        tunnel = "c1 any c2 any"
        wrap, carry, unwrap = TUNNEL_RULES
        rows = [
            (ONE, document("a any b any", "found 1 1", ["rule 1 carry l a - b -"]), 0, "carried 1 any-order"),
            (AGAIN, document("x1 any y1 any", "found 6 6", AGAIN_RULES), 0, "carried 6 numbered"),
            (TUNNEL, document(tunnel, "found 3 3", TUNNEL_RULES), 0, "carried 3 any-order"),
            (TUNNEL, document(tunnel, "found 3 3", [wrap, carry]), 9, "not-carried 2 end"),
            (TUNNEL, document(tunnel, "found 3 3", [wrap, unwrap]), 9, "not-carried 2 number"),
            (TUNNEL, document(tunnel, "none", []), 9, "not-carried 0 outcome"),
            (TUNNEL, "", 9, "not-carried 0 text"),
            (TUNNEL, document("c1 any q any", "found 3 3", TUNNEL_RULES), 9, "not-carried 0 request"),
            (TUNNEL, document(tunnel, "found 3 3", [wrap, "rule 2 carry t s2 - s1 -", unwrap]), 9, "not-carried 2 no-hop"),
            (TUNNEL, document(tunnel, "found 3 3", [wrap, carry, "rule 3 unwrap de s2 - c2 7"]), 9, "not-carried 3 label"),
            (ONE, document("a any a any", "found 0 0", []), 0, "carried 0 any-order"),
        ]
        for elements, text, status, line in rows:
            with self.subTest(line=line):
                self.assertEqual(self.replayed(elements, text), (status, line + "\n"))

    def test_the_frame_that_comes_off_is_looked_at(self) -> None:
        other = [element.replace("f=gfp providesPort=c2", "f=ppp providesPort=c2") for element in TUNNEL]
        text = document("c1 any c2 any", "found 3 3", TUNNEL_RULES)
        self.assertEqual(self.replayed(other, text), (9, "not-carried 3 frame\n"))


@needs_finder
class DrillTest(unittest.TestCase):
    def test_rows(self) -> None:
        rows = [
            (10, 0, "domains 11 ports 32 links 8 services 40", "found 5116 5116", "carried 5116 numbered"),
            (20, 8, "domains 21 ports 62 links 8 services 80", "long 5242876 5242876", "-"),
            (60, 8, "domains 61 ports 182 links 8 services 240", "long 5764607523034234876 1099511627776", "-"),
            (70, 7, "domains 71 ports 212 links 8 services 280", "past", "-"),
            (1000, 7, "domains 1001 ports 3002 links 8 services 4000", "past", "-"),
        ]
        for levels, status, size, outcome, replayed in rows:
            with self.subTest(levels=levels):
                ran = run_finder("drill", str(levels))
                text = f"drill {levels}\n{size}\noutcome {outcome}\ncheck valid\nreplay {replayed}\n"
                self.assertEqual((ran.returncode, ran.stdout.decode()), (status, text))


if __name__ == "__main__":
    unittest.main()
