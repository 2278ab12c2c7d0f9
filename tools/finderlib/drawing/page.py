"""One HTML page with the pictures of a document, its lines, and its potentials on demand; it asks for nothing outside itself."""
from collections.abc import Iterator
from html import escape

from finderlib.documents import Answer, domain_line, hop_line, potential_line, rule_line
from finderlib.drawing.networks import REACHED_WORDS
from finderlib.drawing.sheets import HOPS_MOST
from finderlib.drawing.words import outcome_words, request_words

POTENTIALS_MOST = 2000
RESTING = "Rest on a hop: its line and its rule stand here."

STYLE = """
body { font: 14px/1.45 'Helvetica Neue', Arial, 'Liberation Sans', sans-serif; color: #1f2933; margin: 0 0 4.5em; background: #fff; }
header, section, details { padding: 0 22px; }
h1 { font-size: 20px; margin: 16px 0 2px; overflow-wrap: anywhere; }
h2, summary { font-size: 15px; font-weight: bold; margin: 26px 0 4px; }
p { margin: 2px 0 8px; color: #52606d; }
figure { margin: 0; overflow-x: auto; border-top: 1px solid #e4e7eb; border-bottom: 1px solid #e4e7eb; }
svg { display: block; }
label { user-select: none; cursor: pointer; }
ol, pre, #panel { font: 12px/1.5 'DejaVu Sans Mono', Menlo, Consolas, 'Liberation Mono', monospace; }
ol { list-style: none; margin: 0; padding: 0; max-height: 26em; overflow-y: auto; border: 1px solid #e4e7eb; }
li { padding: 1px 8px; white-space: pre-wrap; overflow-wrap: anywhere; }
li.lit { background: #fff3c4; }
#panel { position: fixed; left: 0; right: 0; bottom: 0; min-height: 3em; padding: 8px 22px; background: #1f2933; color: #f5f7fa;
  white-space: pre-wrap; overflow-wrap: anywhere; }
.asked .potential { display: inline !important; }
"""

SCRIPT = """
const parts = new Map();
for (const part of document.querySelectorAll('[data-hop]')) {
  const number = part.dataset.hop;
  if (!parts.has(number)) parts.set(number, []);
  parts.get(number).push(part);
}
const panel = document.getElementById('panel');
const resting = panel.textContent;
for (const [number, both] of parts) {
  const lines = both.map(part => part.dataset.lines).find(lines => lines) || '';
  const light = on => {
    for (const part of both) part.classList.toggle('lit', on);
    panel.textContent = on ? lines : resting;
  };
  for (const part of both) {
    part.addEventListener('pointerenter', () => light(true));
    part.addEventListener('pointerleave', () => light(false));
  }
}
const asked = document.getElementById('asked');
if (asked) {
  const show = () => document.body.classList.toggle('asked', asked.checked);
  asked.addEventListener('change', show);
  show();
}
"""
POLICY = "default-src 'none'; style-src 'unsafe-inline'; script-src 'unsafe-inline'"


def answer_page(answer: Answer, circuit: str, network: str | None, potentials: bool) -> str:
    """The page of a document. `circuit` and `network` are SVGs; `potentials` says whether those of places are seen from the start."""
    name = request_words(answer.request)
    listed = len(answer.tops) + len(answer.segs)
    body = [f"<header><h1>{escape(name)}</h1><p>{escape(outcome_words(answer.outcome))}</p>"]
    if listed and answer.hops:
        body.append(f'<p><label><input type="checkbox" id="asked"{" checked" if potentials else ""}> potentials: below each place the '
                    "least cost, in how many hops, from FROM or from where the tunnel begins</label></p>")
    body.append("</header>")
    if answer.hops or network is None:
        body.append(f"<figure>{circuit}</figure>")
    if network is not None:
        heading = f"<h2>{'Where it runs' if answer.hops else 'How far one comes'}</h2>"
        body.append(f"<section>{heading}{f'<p>{REACHED_WORDS}</p>' if listed else ''}</section><figure>{network}</figure>")
    if answer.hops:
        body.append(f"<section><h2>Hops and rules</h2><ol>{''.join(_hop_items(answer))}</ol></section>")
    if listed:
        body.append(f"<details><summary>Potentials ({listed})</summary>{_potentials(answer, listed)}</details>")
    body.append(f'<div id="panel">{RESTING}</div>' if answer.hops else '<div id="panel" hidden></div>')
    return _page(name, "\n".join(body))


def network_page(names: list[str], network: str) -> str:
    """The page of a topology; `names` are those of its domains."""
    said = escape(", ".join(names))
    return _page(", ".join(names), f'<header><h1>{said}</h1></header><figure>{network}</figure><div id="panel" hidden></div>')


def _hop_items(answer: Answer) -> Iterator[str]:
    rules: dict[int, list[str]] = {}
    for part in answer.domains:
        for rule in part.rules:
            rules.setdefault(rule.number, []).append(f"{domain_line(part)}: {rule_line(rule)}")
    for number, hop in enumerate(answer.hops[:HOPS_MOST], 1):
        lines = "\n".join([hop_line(number, hop), *rules.get(number, [])])
        yield f'<li data-hop="{number}">{escape(lines)}</li>'
    if len(answer.hops) > HOPS_MOST:
        yield f"<li>and {len(answer.hops) - HOPS_MOST} more hops</li>"


def _potentials(answer: Answer, listed: int) -> str:
    first = [*answer.tops[:POTENTIALS_MOST], *answer.segs[:max(0, POTENTIALS_MOST - len(answer.tops))]]
    more = f"and {listed - len(first)} more\n" if listed > len(first) else ""
    return f"<pre>{escape(''.join(potential_line(potential) + chr(10) for potential in first))}{more}</pre>"


def _page(name: str, body: str) -> str:
    return (f'<!DOCTYPE html>\n<html lang="en"><head><meta charset="utf-8"><meta http-equiv="Content-Security-Policy" content="{POLICY}">'
            f"<title>{escape(name)}</title><style>{STYLE}</style></head>\n<body>\n{body}\n<script>{SCRIPT}</script></body></html>\n")
