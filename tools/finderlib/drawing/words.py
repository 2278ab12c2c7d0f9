"""Requests and outcomes in the words of a heading."""
from finderlib.documents import Outcome, Request
from finderlib.drawing.svg import shorten


def request_words(request: Request) -> str:
    """A request in a line."""
    ends = [(request.source, request.source_wish), (request.target, request.target_wish)]
    return " \u2192 ".join(shorten(port, 40) + ("" if wish is None else f" at {wish}") for port, wish in ends)


def outcome_words(outcome: Outcome) -> str:
    """An outcome in a sentence."""
    if outcome.weight is None:
        return {"none": "no circuit: no list of hops is a walk", "past": "every circuit costs 2^64 or more"}[outcome.word]
    weight = f"cost {outcome.weight.cost}, {outcome.weight.hops} hop{'' if outcome.weight.hops == 1 else 's'}"
    said = {"found": "a cheapest circuit", "listed": "a circuit of a list of the cheapest", "long": "the cheapest circuit is too long to list"}
    return f"{said[outcome.word]}: {weight}"
