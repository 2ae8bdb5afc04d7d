"""A shop whose answers to questions for plans are a case's own."""

import base64
import json
from contextlib import contextmanager


@contextmanager
def answering(it, path, answer):
    """Requests of a path are answered by a function, which takes the body's object and gives a status and a text or an object;
    or gives nothing, so that no answer comes."""
    held = []

    def paused(event):
        said = answer(json.loads(event["request"].get("postData") or "null"))
        if said is None:
            held.append(event["requestId"])
            return
        status, reply = said
        text = reply if isinstance(reply, str) else json.dumps(reply)
        body = base64.b64encode(text.encode()).decode()
        it.post("Fetch.fulfillRequest", requestId=event["requestId"], responseCode=status, body=body)

    it.on_paused = paused
    it.call("Fetch.enable", patterns=[{"urlPattern": f"*{path}", "requestStage": "Request"}])
    yield
    for name in held:
        it.post("Fetch.failRequest", requestId=name, errorReason="ConnectionReset")
    it.call("Fetch.disable")
    it.on_paused = None


def plans(rows, cost, bound, missing=0, step=0, proved=False):
    """An answer to a question for plans. `rows` are parts' names, how many are bought, the tree, and the sides; `missing` is how
    many pieces of demand 1 are."""
    output = [{"buy": buy, "h": h, "parts": parts, "tree": tree, "w": w} for parts, buy, tree, w, h in rows]
    return {
        "bound": bound,
        "cost": cost,
        "missing": [{"demand": 1, "pieces": missing}] if missing else [],
        "ok": "plans",
        "plans": output,
        "prices": [],
        "proved": proved,
        "short": missing > 0,
        "step": step,
    }


def bar_of(pieces):
    """A plan of a bar with so many pieces."""
    return "x10000 p1 " * pieces + "r"
