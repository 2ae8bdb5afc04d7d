"""Terminals that send the commands of the floor at once, requests that end early, and connections that go."""

import json
import threading

from kit import owners, tables
from kit.case import case
from kit.floor import GLASS, day, line, message, numbered, received, answers
from kit.full_day import all_entries
from kit.owners import Owners
from kit.paper import Paper
from kit.questions import compact
from kit.shop import answer, request_of

TERMINALS = range(2, 10)
TREE = "x4 y3 p1 r r"
ORDERED = {"do": "order", "order": "A-1", "lines": [line(1, 4, 3, 99)]}


def at_once(trial, deeds):
    """Does these at once, each in a thread of its own; what each gives, in their order."""
    found, threads = [None] * len(deeds), []
    for at, deed in enumerate(deeds):

        def do(at=at, deed=deed):
            found[at] = deed()

        threads.append(threading.Thread(target=do))
    for it in threads:
        it.start()
    for it in threads:
        it.join()
    trial.equal([it for it in found if it is None], [], "terminals that got no answer")
    return found


def replies_at_once(trial, shop, lines):
    """The replies to lines that are sent at once, as objects."""
    return at_once(trial, [lambda it=it: json.loads(shop.reply(it)) for it in lines])


def is_history(trial, shop):
    """The entries of a shop, in their order, get the same replies on a shop on paper, which then has the shop's rows; each cell has its owner."""
    entries, paper, owned = all_entries(trial, shop), Paper(), Owners()
    for it in entries:
        sent, reply = compact(it["message"]), json.dumps(it["reply"], ensure_ascii=False, separators=(",", ":"), sort_keys=True)
        trial.equal(paper.reply(sent), reply, sent)
        owned.accept(sent, reply)
    shop.kill()
    found = tables.rows(shop.store)
    trial.equal(found, paper.rows())
    owners.check(trial, found, owned)
    return entries


def filled(trial, count):
    """A shop with so many sheets, an order, and a job of each sheet: of sheet n job n + 2."""
    shop = trial.shop()
    for it in numbered([GLASS, received(count), ORDERED, *({"do": "reserve", "part": f"1/{it}", "tree": TREE} for it in range(count))]):
        trial.holds(b'"ok"' in shop.reply(it), it)
    return shop


@case(
    "eight terminals begin a job at once",
    "Each of eight terminals that begin the same job at once is accepted, and its reply reports the one before it in the history, the "
    "first one's 0; the lists report the last one as that which has begun it.",
)
def begin(trial):
    shop = filled(trial, 1)
    for number in (1, 2):
        found = replies_at_once(trial, shop, [message(number, it, do="begin", job=2) for it in TERMINALS])
        trial.equal([it["ok"] for it in found], ["begin"] * 8)
        begun, last = [it for it in all_entries(trial, shop) if it["message"]["do"] == "begin"], 0
        for it in begun:
            trial.equal(it["reply"], {"before": last, "job": 2, "ok": "begin"}, it["message"])
            last = it["message"]["terminal"]
        told_ = {it["message"]["terminal"]: it["reply"] for it in begun[-8:]}
        trial.equal((len(begun), found), (8 * number, [told_[it] for it in TERMINALS]), "the replies are those of the entries")
        trial.equal(json.loads(shop.reply('{"ask":"job","job":2}'))["begun"], last)
        trial.equal(json.loads(shop.reply('{"after":0,"ask":"jobs"}'))["jobs"][0]["begun"], last)
    is_history(trial, shop)


@case(
    "eight terminals undo a job at once",
    "Of eight terminals that undo the same job at once one is accepted and the others are refused 73; of eight that end it anew "
    "and undo it one by one each cell has one owner.",
)
def undo(trial):
    shop = filled(trial, 3)
    for job in (2, 3, 4):
        trial.holds(b'"ok"' in shop.reply(message(100 + job, do="done", job=job)), job)
        found = replies_at_once(trial, shop, [message(job, it, do="undo", job=job) for it in TERMINALS])
        told_ = sorted(it.get("refused", 0) for it in found)
        trial.equal(told_, [0] + [73] * 7, job)
        trial.equal([it for it in found if "ok" in it], [{"job": job, "ok": "undo", "part": f"1/{job - 2}"}])

    def work(terminal):
        """Reserves whatever sheet stands, ends the job and undoes it, again and again."""
        number = 20
        for turn in range(12):
            reply = json.loads(shop.reply(message(number, terminal, do="reserve", part=f"1/{turn % 3}", tree=TREE)))
            if "ok" not in reply:
                continue
            end = {"do": "done"} if turn % 2 else {"do": "break", "cuts": 1, "lost": True, "rest": 6}
            for it in ({"do": "begin"}, end, {"do": "undo"}):
                number += 1
                if "ok" not in json.loads(shop.reply(message(number, terminal, job=reply["job"], **it))):
                    return f"{it} of job {reply['job']}"
            number += 1
        return "done"

    trial.equal(at_once(trial, [lambda it=it: work(it) for it in TERMINALS]), ["done"] * 8)
    is_history(trial, shop)


@case(
    "eight terminals note and extend an order at once",
    "Of eight terminals that note an order at once the last one's day and text are reported; of eight that add the same line to it "
    "one is accepted and the others are refused 41, and lines that "
    "rise are added in some order, each as a demand of its own.",
)
def say(trial):
    shop = filled(trial, 1)
    found = replies_at_once(trial, shop, [message(1, it, do="note", order="A-1", due=20261200 + it, text=f"terminal {it}") for it in TERMINALS])
    trial.equal(found, [{"ok": "note", "order": "A-1"}] * 8)
    (order,) = json.loads(shop.reply('{"after":"","ask":"orders"}'))["orders"]
    trial.equal(order["text"], f"terminal {order['due'] - 20261200}")
    last = [it for it in all_entries(trial, shop) if it["message"]["do"] == "note"][-1]["message"]
    trial.equal((order["due"], order["text"]), (last["due"], last["text"]))
    found = replies_at_once(trial, shop, [message(2, it, do="extend", order="A-1", lines=[line(2, 2, 2, it)]) for it in TERMINALS])
    trial.equal(sorted(it.get("refused", 0) for it in found), [0] + [41] * 7)
    trial.equal([it for it in found if "ok" in it], [{"count": 1, "first": 2, "ok": "extend", "order": "A-1"}])
    found = replies_at_once(trial, shop, [message(3, it, do="extend", order="A-1", lines=[line(10 * it, 2, 2, 1), line(10 * it + 5, 2, 2, 1)]) for it in TERMINALS])
    added = [it for it in found if "ok" in it]
    trial.holds(added and all(it.get("refused", 41) == 41 for it in found), str(found))
    trial.equal(sorted(it["first"] for it in added), [3 + 2 * it for it in range(len(added))])
    is_history(trial, shop)


@case(
    "prefixes of requests of the floor",
    "Each first part of a POST of a note, an extend, a begin, a break with a rest and an undo is answered 400, or nothing where "
    "no byte came, and changes nothing; the whole one is "
    "accepted. So is each first part of a GET of pieces and steps.",
)
def prefixes(trial):
    shop, paper, number = trial.shop(), Paper(), 0
    for sent, reply in day():
        request = request_of(sent)
        if json.loads(sent)["do"] in ("note", "extend", "begin", "break", "undo"):
            before = shop.reply('{"ask":"shop"}')
            for end in trial.places(len(request), 5):
                trial.equal(shop.exchange(request[:end]), answer(400) if end else b"", request[:end])
            trial.equal(shop.reply('{"ask":"shop"}'), before, sent)
            number += 1
        trial.equal(shop.exchange(request), answer(200, reply), sent)
        trial.equal(paper.reply(sent), reply, sent)
    trial.equal(number, 9, "messages that were cut short")
    for path in ("/pieces/unit/1/0/2/2", "/steps/2"):
        request = f"GET {path} HTTP/1.1\r\nHost: shop\r\n\r\n".encode()
        for end in range(len(request)):
            trial.equal(shop.exchange(request[:end]), answer(400) if end else b"", request[:end])
        trial.holds(shop.exchange(request).startswith(b"HTTP/1.1 200 OK"), path)
    for asked in ({"ask": "steps", "job": 2}, {"after": 0, "ask": "jobs"}, {"ask": "lines", "order": "A-1"}):
        answers(trial, shop, asked, paper.reply(compact(asked)))
