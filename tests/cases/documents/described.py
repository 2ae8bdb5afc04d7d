"""docs/openapi.json: it is OpenAPI, has all that docs/FORMATS.md has, and what the cases exchange is as it says."""

import copy
import json
import os
import re

from kit import described
from kit.case import TOP, Skipped, case
from kit.described import at, document, resolved
from kit.exchanges import EXCHANGES
from kit.shop import VERSION, request_of

# Keys of OpenAPI's objects: those that each has to have, and those that it may have.
OBJECTS = {
    "document": ("openapi info servers paths components", ""),
    "info": ("title version", "summary description license"),
    "operation": ("operationId summary parameters responses", "description requestBody"),
    "parameter": ("name in required schema", "description"),
    "response": ("description", "content headers"),
    "body": ("required content", "description"),
    "content": ("schema", ""),
}


def text_of(*names):
    with open(os.path.join(TOP, *names), encoding="utf-8") as file:
        return file.read()


def needs_checker():
    if described.jsonschema is None:
        raise Skipped("there is no jsonschema here (apt-get install python3-jsonschema)")


def references(value):
    """All references in a value."""
    if isinstance(value, dict):
        if isinstance(value.get("$ref"), str):
            yield value["$ref"]
        for it in value.values():
            yield from references(it)
    elif isinstance(value, list):
        for it in value:
            yield from references(it)


def operations():
    for template, item in document()["paths"].items():
        for method, operation in item.items():
            yield f"{method} {template}", operation


@case(
    "the description of HTTP as OpenAPI",
    "docs/openapi.json is OpenAPI 3.1 of the program's version: its objects have the keys that they have to have and no others, each path its parameters, "
    "references lead to what is there, all that is there is named, and each schema is one.",
)
def is_openapi(trial):
    def has_keys(value, kind, where):
        needed, allowed = [it.split() for it in OBJECTS[kind]]
        trial.equal([it for it in needed if it not in value], [], f"{where}: missing")
        trial.equal([it for it in value if it not in needed + allowed], [], f"{where}: further keys")

    whole = document()
    has_keys(whole, "document", "the document")
    has_keys(whole["info"], "info", "info")
    trial.equal((whole["openapi"], whole["info"]["version"]), ("3.1.1", VERSION))
    for name, operation in operations():
        has_keys(operation, "operation", name)
        method, template = name.split()
        for it in map(resolved, operation["parameters"]):
            has_keys(it, "parameter", f"{name} {it['name']}")
        named = [it["name"] for it in map(resolved, operation["parameters"]) if it["in"] == "path"]
        trial.equal(named, re.findall(r"{(\w+)}", template), name)
        trial.holds(method in ("get", "post") and ("requestBody" not in operation or method == "post"), name)
        if "requestBody" in operation:
            has_keys(operation["requestBody"], "body", name)
        for status, response in operation["responses"].items():
            has_keys(resolved(response), "response", f"{name} {status}")
            trial.holds(re.fullmatch("[2-5][0-9][0-9]", status), f"{name}: {status}")
            for content in resolved(response).get("content", {}).values():
                has_keys(content, "content", f"{name} {status}")
    names = [operation["operationId"] for _, operation in operations()]
    trial.equal(len(set(names)), len(names), "names of operations")
    found = set(references(whole))
    for it in found:
        at(it)
    there = {f"#/components/{kind}/{name}" for kind, value in whole["components"].items() for name in value}
    # (queries are posted as lines alone, all but three; and answers to no operation stand beside them)
    beside = {"#/components/schemas/Query", "#/components/responses/NotFound", "#/components/responses/MethodNotAllowed"}
    trial.equal(sorted(there - found - beside), [], "what nothing names")
    if described.jsonschema is not None:
        for schema in whole["components"]["schemas"].values():
            described.jsonschema.Draft202012Validator.check_schema(schema)


def passage(begin, end):
    """What stands in docs/FORMATS.md between two heads."""
    return text_of("docs", "FORMATS.md").partition(f"\n{begin}\n")[2].partition(f"\n{end}\n")[0]


def words_of(begin, end):
    """The words that heads between two others name."""
    return [word for row in re.findall(r"^### (`.*)$", passage(begin, end), re.MULTILINE) for word in re.findall(r"`(\w+)`", row)]


def routes_shown():
    """The routes that queries name, and those of the table of routes, whose rows name a method and then paths."""
    output = re.findall(r"\b(GET|POST) `(/[^`]*)`", passage("## Queries", "## Trees"))
    for row in re.findall(r"^\|((?:GET|POST) `[^|]*)\|", passage("## HTTP", "### Errors of a request"), re.MULTILINE):
        output += [(row.split()[0], path) for path in re.findall(r"`(/[^`]*)`", row)]
    return sorted({f"{method.lower()} {path}" for method, path in output})


@case(
    "what the description has",
    "docs/openapi.json has each route, status, message, query, reply and refusal that docs/FORMATS.md names, and no other.",
)
def is_whole(trial):
    trial.equal(sorted(name for name, _ in operations()), routes_shown(), "routes")
    statuses = re.findall(r"^\|`([0-9]{3}) [A-Z]", passage("### Answers", "### Connections"), re.MULTILINE)
    output = {status for _, operation in operations() for status in operation["responses"]} | {"405"}
    trial.equal(sorted(output), sorted(statuses), "statuses")
    schemas = document()["components"]["schemas"]
    for kind, words in (("Message", words_of("## Messages", "## Queries")), ("Query", words_of("## Queries", "## Trees"))):
        trial.equal(sorted(schemas[kind]["discriminator"]["mapping"]), sorted(words), kind)
        for word in words:
            there = [it for it in (described.schema_of(word, "Reply"), described.schema_of(word, "Answer")) if it in schemas]
            trial.equal(there, [described.schema_of(word, "Reply" if kind == "Message" else "Answer")], word)
    listed = re.findall(r"\|([0-9]{2})\|`(\w+)`", passage("### Refusals", "### Limits"))
    refusals = {tuple(it.values()) for name, schema in schemas.items() if name.startswith("Refused") for it in schema["enum"]}
    trial.equal(sorted((str(number), name) for name, number in refusals), sorted(listed), "refusals")


# ---- what is exchanged


def lines():
    """All lines of the data cases with their replies, each once."""
    found = {}
    for it in EXCHANGES.values():
        for step in it.steps:
            if not step.is_request:
                found[step.sent, step.wanted] = step.at
    return found


def schema_for(value):
    """The name of the schema of a message or a query, if it is one of a word that there is."""
    word = described.word_of(value)
    for key, kind in (("do", "Message"), ("ask", "Query")):
        if isinstance(word, str) and key in value and described.schema_of(word, kind) in document()["components"]["schemas"]:
            return described.schema_of(word, kind)
    return None


# A question for plans with each of its keys.
EACH_KEY = {"ask": "plans", "buy": [{"h": 1, "w": 60000}], "calls": 100, "demands": [1, 2], "material": "STEEL", "parts": ["1/0"]}
EACH_KEY |= {"remnant": 90, "stages": 3, "step": 1}


def plans_shown():
    """The answers to questions for plans that docs/FORMATS.md shows, and one with each of its parts."""
    shown = [json.loads(it) for it in re.findall(r'^{"bound":.*}$', text_of("docs", "FORMATS.md"), re.MULTILINE)]
    several = {**shown[0], "missing": [{"demand": 1, "pieces": 2}]}
    return [(it, "docs/FORMATS.md") for it in (*shown, several)]


def samples():
    """Of each schema of messages, queries, replies and answers values that are of its form, and of the first two those that aren't; with
    where they stand."""
    good, bad = {"PlansAnswer": plans_shown(), "PlansQuery": [(EACH_KEY, "docs/FORMATS.md")]}, {}
    for (sent, wanted), where in lines().items():
        value, reply = described.value_of(sent), json.loads(wanted)
        name = schema_for(value)
        if "ok" in reply:
            kind = "Reply" if "do" in value else "Answer"
            good.setdefault(described.schema_of(reply["ok"], kind), []).append((reply, where))
        if name and reply.get("refused") != 10:
            good.setdefault(name, []).append((value, where))
        elif name and described.is_plain(sent):
            bad.setdefault(name, []).append((value, where))
    return good, bad


@case(
    "lines as the description says",
    "Of all lines of the cases that are data each that isn't refused 10 is of the form that docs/openapi.json says of its word, each of a word that is refused "
    "10 isn't, and replies are of theirs; so are the requests and answers over HTTP, those of lines among them.",
)
def exchanged(trial):
    needs_checker()
    good, bad = samples()
    schemas = document()["components"]["schemas"]
    words = [it for kind in ("Message", "Query") for it in schemas[kind]["discriminator"]["mapping"]]
    wanted = {it for it in schemas if re.fullmatch(f"({'|'.join(it.capitalize() for it in words)})(Message|Query|Reply|Answer)", it)}
    trial.equal(sorted(wanted - set(good)), [], "schemas without a value")
    trial.holds(sum(map(len, good.values())) > 1000 and sum(map(len, bad.values())) > 100, "there are few lines")
    for name, values in good.items():
        for value, where in values:
            trial.equal(described.wrong_with(described.named(name), value), None, f"{name}, {where}")
    for name, values in bad.items():
        for value, where in values:
            trial.holds(not described.named(name).is_valid(value), f"{name}, {where}: {value} is refused 10, and of its form")
    for it in EXCHANGES.values():
        for step in it.steps:
            request = step.sent if step.is_request else request_of(step.sent, step.wanted)
            trial.equal(described.fault_in(request, step.answer()), None, request, step.at)


def changed(name):
    """Descriptions in which an object of a schema is said otherwise, each with what was done: a key left out, one of another type, and one more."""
    for place in objects(document()["components"]["schemas"][name], ()):
        for key in at_path(document()["components"]["schemas"][name], place)["properties"]:
            for how in ("left out", "of another type", "one more"):
                whole = copy.deepcopy(document())
                schema = at_path(whole["components"]["schemas"][name], place)
                if how == "left out":
                    del schema["properties"][key]
                    schema["required"] = [it for it in schema["required"] if it != key]
                elif how == "of another type":
                    schema["properties"][key] = {"type": "null"}
                else:
                    schema["required"] = [*schema["required"], f"{key}_too"]
                yield f"{name} {'/'.join(map(str, place))} {key} {how}", whole


def objects(value, place):
    """The places of the objects of exactly these keys within a schema."""
    if isinstance(value, dict) and value.get("additionalProperties") is False:
        yield place
    for key, it in value.items() if isinstance(value, dict) else enumerate(value) if isinstance(value, list) else ():
        yield from objects(it, (*place, key))


def at_path(value, place):
    for it in place:
        value = value[it]
    return value


@case(
    "a description that is wrong",
    "Where a key of a message, a query, a reply or an answer is left out of docs/openapi.json, has another type, or one more is wanted, the lines of the cases "
    "aren't as it says; and where it takes further keys, lines that are refused 10 are.",
)
def found_wrong(trial):
    needs_checker()
    good, bad = samples()
    for name, values in sorted(good.items()):
        chosen = distinct([it for it, _ in values])
        for what, whole in changed(name):
            judge = described.checker({"$ref": f"#/components/schemas/{name}"}, whole)
            trial.holds(any(not judge.is_valid(it) for it in chosen), f"{what} isn't found")
    loose = [name for name in bad if not is_loose_found(name, bad[name])]
    trial.equal(loose, [], "schemas that may take further keys")


def distinct(values):
    """Values of which each has keys with types of their values, at any depth, that stand together in none before it."""
    chosen, seen = [], set()
    for value in values:
        had = len(seen)
        seen |= set(shapes(value, ()))
        if len(seen) > had:
            chosen.append(value)
    return chosen


def shapes(value, place):
    yield place, frozenset((key, type(it)) for key, it in value.items()) if isinstance(value, dict) else type(value)
    for key, it in value.items() if isinstance(value, dict) else (("", it) for it in value) if isinstance(value, list) else ():
        yield from shapes(it, (*place, key))


def loosened(value):
    """A schema that wants no key and takes further ones, of any of its forms."""
    if isinstance(value, list):
        return [loosened(it) for it in value]
    if not isinstance(value, dict):
        return value
    renamed = {"anyOf" if key == "oneOf" else key: loosened(it) for key, it in value.items() if key != "required"}
    return renamed | ({"additionalProperties": True} if value.get("additionalProperties") is False else {})


def is_loose_found(name, values):
    """Whether a line that is refused 10 is of the form of a word's schema once that wants no key and takes further ones."""
    judge = described.checker(loosened(document()["components"]["schemas"][name]))
    return any(judge.is_valid(value) for value, _ in values)
