"""docs/openapi.json, and whether what is exchanged over HTTP is as it says. Without Python's jsonschema nothing is looked at."""

import functools
import json
import os
import re
import threading

try:
    import jsonschema
except ImportError:
    jsonschema = None

PATH = os.path.join(os.path.dirname(os.path.abspath(__file__)), "..", "..", "docs", "openapi.json")

# Of exchanges that are alike so many are looked at in a run of the suite, each with at most so many bytes; then the next each time that
# their number doubled.
LOOKED_AT, MAX_BYTES = 20, 30000
SEEN, LOCK = {}, threading.Lock()

METHODS = ("get", "post")
# Refusals of the form of a request, which no body has to report.
BARE = (400, 403, 404, 405, 411, 412, 413, 431)


@functools.cache
def document():
    with open(PATH, encoding="utf-8") as file:
        return json.load(file)


def at(reference, of=None):
    """What a reference within the document leads to."""
    value = of or document()
    for name in reference.removeprefix("#/").split("/"):
        value = value[name.replace("~1", "/").replace("~0", "~")]
    return value


def resolved(value):
    return at(value["$ref"]) if isinstance(value, dict) and "$ref" in value else value


def bare(value, whole):
    """A schema without references, which take time, and whose patterns end where a text ends: for Python `$` stands before a last line feed, too."""
    if isinstance(value, list):
        return [bare(it, whole) for it in value]
    if not isinstance(value, dict):
        return value
    if "$ref" in value:
        return bare(at(value["$ref"], whole), whole)
    return {key: re.sub(r"\$$", r"\\Z", it) if key == "pattern" else bare(it, whole) for key, it in value.items()}


def checker(schema, of=None):
    """What judges values by a schema of a document."""
    return jsonschema.Draft202012Validator(bare(schema, of or document()))


@functools.cache
def named(name):
    return checker({"$ref": f"#/components/schemas/{name}"})


def wrong_with(judge, value):
    """What is wrong with a value by a schema, in a line, or None."""
    fault = next(judge.iter_errors(value), None)
    if fault is None:
        return None
    while fault.context:
        # (of several forms the one that is nearest is reported)
        fault = max(fault.context, key=lambda it: len(it.absolute_path))
    return f"{'/'.join(map(str, fault.absolute_path)) or 'the value'}: {fault.message[:300]}"


# ---- which operation a request is for


@functools.cache
def routes():
    """Of each path its template, what its parts look like, and its parameters in order."""
    found = []
    for template, item in document()["paths"].items():
        names = re.findall(r"{(\w+)}", template)
        pattern = re.compile(re.sub(r"{\w+}", "([^/]+)", template) + r"\Z")
        schemas = {it["name"]: it["schema"] for op in item.values() for it in map(resolved, op["parameters"]) if it["in"] == "path"}
        found.append((template, pattern, [checker(schemas[it]) for it in names], schemas, names))
    # (a template without a parameter comes before those that fit, too)
    return sorted(found, key=lambda it: len(it[4]))


def route_of(path):
    """The template that a path fits, and whether each of its parts is what its parameter says."""
    for template, pattern, judges, schemas, names in routes():
        fits = pattern.match(path)
        if fits:
            values = [part if resolved(schemas[name]).get("type") == "string" else number_of(part) for name, part in zip(names, fits.groups())]
            return template, all(judge.is_valid(value) for judge, value in zip(judges, values))
    return None, False


def number_of(text):
    return int(text) if re.fullmatch("0|[1-9][0-9]{0,18}", text) else text


# ---- what a body says

# Names of parts may have numbers that are out of their ranges, which a pattern doesn't say; and JSON's numbers may be written in forms that
# the shop doesn't take, texts in ones that no text is.
MAX_ACT, MAX_NODE = 2147483647, 4294967295
OTHER_NUMBER = re.compile(rb"[0-9][.eE]|-0|\b0[0-9]")


def has_far_name(value):
    """Whether a part's name in a value has an act or a node that is out of its range."""
    if isinstance(value, (dict, list)):
        return any(has_far_name(it) for it in (value.values() if isinstance(value, dict) else value))
    found = re.fullmatch("([0-9]+)/([0-9]+)", value) if isinstance(value, str) else None
    return bool(found) and (int(found[1]) > MAX_ACT or int(found[2]) > MAX_NODE)


def value_of(body):
    """The value of a body, if it is JSON of the plain kind, else None."""
    try:
        return json.loads(body.decode(), parse_constant=lambda _: 1 / 0)
    except (ValueError, RecursionError, ZeroDivisionError):
        return None


def is_plain(body):
    """Whether a schema says all of a body's form that the shop judges: it is an object in UTF-8 with plain numbers, of names in their ranges."""
    value = value_of(body)
    return isinstance(value, dict) and len(body) <= 131072 and not OTHER_NUMBER.search(body) and not has_far_name(value) and b"\\u" not in body


def word_of(value):
    return (value.get("do") or value.get("ask")) if isinstance(value, dict) else None


def schema_of(word, kind):
    """The schema of a word's message, query, reply or answer."""
    return f"{word.capitalize()}{kind}"


# ---- exchanges


def parsed(request):
    """The method, the path and the body of a request whose head is plain, else None."""
    head, end, body = request.partition(b"\r\n\r\n")
    found = re.match(rb"([A-Z]+) (/[!-~]*) HTTP/1\.[01]\r\n", head + b"\r\n")
    return (found[1].decode().lower(), found[2].decode().partition("?")[0], body) if end and found else None


def read(answer):
    """The status, the kind and the body of a whole answer, else None."""
    head, end, body = answer.partition(b"\r\n\r\n")
    fields = dict(re.findall(r"^([\w-]+): (.*)$", head.decode("latin-1").replace("\r", ""), re.MULTILINE))
    if not end or fields.get("Content-Length") != str(len(body)):
        return None
    return int(head[9:12]), fields.get("Content-Type"), fields.get("Allow"), body


def is_due(key):
    """Whether an exchange is looked at, of those that are alike."""
    with LOCK:
        seen = SEEN[key] = SEEN.get(key, 0) + 1
    return seen <= LOOKED_AT or seen & (seen - 1) == 0


def fault_in(request, answer):
    """What of an exchange isn't as the document says, or None. Of what is no whole answer, and of a head that isn't plain, it says nothing."""
    if jsonschema is None or not answer:
        return None
    asked, output = parsed(request), read(answer)
    if not asked or not output or len(output[3]) > MAX_BYTES:
        return None
    method, path, body = asked
    status, kind, allowed, text = output
    template, is_good = route_of(path)
    reply = value_of(text) if kind == "application/json" else None
    of_body = word_of(value_of(body)) if method == "post" and len(body) <= MAX_BYTES else None
    told_as = (reply.get("ok"), reply.get("refused")) if isinstance(reply, dict) else ()
    if not is_due((method, template, is_good, status, str(of_body), *told_as)):
        return None
    fault = fault_of_answer(method, template, status, kind, allowed, text)
    if fault or template is None or method not in document()["paths"][template]:
        return fault
    return fault_of_request(method, template, is_good, body, status, text)


def fault_of_answer(method, template, status, kind, allowed, text):
    """What of an answer isn't as the document says of its operation, or of a route that it hasn't."""
    responses = document()["components"]["responses"]
    item = document()["paths"].get(template, {})
    operation = item.get(method)
    if operation:
        known = {int(it): resolved(value) for it, value in operation["responses"].items()}
    else:
        known = {it: {} for it in (400, 403, 411, 412, 413, 431, 404 if template is None or template in ("/", "/backup") else 405)}
        known |= {405: responses["MethodNotAllowed"]} if item else {}
    if status not in known:
        return f"{method} {template}: no status {status}"
    if (status == 405) != (allowed is not None) or allowed and allowed.lower() not in item:
        return f"{method} {template}: {status} allows {allowed}"
    content = known[status].get("content", {})
    if not text and kind is None:
        return None if status in BARE else f"{method} {template}: {status} without a body"
    if kind not in content:
        return f"{method} {template}: {status} has {kind}, and not one of {sorted(content)}"
    judge = of_operation(method, template, status, kind)
    fault = wrong_with(judge, value_of(text) if kind == "application/json" else text.decode(errors="replace"))
    return fault and f"{method} {template}: {status}: {fault}"


@functools.cache
def of_operation(method, template, status, kind):
    """What judges the bodies of an operation's answers of a status."""
    return checker(resolved(document()["paths"][template][method]["responses"][str(status)])["content"][kind]["schema"])


@functools.cache
def of_request(method, template):
    """What judges the bodies of an operation's requests, if it says something of them."""
    body = document()["paths"][template][method].get("requestBody")
    return checker(body["content"]["application/json"]["schema"]) if body else None


def fault_of_request(method, template, is_good, body, status, text):
    """What of a request isn't as its answer says: one that is refused 10 isn't of the document's form, each other one is."""
    is_refused = status == 400 and bool(text)
    if status not in (200, 409, 503, 404) and not is_refused or status == 404 and not text:
        return None
    judge = of_request(method, template)
    if not is_good and not is_refused:
        return f"{method} {template}: {status} for a path of another form"
    if judge is None:
        return f"{method} {template}: refused 10 for a path of its form" if is_good and is_refused else None
    body = body[: 131072 + 1]
    if not is_refused:
        fault = wrong_with(judge, value_of(body)) if value_of(body) is not None else "no JSON"
        return fault and f"{method} {template}: {status} for {fault}"
    return f"{method} {template}: refused 10, and of its form: {body[:300]}" if is_plain(body) and judge.is_valid(value_of(body)) else None
