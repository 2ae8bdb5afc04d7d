"""Values of another type or form, for each key of messages and queries in turn."""

from kit.lines import refused

BAD = refused(10, "BadMessage")

NUMBERS = ["-1", "1.0", "1e0", "-0", "4294967296", '"1"', "null", "[1]", "true", "{}"]
FLAGS = ["0", "1", '"true"', "null", "[]"]
TEXTS = ["1", "null", '["r"]', "true", "{}"]
CODES = ["1", "null", '""', '"a"', '"ABCDEFGHIJKLMNOPQ"', '"A B"', '"A_1"', '"\\u00c4"', '"A/1"', '["A"]']
NAMES = ["1", "null", '""', '"1"', '"/1"', '"1/"', '"0/1"', '"01/1"', '"1/01"', '"1/0 "', '"1/-1"', '"1/0/0"', '["1/0"]']
NAMES += ['"2147483648/0"', '"1/4294967296"', '"+1/0"']
LISTS = ["1", "null", "{}", '"1"']

# What a good value is, and what is none.
NUMBER, FLAG, TEXT, CODE, NAME = ("1", NUMBERS), ("false", FLAGS), ('"r"', TEXTS), ('"A"', CODES), ('"9/9"', NAMES)
KIND = '"bar"', ['"Bar"', '"rod"', '""', "0", "null", '["bar"]']
FORM = ['"CSV"', '"pdf"', '""', "0", "null", '["csv"]']
LIST = "[1]", LISTS + [f"[{it}]" for it in NUMBERS]
LINE = {"line": NUMBER, "material": CODE, "w": NUMBER, "h": NUMBER, "turn": FLAG, "count": NUMBER, "worth": NUMBER}


def written(members):
    return "{" + ",".join(f'"{key}":{it}' for key, it in members.items()) + "}"


def goods(form):
    return {key: good for key, (good, _) in form.items()}


def changed(form):
    """The members of an object of this form, in each way that it isn't one."""
    good = goods(form)
    for key, (_, bad) in form.items():
        yield {other: it for other, it in good.items() if other != key}
        yield from ({**good, key: it} for it in bad)
    yield {**good, "unit": "1"}
    yield {**good, "": "null"}


LINES = f"[{written(goods(LINE))}]", LISTS + ["[1]", "[null]", "[[]]"] + [f"[{written(it)}]" for it in changed(LINE)]
# (behind a good line)
LINES[1].append(f"[{written(goods(LINE))},{written({**goods(LINE), 'turn': '0'})}]")
PAIR = {"terminal": ("1", ["0", *NUMBERS]), "number": NUMBER}


def bad_lines(word, forms, more):
    for name, form in forms.items():
        for members in changed({**form, **more}):
            yield written({word: f'"{name}"', **members})
