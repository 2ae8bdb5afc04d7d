"""Texts that are no JSON or no whole numbers, and keys that come twice."""

from kit.case import case
from kit.lines import added, material, over_both, refused

UNKNOWN, BAD = refused(20, "NoMaterial"), refused(10, "BadMessage")


@case(
    "keys that come twice",
    "A key that comes twice counts once, with its last value, whatever the value before it was, as long as the text is JSON.",
)
def twice(trial):
    deep = "[" * 126 + "]" * 126
    good = ['{"ask":"totals","material":7,"material":"IRON"}', '{"ask":"totals","material":1e308,"material":"IRON"}']
    good += [f'{{"ask":"totals","material":{deep},"material":"IRON"}}', '{"\\u0061sk":"totals","material":"IR\\u004fN"}']
    bad = ['{"ask":"totals","material":"IRON","material":7}', '{"ask":"totals","material":1e400,"material":"IRON"}']
    bad += [
        f'{{"ask":"totals","material":[{deep}],"material":"IRON"}}',
        '{"ask":"totals","material":"\\ud800","material":"IRON"}',
    ]
    over_both(trial, [*[(it, UNKNOWN) for it in good], *[(it, BAD) for it in bad]])


@case(
    "texts that are no JSON",
    "A lone surrogate, a raw control byte in a text, something behind the value and a comma behind the last member are "
    "refused 10.",
)
def no_json(trial):
    texts = ['{"ask":"totals","material":"\\ud800"}', '{"ask":"totals","material":"A\tB"}', '{"ask":"totals","material":"A"}{}']
    texts += ['{"ask":"totals","material":"A",}', "'ask'", "nul", '{"ask":"totals" "material":"A"}']
    over_both(trial, [(it, BAD) for it in texts])


@case(
    "numbers of messages",
    "A message's number goes from 0 to 4294967295 and its terminal from 1, as whole numbers of JSON; others are refused 10.",
)
def numbers(trial):
    steps = []
    for key, good, other in (("number", ("0", "4294967295"), "terminal"), ("terminal", ("1", "4294967295"), "number")):
        line = '{{"batch":"B","count":1,"do":"receive","h":1,"material":"IRON","w":1,"{}":1,"{}":{}}}'
        steps += [(line.format(other, key, it), UNKNOWN) for it in good]
        bad = ["4294967296", "-1", "1e0", "1.0", "-0", "01", "18446744073709551616", '"1"', "null"] + (
            ["0"] if key == "terminal" else []
        )
        steps += [(line.format(other, key, it), BAD) for it in bad]
    over_both(trial, steps)


@case(
    "a material known under another pair",
    "A material that is added again with equal values is accepted under another number too, and its reply is kept there.",
)
def again(trial):
    over_both(
        trial,
        [(material("S", number), added("S")) for number in (1, 2, 1, 2)]
        + [(material("S", 2, kerf=2), refused(11, "NumberReused"))],
    )
