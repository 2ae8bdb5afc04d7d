"""A sheet of glass: it is received, ordered for, reserved and cut, by messages with their replies."""

GLASS = '{"do":"material","kerf":1,"kind":"sheet","material":"GLASS","min_long":5,"min_short":4,"number":1,"terminal":1}'
SHEET = '{"batch":"B-1","count":1,"do":"receive","h":8,"material":"GLASS","number":2,"terminal":1,"w":10}'
ORDER = (
    '{"do":"order","lines":[{"count":1,"h":3,"line":1,"material":"GLASS","turn":false,"w":4,"worth":12},'
    '{"count":1,"h":4,"line":2,"material":"GLASS","turn":false,"w":4,"worth":16},'
    '{"count":1,"h":3,"line":3,"material":"GLASS","turn":false,"w":5,"worth":15}],"number":3,"order":"A-1","terminal":1}'
)
RESERVE = '{"do":"reserve","number":4,"part":"1/0","terminal":1,"tree":"x4 y3 p1 p2 r"}'
DONE = '{"do":"done","job":2,"number":5,"terminal":1}'
DONE_REPLY = '{"job":2,"kerf":12,"ok":"done","pieces":28,"rack":40,"scrap":0}'
TOTALS = '{"ask":"totals","material":"GLASS"}'


def totals(stock, rack, pieces, kerf):
    return (
        f'{{"kerf":{kerf},"material":"GLASS","ok":"totals","pieces":{pieces},"rack":{rack},'
        f'"received":80,"returned":0,"scrap":0,"stock":{stock}}}'
    ).encode()


def reserved(trial, **named):
    """A shop with a waiting job of two pieces of a sheet."""
    shop = trial.shop(**named)
    for line in (GLASS, SHEET, ORDER, RESERVE):
        trial.holds(b'"ok"' in shop.reply(line), line)
    return shop
