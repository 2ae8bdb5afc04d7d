"""The terminal's page in a browser: what it has, and what is done there."""

import csv
import os

from browser.terminal import by_id

# As a German spreadsheet writes it: semicolons, decimal commas, a quoted field, lines that end in CR LF.
GERMAN = (
    "line;material;length;width;turn;count;worth\r\n"
    "1;GLASS;400,5;300,0;nein;3;12015\r\n"
    "2;GLASS;250;{bad};ja;4;5000\r\n"
    "5;STEEL;1.200,5;0,1;nein;6;12005\r\n"
    '6;STEEL;"800";0,1;nein;3;8000\r\n'
)

# When an entry was accepted, as the page reports it of today.
TIME = r", \d+:\d\d(\s[AP]M)?"


def stock(terminal):
    """Three sheets and five bars."""
    terminal.receive("GLASS", "g-1", "1200", "800,0", 3)
    terminal.says("3 units received, 1/0 to 1/2")
    terminal.receive("STEEL", "s-1", "6000", None, 5)
    terminal.says("5 units received, 2/0 to 2/4")


def order(terminal):
    """The German file."""
    terminal.order_file("a-1", "good.csv", GERMAN.format(bad="200,00").encode("cp1252"))
    terminal.click(by_id("sendCsv"))
    terminal.says("4 lines ordered, pieces wanted from no. 1 on")


def is_quiet(terminal):
    """No error in the console, no breach of the page's policy, nothing asked of another machine."""
    terminal.trial.equal([it for it in terminal.faults if "ERR_CONNECTION" not in it], [])
    abroad = [it for it in terminal.requests if not it.startswith((terminal.address, "data:", "about:"))]
    terminal.trial.equal(abroad, [])


PLACE_OF = "(e => [e.getBoundingClientRect().top, e.getBoundingClientRect().left].map(Math.round))"

# The texts in sight that are English where German was wanted.
ENGLISH = """(() => {
  const pattern = key => new RegExp('^' + key.split(/[{][0-9][}]/).map(s => s.replace(/[.*+?^${}()|[\\]\\\\]/g, '\\\\$&')).join('.+') + '$');
  const english = [...GERMAN].filter(([key, german]) => key !== german && /[a-z]{3}/.test(key)).map(([key]) => pattern(key.trim()));
  const texts = [], walker = document.createTreeWalker(document.body, NodeFilter.SHOW_TEXT);
  for (let node; node = walker.nextNode();)
    if (node.parentNode.tagName !== 'SCRIPT' && node.parentNode.checkVisibility()) texts.push(node.data.trim());
  for (const e of document.querySelectorAll('[aria-label], [title]')) texts.push(e.getAttribute('aria-label'), e.getAttribute('title'));
  return texts.filter(text => text && english.some(it => it.test(text)));
})()"""


def is_german(it, name):
    it.trial.equal(it.value(ENGLISH), [], f"English in {name}")
    it.at_widths(f"german-{name}")


def open_tab(it, view):
    """Opens the page in another tab of the browser, and gives the tab's session."""
    it.session = None
    target = it.call("Target.createTarget", url="about:blank")["targetId"]
    it.session = it.call("Target.attachToTarget", targetId=target, flatten=True)["sessionId"]
    for domain in ("Page", "Runtime", "Log", "DOM", "Network"):
        it.call(f"{domain}.enable")
    it.size(1280, 800)
    it.go(f"{it.address}#{view}")
    it.until("shop.materials.length && terminal.number && !refresh.running")
    return it.session


def reach(it, is_reached):
    """Lets the page of this tab reach the shop, or not."""
    it.call("Network.emulateNetworkConditions", offline=not is_reached, latency=0, downloadThroughput=-1, uploadThroughput=-1)


def saved(it, view, form):
    """The rows of a view's CSV file in a form, as a spreadsheet of its language reads them, and the file's path."""
    it.view(view)
    it.choose(f"document.querySelector('#{view} [data-csv] select')", form)
    folder = it.trial.path(f"{view}-{form}")
    os.mkdir(folder)
    path = it.downloaded(f"document.querySelector('#{view} [data-csv] button')", folder)
    with open(path, encoding="utf-8-sig", newline="") as file:
        text = file.read()
    it.trial.holds(text.endswith("\r\n") and "\r\n" not in text[-4:-2], "lines end otherwise")
    mark, point = {"comma": (";", ","), "point": (",", ".")}[form]
    rows = list(csv.reader(text.splitlines(), delimiter=mark, strict=True))
    it.trial.holds(len({len(row) for row in rows}) == 1, f"rows of {view} have different lengths: {rows}")
    return [[read_cell(cell, point) for cell in row] for row in rows], path


def read_cell(cell, point):
    """A cell as a spreadsheet shows it: a formula that is a text, a number with its decimal mark, or a word."""
    if cell.startswith('="'):
        return cell[2:-1]
    whole, mark, rest = cell.partition(point)
    is_number = whole.isdigit() and (rest.isdigit() or not mark)
    return float(f"{whole}.{rest or 0}") if is_number else cell
