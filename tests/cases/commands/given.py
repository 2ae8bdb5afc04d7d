"""What `serve` was given it uses, whatever it is: materials of a shop file, a page, a folder of backups and how many stay; files that
are too long for each command that reads one; and whether a store is reported as one that was made."""

import os

from kit import tables
from kit.backups import REQUEST, backup_answer
from kit.browsers import asked, page_answer
from kit.case import case
from kit.commands import STEEL
from kit.glass import GLASS
from kit.shop import begin_line

ENTRY = "{{code='M{}',kind='bar',kerf='{}',min_long='1',min_short='0.1'}}"

# How many materials a shop file has.
COUNTS = (1, 2, 3, 4, 17, 255, 256, 257, 999, 1000)


def materials(count):
    """The text of a shop file of so many materials, of kerfs of 0 to 20 mm, and what the tables have of them."""
    kerfs = [it % 21 for it in range(count)]
    text = "material=[" + ",".join(ENTRY.format(it, kerf) for it, kerf in enumerate(kerfs)) + "]"
    listed = {f"M{it}": 10 * kerf for it, kerf in enumerate(kerfs)}
    return text, dict(sorted(listed.items()))


@case(
    "shop files of 1 to 1000 materials",
    "Each material of a shop file of 1, 2, 3, 4, 17, 255, 256, 257, 999 and 1000 is added with its kerf, and no other, and as many "
    "messages are reported as kept; the file lies in any folder, under any name.",
)
def shop_files(trial):
    os.makedirs(trial.path("a folder/ünter"))
    for count in COUNTS if trial.whole or not trial.is_watched() else (1, 4, 17):
        text, listed = materials(count)
        names = ("shop.toml", "a folder/ünter/s h.op", os.path.join(trial.folder, f"{count}.txt"))
        shop_file = names[count % len(names)]
        trial.write(shop_file, text)
        shop = trial.shop(f"{count}.db", shop_file=shop_file, limit=1)
        trial.holds(shop.is_open, getattr(shop, "errors", b""))
        shop.get("/materials")
        trial.equal(shop.end()[2].startswith(begin_line(shop.store, kept=count)), True, f"{count} materials")
        found = {code: kerf for code, _, kerf, *_ in tables.rows(shop.store)["materials"]}
        trial.equal(dict(sorted(found.items())), listed, f"{count} materials")


def page_of(length):
    """A page of so many bytes, no two of whose lines are equal."""
    return b"".join(b"%07d\n" % it for it in range(length // 8 + 1))[:length]


@case(
    "pages of 1 byte to 1 MiB",
    "Pages of 1, 4095, 4097, 8192, 8193, 30000, 65535 to 65537, 131073 and 1048575 bytes, in any folder and under any name, are served to "
    "the last byte.",
)
def pages(trial):
    os.makedirs(trial.path("a folder/ünter"))
    lengths = (1, 4095, 4097, 8192, 8193, 30000, 65535, 65536, 65537, 131073, 1048575)
    for number, length in enumerate(lengths if not trial.is_watched() else (1, 30000, 65537)):
        names = ("page.html", "a folder/ünter/p a.ge", os.path.join(trial.folder, f"{length}.htm"))
        name = names[number % len(names)]
        trial.write(name, page_of(length))
        shop = trial.shop(f"{length}.db", words=("--page", name))
        trial.equal(shop.exchange(asked("/", host="127.0.0.1")), page_answer(page_of(length)), f"{length} bytes in {name}")
        shop.kill()


@case(
    "folders of backups under any name",
    "Backups are made in the folder that was given, be it in another folder, of a whole path, with spaces or other letters in its "
    "name, or a link, and in no other; of nine with `--keep` 1, 3, 5, 8 or 9 as many stay as it says, the newest.",
)
def backups(trial):
    os.makedirs(trial.path("a folder"))
    os.makedirs(trial.path("else"))
    os.symlink("else", trial.path("link"))
    folders = ("backups", "a folder/ünter s", os.path.join(trial.folder, "whole"), "./a folder/../dots", "link")
    keeps = (None, 1, 3, 5, 8, 9) if not trial.is_watched() else (5,)
    for number, keep in enumerate(keeps):
        folder, count = folders[number % len(folders)], 9 if keep else 2
        os.makedirs(trial.path(folder), exist_ok=True)
        before = {it: os.listdir(trial.path(it)) for it in folders if it != folder and os.path.isdir(trial.path(it))}
        shop = trial.shop(f"{number}.db", words=("--backup", folder, *(("--keep", str(keep)) if keep else ())))
        trial.holds(shop.is_open, getattr(shop, "errors", b""))
        first = 1 + max([int(it) for it in os.listdir(trial.path(folder)) if it.isdigit()], default=0)
        for it in range(count):
            trial.equal(shop.exchange(REQUEST), backup_answer(first + it), folder)
        shop.kill()
        made = {str(first + it) for it in range(count)}
        stayed = {it for it in os.listdir(trial.path(folder)) if it in made}
        wanted = {str(first + count - 1 - it) for it in range(min(keep or count, count))}
        trial.equal(stayed, wanted, f"{folder}, of {count} with {keep} kept")
        trial.equal({it: os.listdir(trial.path(it)) for it in before}, before, "the other folders")


# By how many bytes files are too long, 0 for one of 5 GiB.
OVER = (1, 2, 17, 4096, 65536, 0)


def lengthened(trial, name, text, most, over):
    """A file of this text with spaces behind it up to so many bytes more than are read."""
    with open(trial.path(name), "wb") as file:
        file.write(text.encode().ljust(most + (over or 70000)))
        if not over:
            file.truncate(5 << 30)
    return name


@case(
    "files that are too long, for each command",
    "A problem, an order file, a shop file and a page that is good but for one byte to 5 GiB too many is a fault, and never cut, for "
    "each command that reads it.",
)
def too_long(trial):
    record = "line,material,length,width,turn,count,worth\n1,STEEL,300.0,0.1,no,3,9000\n"
    shop = trial.write("shop.toml", STEEL)
    order = trial.write("order.csv", record)
    serve = ("serve", "--port", "1", "--store", ".")
    plan = ("plan", "{}", "--kerf", "0")
    files = [
        ("1 4 3 4 3 1 12", 65536, (*plan, "--step", "1"), "fault text 65536 Long\n"),
        ("1 4 3 4 3 1 12", 65536, (*plan, "--whole"), "fault text 65536 Long\n"),
        (STEEL, 65536, (*serve, "--shop", "{}"), "fault shop text\n"),
        (STEEL, 65536, ("orders", order, "--shop", "{}"), "fault shop text\n"),
        ("<p>a page</p>", 1048576, (*serve, "--shop", shop, "--page", "{}"), "fault file\n"),
    ]
    for text, most, words, fault in files:
        lengthened(trial, "given", text, most, 1)
        with open(trial.path("given"), "rb+") as file:
            file.truncate(most)
        ran = trial.run(*[it.format("given") for it in words])
        trial.equal(ran.err.startswith(fault.encode()), False, f"{words} of {most} bytes: {ran.err}")
        for over in OVER:
            ran = trial.run(*[it.format(lengthened(trial, "given", text, most, over)) for it in words])
            trial.ended(ran, 1, err=fault, sent=f"{words}, {over} bytes too many")
    for over in OVER:
        name = lengthened(trial, "given", record, 65536, over)
        for words in (("orders", name), ("orders", name, "--shop", shop)):
            ran = trial.run(*words)
            trial.equal((ran.status, ran.out, ran.err[:12]), (1, b"", b"fault order "), f"{words}, {over} bytes too many")


def begun_as(trial, store, is_new, kept, words):
    """A shop of a store reports that it was made, or was there, and how many messages it keeps."""
    shop = trial.shop(store, limit=1)
    trial.holds(shop.is_open, getattr(shop, "errors", b""))
    shop.get("/materials")
    trial.equal(shop.end()[2].startswith(begin_line(shop.store, is_new, kept)), True, words)


@case(
    "stores that were there and keep nothing",
    "A store that a shop, `ticket` or `yield` made, and that keeps no message yet, is reported as one that was there at each start behind "
    "that, as is one with a message; `ticket` and `yield` of it don't report that it was made, whatever they are asked for.",
)
def there_already(trial):
    begun_as(trial, "new.db", True, 0, "a new store")
    begun_as(trial, "new.db", False, 0, "a store that keeps nothing")
    trial.run("yield", "--store", "printed.db", "STEEL")
    begun_as(trial, "printed.db", False, 0, "a store that `yield` made")
    for words, line, why in (
        (("ticket", "--store", "new.db", "1"), "refused 70 NoJob", "it has no such job"),
        (("ticket", "--store", "new.db", "7"), "refused 70 NoJob", "it has no such job"),
        (("ticket", "--store", "printed.db", "2147483647"), "refused 70 NoJob", "it has no such job"),
        (("yield", "--store", "new.db", "GLASS"), "refused 20 NoMaterial", "it has no such material"),
        (("yield", "--store", "printed.db", "M"), "refused 20 NoMaterial", "it has no such material"),
    ):
        trial.ended(trial.run(*words), 1, err=f"{line}\n", why=f"{words[2]}: {why}")
    shop = trial.shop("new.db")
    shop.reply(GLASS)
    shop.kill()
    begun_as(trial, "new.db", False, 1, "a store with a message")
