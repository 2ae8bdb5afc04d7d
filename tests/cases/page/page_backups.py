"""Backups by a button of the terminal's page, in a real browser where one is installed."""

import json
import os
import signal
import subprocess

from browser.terminal import PAGE, SHOP_FILE, Terminal, by_id, open_shop
from kit.backups import names, rows_of
from kit.case import case
from kit.page import is_german, is_quiet, open_tab

NONE = "None was made from this browser yet."
HOW = (
    "The program has no folder for backups. Whoever starts it adds --backup and the name of a folder, best on another disk "
    "than the store's: then a button here makes one, while the shop is open."
)
WORDS = "document.querySelector('#backup > p:last-child')?.textContent"


def backed_up(trial):
    """A shop with the page and with a folder of backups."""
    os.mkdir(trial.path("backups"))
    shop = trial.shop(shop_file=trial.write("shop.toml", SHOP_FILE), words=("--page", PAGE, "--backup", "backups"))
    trial.holds(shop.is_open, "the shop doesn't open")
    return shop


def last_is(it, number):
    """Waits until the page tells this number as that of the last backup."""
    it.until(f"{WORDS}?.startsWith('The last one from this browser has the number {number}: ')")


@case(
    "backups by a button of the page",
    "Under *Yield* a press makes one backup, also where it is pressed again before the answer, and tells its number, which "
    "stays over a reload and is told in other tabs; a copy has what was done before. Where none can be made that is told in "
    "words, and the shop goes on.",
)
def by_a_button(trial):
    with Terminal(trial, backed_up(trial)) as it:
        it.begin(7)
        it.receive("STEEL", "S-1", "6000", None, 1)
        it.says("1 unit received, 1/0")
        it.view("yield")
        it.until(f"{WORDS} === {json.dumps(NONE)}")
        it.value(f"{by_id('makeBackup')}.focus()")
        it.shop.process.send_signal(signal.SIGSTOP)
        for _ in range(3):
            it.key("Enter")
        it.until(f"{WORDS} === 'A backup is being made…' && {by_id('makeBackup')}.getAttribute('aria-disabled') === 'true'")
        trial.equal((it.text("said"), it.value("document.activeElement.id")), ("A backup is being made…", "makeBackup"))
        it.shop.process.send_signal(signal.SIGCONT)
        it.says("Backup 1 was made")
        last_is(it, 1)
        trial.equal((names(trial), it.value("document.activeElement.id")), (["1"], "makeBackup"))
        trial.equal([row[:2] for row in rows_of(trial.path("backups/1/shop.db"))["kept"] if row[0] == 7], [(7, 1)])
        it.at_widths("backup")
        it.call("Page.reload")
        it.until("document.readyState === 'complete'")
        last_is(it, 1)
        it.receive("STEEL", "S-2", "6000", None, 1)
        it.says("1 unit received, 2/0")
        it.view("yield")
        it.click(by_id("makeBackup"))
        it.says("Backup 2 was made")
        trial.equal([row[:2] for row in rows_of(trial.path("backups/2/shop.db"))["kept"] if row[0] == 7], [(7, 1), (7, 2)])
        os.rename(trial.path("backups"), trial.path("elsewhere"))
        it.click(by_id("makeBackup"))
        why = "look at its folder and that folder's disk, the program's log says what it was (99 StoreFault)"
        it.says(f"No backup was made: {why}. The shop goes on.")
        last_is(it, 2)
        it.receive("STEEL", "S-3", "6000", None, 1)
        it.says("1 unit received, 3/0")
        os.rename(trial.path("elsewhere"), trial.path("backups"))
        it.view("yield")
        it.click(by_id("makeBackup"))
        it.says("Backup 3 was made")
        trial.equal(names(trial), ["1", "2", "3"])
        open_tab(it, "yield")
        last_is(it, 3)
        is_quiet(it)


@case(
    "the page of a shop without a folder for backups",
    "It says how to have backups, and has no button; where the program is started again without a folder a press is told so.",
)
def without(trial):
    with Terminal(trial, backed_up(trial)) as it:
        it.begin(7)
        it.view("yield")
        it.until(by_id("makeBackup"))
        shop = it.shop
        shop.kill()
        *command, _, _ = shop.process.args
        shop.process = subprocess.Popen(command, stdin=subprocess.DEVNULL, stdout=subprocess.PIPE, stderr=subprocess.PIPE)
        trial.equal(shop.process.stdout.readline(), f"listening on 127.0.0.1:{shop.port}\n".encode())
        if it.value(f"Boolean({by_id('makeBackup')})"):
            it.value("makeBackup()")
            it.says("No backup was made: the program was started anew. The shop goes on.")
        it.until(f"{WORDS} === {json.dumps(HOW)} && !{by_id('makeBackup')}")
        trial.equal(names(trial), [])
        it.at_widths("no-backups")
        is_quiet(it)


@case(
    "backups at the page in German",
    "In a German browser the button, the number, a refusal and how to have backups are told in German.",
)
def german(trial):
    with Terminal(trial, backed_up(trial), "de-DE") as it:
        it.begin(7)
        it.view("yield")
        it.click(by_id("makeBackup"))
        it.says("Sicherung 1 ist gemacht")
        it.until(f"{WORDS}.startsWith('Die letzte aus diesem Browser hat die Nummer 1: ')")
        is_german(it, "backup")
        os.rename(trial.path("backups"), trial.path("elsewhere"))
        it.click(by_id("makeBackup"))
        it.says("Keine Sicherung wurde gemacht: nach ihrem Ordner und dessen Platte sehen, das Protokoll des Programms sagt")
        is_german(it, "no-backup")
    with Terminal(trial, open_shop(trial, store="other.db"), "de-DE") as it:
        it.begin(7)
        it.view("yield")
        it.until(f"{WORDS}?.startsWith('Das Programm hat keinen Ordner für Sicherungen.')")
        is_german(it, "no-backups")
