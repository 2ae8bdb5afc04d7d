"""A shop that goes away under an open page: stopped, started again, or put back as it was before."""

import shutil
import subprocess


def begun_again(shop):
    """Starts the program of a shop again that was stopped, at the same port and with the same words."""
    command = shop.process.args
    shop.process = subprocess.Popen(command, stdin=subprocess.DEVNULL, stdout=subprocess.PIPE, stderr=subprocess.PIPE)
    assert shop.process.stdout.readline() == f"listening on 127.0.0.1:{shop.port}\n".encode()


def files_of(shop):
    return [shop.store, f"{shop.store}-wal"]


def copied(shop):
    """Stops the shop, and gives a copy of its two files."""
    shop.kill()
    for path in files_of(shop):
        shutil.copy(path, f"{path}.copy")


def restored(shop):
    """Starts a stopped shop again over the copy of its files."""
    for path in files_of(shop):
        shutil.copy(f"{path}.copy", path)
    begun_again(shop)
