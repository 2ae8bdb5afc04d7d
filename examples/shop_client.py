"""A client of `cutshop serve`: queries, and numbered messages of one terminal."""

import json
import urllib.error
import urllib.request


class Refused(Exception):
    """The shop refused: its reply has the number and the name of the refusal."""


class Shop:
    def __init__(self, base="http://127.0.0.1:8017", terminal=9):
        self.base, self.terminal = base, terminal

    def ask(self, path, body=None):
        """The reply to a GET, or to a POST of an object, as an object; raises `Refused` if the shop refuses."""
        data = None if body is None else json.dumps(body).encode()
        try:
            with urllib.request.urlopen(urllib.request.Request(self.base + path, data)) as answer:
                return json.load(answer)
        except urllib.error.HTTPError as error:
            raise Refused(error.read().decode()) from None

    def text(self, path):
        """A ticket or a report."""
        with urllib.request.urlopen(self.base + path) as answer:
            return answer.read().decode()

    def send(self, do, **keys):
        """Sends a message under this terminal's next number. The shop executes a number once, so a repeat is safe."""
        number = self.ask(f"/terminal/{self.terminal}")["last"] + 1
        return self.ask("/message", {"do": do, "terminal": self.terminal, "number": number, **keys})


def millimetres(tenths):
    """A length in millimetres, with one decimal."""
    return f"{tenths // 10}.{tenths % 10}"


def size(row):
    """The size of a piece or a part, as tickets write it: a bar has a height of one tenth."""
    return millimetres(row["w"]) + ("" if row["h"] == 1 else f" x {millimetres(row['h'])}")
