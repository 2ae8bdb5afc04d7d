#!/usr/bin/env python3
"""Prints all standing and reserved parts, as CSV for a spreadsheet: material, part, batch, size in millimetres, state.

    examples/stock_report.py [http://127.0.0.1:8017] > stock.csv
"""

import csv
import sys

from shop_client import Shop, millimetres


def parts(shop, material):
    """The standing and the reserved parts of a material, a page at a time."""
    page, after = {"more": True}, ""
    while page["more"]:
        page = shop.ask(f"/parts/{material}{after}")
        yield from page["parts"]
        if page["parts"]:
            after = "/" + page["parts"][-1]["part"]


def main(base="http://127.0.0.1:8017"):
    shop = Shop(base)
    table = csv.writer(sys.stdout)
    table.writerow(["material", "part", "batch", "w", "h", "state"])
    for material in shop.ask("/materials")["materials"]:
        for part in parts(shop, material["material"]):
            sides = [millimetres(part["w"]), millimetres(part["h"])]
            table.writerow([material["material"], part["part"], part["batch"], *sides, part["state"]])


if __name__ == "__main__":
    main(*sys.argv[1:])
