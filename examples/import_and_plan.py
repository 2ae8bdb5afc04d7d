#!/usr/bin/env python3
"""Imports an order file, plans what is open of its materials, and reserves every plan that uses parts in stock.

    examples/import_and_plan.py docs/order.csv HALL-12 [http://127.0.0.1:8017 [TERMINAL]]
"""

import sys

from shop_client import Shop


def main(file, code, base="http://127.0.0.1:8017", terminal="9"):
    shop = Shop(base, int(terminal))
    with open(file, encoding="utf-8") as text:
        ordered = shop.send("import", order=code, form="csv", text=text.read())
    print(f"ordered {code}: {ordered['count']} lines")
    for material in sorted({line["material"] for line in shop.ask(f"/order/{code}")["lines"]}):
        plans = shop.ask("/plans", {"ask": "plans", "material": material, "calls": 100})
        for plan in plans["plans"]:
            for part in plan["parts"]:
                job = shop.send("reserve", part=part, tree=plan["tree"])["job"]
                print(f"{material}: job {job} cuts {part}")
        missing = sum(row["pieces"] for row in plans["missing"])
        best = "proved best" if plans["proved"] else "maybe not best"
        print(f"{material}: {missing} pieces not planned, {best}")


if __name__ == "__main__":
    main(*sys.argv[1:])
