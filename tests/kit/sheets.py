"""Order files as offices have them, made by hand: each as its bytes, with what has to be said of it and what is ordered then."""

from dataclasses import dataclass, field

HEADER = "line,material,length,width,turn,count,worth\n"


@dataclass
class Sheet:
    """A file. `asked` is what the page asks first, and `said` what a person answers; `orders` are the orders' codes with their
    rows as the shop reads them, `left` the rows that are left out with why, `sums` those that are reported as wrong."""

    name: str
    content: bytes
    orders: list
    asked: str = ""
    said: dict = field(default_factory=dict)
    left: list = field(default_factory=list)
    sums: list = field(default_factory=list)

    def messages(self):
        """The messages that order it."""
        return [{"do": "import", "form": "csv", "order": code, "text": text} for code, text in self.texts()]

    def texts(self):
        return [(code, rows if HEADER in rows else HEADER + rows) for code, rows in self.orders]


def lines(*rows):
    """A text whose lines end as a spreadsheet ends them."""
    return "".join(f"{row}\r\n" for row in rows)


MATERIAL = "No column's head says which is the material: choose it."
MATERIALS = "Say which materials these are."
UNIT = "Say in which unit the lengths are."
ROUNDED = "Say that lengths are rounded to tenths of a millimetre."

# What Excel saves in German: semicolons, decimal commas, Windows-1252.
EXCEL_GERMAN = lines(
    "Pos;Bezeichnung;Material;Länge;Breite;Stück;Preis",
    "1;Tür links;GLASS;797,5;597;3;12,50 €",
    "2;Tür rechts;GLASS;1.797,5;597;3;12,50 €",
    "3;Träger;STEEL;4185;;2;8,00 €",
)
# What Excel saves in English: commas, points, quoted fields, thousands.
EXCEL_ENGLISH = lines(
    "Item,Material,Length,Width,Qty,Unit price",
    '1,GLASS,"1,200.5",600,4,12.50',
    "2,STEEL,3000.0,,12,7.00",
)
ENGLISH_ROWS = "1,GLASS,1200.5,600,no,4,720300\n2,STEEL,3000.0,0.1,no,12,3000\n"
# LibreOffice quotes each text, and writes UTF-8 without a mark.
LIBRE = '"Position","Werkstoff","Länge in mm","Breite in mm","Drehbar","Anzahl"\n1,"GLASS","400,5",300,"ja",3\n2,"GLASS",250,200,"",1\n'
TITLED = lines(
    "Zuschnittliste Küche Huber;;;;",
    "Auftrag 4711, Liefertermin 12.11.2026;;;;",
    ";;;;",
    "Pos.;Werkstoff;Länge;Breite;Stück",
    "1;GLASS;600;400;2",
    "2;GLASS;500;300;4",
    ";;;;",
    "Summe;;;;6",
)
TITLES_ROWS = "1,GLASS,600,400,no,2,240000\n2,GLASS,500,300,no,4,150000\n"
MERGED = lines(
    "Pos;Material;Maße in cm;;Stück",
    ";;Länge;Breite;",
    "1;GLASS;79,7;59,7;3",
    "2;STEEL;418,5;;2",
    "Pos;Material;Maße in cm;;Stück",
    ";;Länge;Breite;",
    "3;GLASS;60;40;1",
)
SUMS = lines(
    "Pos;Material;Maße (mm);Stück",
    "1.1;GLASS;797 x 597;3,0",
    "1.2;GLASS;600×400 mm;8 Stk",
    "Zwischensumme;;;11",
    "2.1;GLASS;50 * 40 cm;2 Stück",
    ";;;2",
    "Gesamt;;;14",
)
SUMS_ROWS = "1,GLASS,797,597,no,3,475809\n2,GLASS,600,400,no,8,240000\n3,GLASS,500.0,400.0,no,2,200000\n"
SAME_POSITIONS = lines("Pos;Länge;Menge;Material", "1;600;1;STEEL", "1;700;2;STEEL", "2;800;3;STEEL")
BARS_300 = lines("Pos;Länge;Stück;Material", *(f"{it};{600 + it},5;{it % 9 + 1};STEEL" for it in range(1, 301)))
BARS_ROWS = [f"{it},STEEL,{600 + it}.5,0.1,no,{it % 9 + 1},{601 + it}\n" for it in range(1, 301)]
PARTS_201 = lines("Länge;Stück;Material", *("700;1;STEEL" for _ in range(201)))
PARTS_ROWS = [f"{it},STEEL,700,0.1,no,1,700\n" for it in range(1, 202)]
LONG_CELL = "Kante rundum geschliffen, " * 400
DIGITS = "1234567890" * 4
MARKUP = "<img src=x onerror=alert(1)>"

SHEETS = [
    Sheet(
        "Küche 12.csv",
        EXCEL_GERMAN.encode("cp1252"),
        [("KUECHE-12", "1,GLASS,797.5,597,no,3,476108\n2,GLASS,1797.5,597,no,3,1073108\n3,STEEL,4185,0.1,no,2,4185\n")],
    ),
    Sheet("hall-7.csv", EXCEL_ENGLISH.encode("utf-8-sig"), [("HALL-7", ENGLISH_ROWS)]),
    Sheet("Unicode Text.txt", EXCEL_ENGLISH.replace('"1,200.5"', "1200.5").replace(",", "\t").encode("utf-16"), [("UNICODE-TEXT", ENGLISH_ROWS)]),
    Sheet("big.csv", b"\xfe\xff" + EXCEL_ENGLISH.encode("utf-16-be"), [("BIG", ENGLISH_ROWS)]),
    Sheet("bare.csv", EXCEL_ENGLISH.encode("utf-16-le"), [("BARE", ENGLISH_ROWS)]),
    Sheet("Müller & Söhne.csv", LIBRE.encode(), [("MUELLER-SOEHNE", "1,GLASS,400.5,300,yes,3,120150\n2,GLASS,250,200,no,1,50000\n")]),
    Sheet("sep.csv", b"sep=;\r\n" + EXCEL_GERMAN.encode("cp1252"), [("SEP", "1,GLASS,797.5,597,no,3,476108\n2,GLASS,1797.5,597,no,3,1073108\n3,STEEL,4185,0.1,no,2,4185\n")]),
    Sheet(
        "Titel.csv",
        TITLED.encode("cp1252"),
        [("TITEL", TITLES_ROWS)],
        left=[[1, "title"], [2, "title"], [8, "sum"]],
    ),
    Sheet("titles-with-commas.csv", TITLED.replace("Küche Huber", "Küche, Bad, Diele, Flur, Keller").encode(), [("TITLES-WITH-COMM", TITLES_ROWS)], left=[[1, "title"], [2, "title"], [8, "sum"]]),
    Sheet(
        "merged.csv",
        MERGED.encode("cp1252"),
        [("MERGED", "1,GLASS,797.0,597.0,no,3,475809\n2,STEEL,4185.0,0.1,no,2,4185\n3,GLASS,600.0,400.0,no,1,240000\n")],
        left=[[5, "heads"], [6, "heads"]],
    ),
    Sheet(
        "units-below.csv",
        lines("Material;Länge;Breite;Stück", ";[cm];[cm];", "GLASS;79,7;59,7;3").encode("cp1252"),
        [("UNITS-BELOW", "1,GLASS,797.0,597.0,no,3,475809\n")],
    ),
    Sheet(
        "Summen.csv",
        SUMS.encode("utf-8"),
        [("SUMMEN", SUMS_ROWS)],
        left=[[4, "sum"], [6, "sum"], [7, "sum"]],
        sums=[{"at": 7, "said": 14, "has": 13}],
    ),
    Sheet("twice.csv", SAME_POSITIONS.encode("cp1252"), [("TWICE", "1,STEEL,600,0.1,no,1,600\n2,STEEL,700,0.1,no,2,700\n3,STEEL,800,0.1,no,3,800\n")]),
    Sheet("rising.csv", SAME_POSITIONS.replace("2;800", "7;800").replace("1;700", "4;700").encode("cp1252"), [("RISING", "1,STEEL,600,0.1,no,1,600\n4,STEEL,700,0.1,no,2,700\n7,STEEL,800,0.1,no,3,800\n")]),
    Sheet("cm.csv", lines("Länge (cm);Breite [cm];Menge;Sorte", "79,7;59,7;2;GLASS", "120 mm;0,8 m;1;GLASS").encode("cp1252"), [("CM", "1,GLASS,797.0,597.0,no,2,475809\n2,GLASS,120,800.0,no,1,96000\n")]),
    Sheet("metres.csv", b"length m,width [m],qty,material\n1.2,0.8,3,GLASS\n1.20055,0.8,3,GLASS\n", [("METRES", "1,GLASS,1200.0,800.0,no,3,960000\n2,GLASS,1200.6,800.0,no,3,960480\n")], asked=ROUNDED, said={"isRounded": True}),
    Sheet("bare-cm.csv", "Länge;Breite;Stück;Material\n79,7;59,75;2;GLASS\n".encode(), [("BARE-CM", "1,GLASS,797.0,597.5,no,2,476208\n")], asked=UNIT, said={"unit": "cm"}),
    Sheet(
        "Float.csv",
        lines("Material;Länge;Breite;Stück", "Float 4mm;600;400;1", "float 4MM ;500;400;1", "Flachstahl;700;;2", "steel;800;;1").encode("cp1252"),
        [("FLOAT", "1,GLASS,600,400,no,1,240000\n2,GLASS,500,400,no,1,200000\n3,STEEL,700,0.1,no,2,700\n4,STEEL,800,0.1,no,1,800\n")],
        asked=MATERIALS,
        said={"materials": {"FLOAT 4MM": "GLASS", "FLACHSTAHL": "STEEL", "": "STEEL"}},
    ),
    Sheet("no-material.csv", "Länge;Breite;Stück\n600;400;2\n".encode(), [("NO-MATERIAL", "1,GLASS,600,400,no,2,240000\n")], asked=MATERIAL, said={"columns": {"material": "GLASS"}}),
    Sheet("300 Stäbe.csv", BARS_300.encode("cp1252"), [("300-STAEBE-1", "".join(BARS_ROWS[:200])), ("300-STAEBE-2", "".join(BARS_ROWS[200:]))]),
    Sheet("a-name-of-21-letters.csv", PARTS_201.encode("cp1252"), [("A-NAME-OF-21-L-1", "".join(PARTS_ROWS[:200])), ("A-NAME-OF-21-L-2", PARTS_ROWS[0])]),
    Sheet(
        "quotes.csv",
        'Bezeichnung;Länge;Breite;Stück;Material\nRohr 3/4" kurz;600;400;2;GLASS\n"Platte ""A"";\nweiß";500;300;1;GLASS\n'.encode(),
        [("QUOTES", "1,GLASS,600,400,no,2,240000\n2,GLASS,500,300,no,1,150000\n")],
    ),
    Sheet(
        "open-quote.csv",
        'Bezeichnung;Länge;Breite;Stück;Material\n"Tür;600;400;2;GLASS\nFach;500;300;1;GLASS\n'.encode(),
        [("OPEN-QUOTE", "1,GLASS,600,400,no,2,240000\n2,GLASS,500,300,no,1,150000\n")],
    ),
    Sheet("heads-twice.csv", lines("Länge;Länge;Breite;Stück je Kiste;Stück;Material", "600;9;400;5;2;GLASS").encode("cp1252"), [("HEADS-TWICE", "1,GLASS,600,400,no,2,240000\n")]),
    Sheet("heads-of-lines.csv", '"Länge\n(mm)","Breite\n(mm)","Stück","Material"\n600,400,2,GLASS\n'.encode(), [("HEADS-OF-LINES", "1,GLASS,600,400,no,2,240000\n")]),
    Sheet("price.csv", lines("Länge;Breite;Stück Preis;Menge;Material", "600;400;12;5;GLASS").encode("cp1252"), [("PRICE", "1,GLASS,600,400,no,5,240000\n")]),
    Sheet("long-cell.csv", lines("Länge;Breite;Stück;Material;Bemerkung", f"600;400;2;GLASS;{LONG_CELL}").encode("cp1252"), [("LONG-CELL", "1,GLASS,600,400,no,2,240000\n")]),
    Sheet("markup.csv", lines(f"{MARKUP};Länge;Breite;Stück;Material", f"{MARKUP};600;400;2;GLASS").encode("cp1252"), [("MARKUP", "1,GLASS,600,400,no,2,240000\n")]),
    Sheet("thin.csv", "Länge;Breite;Stück;Material\n1 200,5;1\u00a0200;2;GLASS\n2\u202f400;1'300;1;GLASS\n".encode(), [("THIN", "1,GLASS,1200.5,1200,no,2,1440600\n2,GLASS,2400,1300,no,1,3120000\n")]),
    Sheet("own form.csv", (HEADER + "3,GLASS,400.5,300.0,no,3,12015\n9,STEEL,1200.5,0.1,no,6,1200\n").encode(), [("OWN-FORM", HEADER + "3,GLASS,400.5,300.0,no,3,12015\n9,STEEL,1200.5,0.1,no,6,1200\n")]),
    Sheet("own mark.csv", b"\xef\xbb\xbf" + (HEADER + '\n3,GLASS,"400.5",300.0,no,003,12015').encode(), [("OWN-MARK", "\ufeff" + HEADER + '\n3,GLASS,"400.5",300.0,no,003,12015')]),
]
