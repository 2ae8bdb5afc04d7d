"""Order files, and why one isn't taken."""

HEADER = "line,material,length,width,turn,count,worth\n"
ROW = "1,STEEL,3.0,0.1,no,3,30\n"
MESSAGE = ("--order", "A-1", "--terminal", "4", "--number", "7")
OF_FIELD = [
    "the line is a whole number of 1 to 10 digits, greater than that of the row above; write it as 12",
    "the material is a code of 1 to 16 of A-Z, 0-9 and -; write it as STEEL-40",
    "the length is in millimetres; write 1 to 6 digits, and after a point one digit, as 1250.5",
    "the width is in millimetres; write 1 to 6 digits, and after a point one digit, as 600.5, and 0.1 for a bar",
    "the turn says whether the piece may be turned; write yes or no",
    "the count is the number of pieces, a whole number of 1 to 10 digits; write it as 3",
    "the worth is that of one piece, a whole number of 1 to 10 digits; write it as 30",
]
NO_ROW = "there is no row below the first line; write one for each line"
JUDGED = [
    "the line isn't greater than that of the row above, or is 0; write rising numbers from 1 on",
    "the shop file has no such material; write the code of one that it has",
    "the length is out of its range; write 0.1 to 20000.0",
    "the width is out of its range; write 0.1 to 6000.0, and 0.1 for a bar",
    "a bar's piece isn't turned; write no",
    "the count is out of its range; write 1 to 1000000",
    "the worth is out of its range; write 1 to 1000000000",
]
SHOP = """
[[material]]
code = "STEEL"
kind = "bar"
kerf = "0.3"
min_long = "2.0"
min_short = "0.1"
[[material]]
code = "GLASS"
kind = "sheet"
kerf = "0.1"
min_long = "0.5"
min_short = "0.4"
"""
