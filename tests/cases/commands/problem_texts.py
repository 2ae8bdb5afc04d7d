"""Problem files at both sides of each range, what stands behind the last number, and cells that went back."""

from kit.case import case
from kit.commands import planned, plan_output
from kit.lines import added, material, refused

# The numbers of a problem of one piece, each with the greatest that it may be.
GREATEST = [200, 200000, 60000, 200000, 60000, 1000000, 1000000000]


@case(
    "each number of a problem text at its ends",
    "Each number of a problem is good from 1 to its greatest value, with zeros before it too; 0 and one more are `Number` at "
    "its first digit, before the text is found short.",
)
def ends(trial):
    planned(trial, "1 200000 60000 200000 60000 1000000 1000000000", plan_output(10**9, 10**9, 0, "p1"), step="500")
    for place, greatest in enumerate(GREATEST):
        good = ["1"] * place
        offset = 2 * place
        for bad in ("0", "000", str(greatest + 1), f"00{greatest + 1}", "9" * 25):
            planned(trial, " ".join([*good, bad]), f"fault text {offset} Number")
            planned(trial, " ".join([*good, bad, "1", "1", "1", "1", "1", "1", "1", "1"]), f"fault text {offset} Number")
        # (as far as it goes, it is good)
        if place < 6:
            text = " ".join([*good, str(greatest)])
            planned(trial, text, f"fault text {len(text)} Short")


@case(
    "what stands behind a problem text",
    "A number behind the last one that belongs to the problem is `Long` at its first digit, whatever it is; where the first "
    "number is bad or missing only three count, and the first bad one of them is reported; another byte comes before all numbers.",
)
def behind(trial):
    for more in ("0", "7", "000", "9" * 25, "0 0", "7\r\n8"):
        planned(trial, f"1 10 8 4 3 2 66 {more}", "fault text 16 Long")
        planned(trial, f"1 10 8 4 3 2 66\t\r\n {more}\n", "fault text 19 Long")
    planned(trial, "1 10 8 4 3 2 66 0 .", "fault text 18 Byte")
    for text, at in (("201 0 0", 0), ("0 0 0 0 0 0 0 0", 0), ("1 0 60001", 2), ("1 1 60001 0", 4), ("1 1 1 0 0", 6)):
        planned(trial, text, f"fault text {at} Number")
    for text in ("1\v1", "1\f1", "1,1", "1-1", "1+1", "1\x001", "1\xa01"):
        planned(trial, text, "fault text 1 Byte")


@case(
    "cells that went back count as received",
    "With 1000000000000000 cells received none more is, 32, also where a unit of them was returned; another material's are.",
)
def returned(trial):
    lines, wanted = [material("G", 1, kind="sheet"), material("H", 2, kind="sheet")], [added("G"), added("H")]

    def receive(code, w, h, count, number):
        return (
            f'{{"batch":"B","count":{count},"do":"receive","h":{h},"material":"{code}","number":{number},"terminal":1,"w":{w}}}'
        )

    # 833 times 100 units of 12000000000 cells, and 40 of 10000000000
    for it in range(833):
        lines.append(receive("G", 200000, 60000, 100, 3 + it))
        wanted.append(f'{{"act":{1 + it},"count":100,"ok":"receive"}}')
    lines += [receive("G", 200000, 50000, 40, 836), receive("G", 1, 1, 1, 837)]
    wanted += ['{"act":834,"count":40,"ok":"receive"}', refused(32, "TooMuch")]
    lines += ['{"do":"return","number":838,"part":"7/99","terminal":1}', receive("G", 1, 1, 1, 839)]
    wanted += ['{"ok":"return","part":"7/99"}', refused(32, "TooMuch")]
    lines += ['{"ask":"totals","material":"G"}', receive("H", 1, 1, 1, 840)]
    wanted += [
        '{"kerf":0,"material":"G","ok":"totals","pieces":0,"rack":0,"received":1000000000000000,"returned":12000000000,'
        '"scrap":0,"stock":999988000000000}',
        '{"act":835,"count":1,"ok":"receive"}',
    ]
    ran = trial.replay("".join(f"{it}\n" for it in lines).encode())
    texts = [it.decode() if isinstance(it, bytes) else it for it in wanted]
    for sent, got, reply in zip(lines, ran.out.decode().splitlines(), texts):
        trial.equal(got, reply, sent)
    trial.equal((len(ran.out.splitlines()), ran.status, ran.err), (len(lines), 0, b""))
