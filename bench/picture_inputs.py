"""What bench/pictures gives to bin/draw beside the examples: bad reports, odd ones, two processes."""
# The pictures that documents show, each of an example of this name.
PICTURES = (
    "silent-node", "join", "heal", "split-grant", "eight-nodes", "second-instance", "partition", "fast-clock",
)
WINDOWS = {
    "silent-node": [("0", "200"), ("3000", "7183")],
    "eight-nodes": [("40000", "77000")],
    "two-accusers": [("150", "5000")],
}

OWN = b"3 0 1.1 0 own 0000000000000000-ffffffffffffffff -\n"
LATER = b"9 500 1.1 500 own 0000000000000000-7fffffffffffffff 900\n"
END = b"end 9 4\n"
AGAIN = b"0 - 1.1 0 own - -\n7 - 1.1 70 own - 90\nend 7\n0 - 1.2 0 own - -\n"
# What is given, the words, the status, and what the answer says.
BAD = [
    ("an empty report", b"", [], 6, "the report is empty"),
    ("a line that is none", OWN + b"hello\n" + END, [], 6, "line 2 is no line of a report: 'hello'"),
    ("an empty line", OWN + b"\n" + END, [], 6, "line 2 is no line of a report"),
    ("a point of 15 digits", OWN.replace(b"0000-", b"000-"), [], 6, "line 1 is no line of a report"),
    ("ranges that fall", OWN.replace(b" -", b",0000000000000000-1000000000000000 -"), [], 6, "line 1 is no line"),
    ("ranges that touch", LATER.replace(b" 900", b",8000000000000000-8000000000000001 900"), [], 6, "line 1 is no"),
    ("a leading zero", OWN.replace(b"3 0", b"03 0"), [], 6, "line 1 is no line of a report"),
    ("a number past its type", OWN.replace(b"3 0", b"18446744073709551616 0"), [], 6, "line 1 is no line of a report"),
    ("an arbitrator with a reading", b"3 0 a1 0 stopped\n", [], 6, "line 1 is no line of a report"),
    ("a node without a reading", OWN.replace(b"1.1 0", b"1.1 -"), [], 6, "line 1 is no line of a report"),
    ("instance 0", OWN.replace(b"1.1", b"1.0"), [], 6, "line 1 is no line of a report"),
    ("a carriage return", OWN.replace(b"\n", b"\r\n"), [], 6, "line 1 is no line of a report"),
    ("bytes that are no text", bytes(range(256)), [], 6, "line 1 is no line of a report"),
    ("a schedule", b"start 1 0\n", [], 6, "line 1 is no line of a report: 'start 1 0'"),
    ("a time that falls", LATER + OWN, [], 6, "line 2 goes back in time, from 500 to 0"),
    ("a clock that falls", b"1 - 1.1 7 own - -\n2 - 1.1 6 own - 9\n", [], 6, "line 2 goes back in time, from 7 to 6"),
    ("a line behind the end", OWN + END + LATER, [], 6, "line 3 comes after the end"),
    ("a second end", OWN + END + END, [], 6, "line 3 comes after the end"),
    ("the end of a process's report", OWN + b"end 9\n", [], 6, "line 2 is the end of another kind of report"),
    ("times and none", OWN + b"9 - 1.1 500 own - -\n", [], 6, "line 2 has no true time"),
    ("no line feed in reach", b"1" * 600_000, [], 6, "line 1 is no line of a report: it is too long"),
    ("a window outside", OWN + END, ["5", "9"], 6, "the report has nothing from 5 to 9"),
    ("a window that falls", OWN + END, ["9", "5"], 2, "FROM is above TO"),
    ("a word that is none", OWN + END, ["--colour"], 2, "no such word: --colour"),
    ("a file that is not there", OWN, ["/no/such/report"], 3, "No such file"),
]
# What is drawn with a note, and what the picture says.
NOTED = [
    ("a report that breaks off in a line", OWN + LATER[:30], [], "the report breaks off in line 2, which is left out"),
    ("one that breaks off in a line that could be whole", OWN + LATER[:-1], [], "the report breaks off in line 2"),
    ("the begin of a line, and nothing else", OWN[:20], [], "the report breaks off in line 1"),
    ("a report without an end", OWN + LATER, [], "the report has no last line"),
    ("a fault alone", b"fault config not json\n", [], "the report ends with: fault config not json"),
    ("a fault", OWN + b"fault drift 4\n", [], "the report ends with: fault drift 4"),
    ("nothing but an end", b"end 0 0\n", [], "No node began"),
    ("lines that were filtered out", LATER + b"11 950 1.1 950 accepted 1 0.1 1\n" + END, [], "lines are missing"),
    ("fences left out", LATER + END, ["--no-fences"], "fences are left out, as was asked"),
    ("two that hold one point", OWN + LATER.replace(b"1.1", b"2.1") + END, [], "1.1 and 2.1 both hold"),
    ("a process that began again", AGAIN, [], "the clocks of the processes"),
]

WHOLE = "0000000000000000-ffffffffffffffff"
PART = "4000000000000000-ffffffffffffffff"
REST = "0000000000000000-3fffffffffffffff"
# What two processes wrote. The clock of node 2 began 115 ms later, as the flight shows; it was killed, and began again.
NODE_1 = f"""0 - 1.1 0 own {WHOLE} -
20 - 1.1 150 own {WHOLE} 750
40 - 1.1 300 gave 2.1 1 {PART}
40 - 1.1 300 own {REST} 900
90 - 1.1 700 accused 2.1
95 - 1.1 720 heir 2.1 1700
95 - 1.1 720 own {REST} -
200 - 1.1 1700 tookover 2.1 {PART}
200 - 1.1 1700 own {WHOLE} -
300 - 1.1 2600 own {WHOLE} 3200
end 320
"""
NODE_2 = f"""0 - 2.1 0 own - -
4 - 2.1 30 own - 630
20 - 2.1 185 took 1.1 1 {PART}
20 - 2.1 185 own {PART} 785
40 - 2.1 400 own {PART} 1000
0 - 2.2 0 own - -
"""
# The logs of two services of the same run: the second one began 115 ms after the first.
BEGUN = 59_123


def dated(report, begun, node):
    """A report as a service would write it that began at a millisecond of the minute 19:17."""
    lines, instance = [], 0
    for line in report.splitlines():
        if line.startswith("end"):
            lines.append(f"{clock_text(begun + 2700)} end")
            continue
        turn, _, _, reading, _ = line.split(" ", 4)
        if turn == "0":
            begun, instance = begun + 515 * instance, instance + 1
            lines.append(f"{clock_text(begun)} begin {node}.{instance}")
        lines.append(f"{clock_text(begun + int(reading))} {line}")
    return "\n".join([f"{lines[0][:24]} unsealed", f"{lines[0][:24]} listening 127.0.0.1:4600", *lines, ""])


def clock_text(milliseconds):
    return f"2026-11-29T19:{17 + milliseconds // 60_000}:{milliseconds // 1000 % 60:02}.{milliseconds % 1000:03}Z"


LOG_1, LOG_2 = dated(NODE_1, BEGUN, 1), dated(NODE_2, BEGUN + 115, 2)
ARBITER = f"{clock_text(BEGUN)} begin a1\n{clock_text(BEGUN + 2700)} end\n"
JOINED = [
    (
        "the clocks of two processes",
        [],
        [
            "2.1 took flight 1 from 1.1 at 300 ms",
            f"2.1 holds {PART} from 300 to 515 ms",
            "nobody for 1,185 ms",
            "2.2 started at 515 ms",
            "the last line of 2.1 at 515 ms",
        ],
    ),
    ("a clock that is given", ["@0", "@200"], ["2.1 took flight 1 from 1.1 at 385 ms", "from 385 to 600 ms"]),
    ("two logs without fences", ["--no-fences"], [f"2.1 holds {PART} from 300 to 515 ms"]),
]


# Logs of services, each a list of files: what they are, the words, and what the picture says.
EARLY = dated(NODE_2, BEGUN + 95, 2)
RENEWALS = (" 150 own", " 720 own", " 2600 own", " 30 own", " 400 own")
QUIET_1, QUIET_2 = (
    "".join(f"{it}\n" for it in log.splitlines() if not any(own in it for own in RENEWALS)) for log in (LOG_1, LOG_2)
)
FAULTY = LOG_1.replace(f"{clock_text(BEGUN + 2700)} end", "fault keep")
NOISY = LOG_1.replace(f"{clock_text(BEGUN + 2700)} end\n", "".join(
    f"{clock_text(BEGUN + 2700)} {it}\n" for it in ("slow 77", "deaf", "dropped 9", "cannot heal 7")))
LOGS = [
    (
        "two logs, and that of an arbitrator",
        [LOG_1, LOG_2, ARBITER],
        [],
        [
            "2.1 took flight 1 from 1.1 at 300 ms",
            f"2.1 holds {PART} from 300 to 515 ms",
            "nobody for 1,185 ms",
            "2.2 started at 630 ms",
            "the last line of 2.1 at 515 ms",
            "1.1 ended by order at 2,700 ms",
            "time of day in ms since 2026-11-29T19:17:59.123Z",
            "overlaps by at most 10 ms is not red",
        ],
    ),
    ("one log", [LOG_1], [], [f"1.1 holds {REST} from 300 to 1,700 ms", "1.1 ended by order at 2,700 ms"]),
    ("a window of logs", [LOG_1, LOG_2], ["200", "600"], ["cut: 200 to 600", "2.1 took flight 1 from 1.1 at 300 ms"]),
    ("a flight that is taken early by the times of day", [LOG_1, EARLY], [], ["overlaps by at most 20 ms is not red"]),
    ("logs without renewals", [QUIET_1, QUIET_2], [], ["left out: the logs have no `own` lines of renewals"]),
    ("a log that ends with a fault", [FAULTY, LOG_2], [], ["a process ended with: fault keep"]),
    ("the log of a node in need", [NOISY], [], ["a turn took 77 ms", "was deaf", "9 dropped", "not heal 7"]),
    ("two that hold one point", [LOG_1, dated(NODE_1.replace("1.1", "3.1"), BEGUN, 3)], [], ["1.1 and 3.1 both hold"]),
]
DATED = clock_text(BEGUN).encode()
LATEST = LOG_1.encode() + clock_text(BEGUN + 9000).encode()
BAD += [
    ("a time of day that falls", (LOG_1 + LOG_1).encode(), [], 6, "goes back in time, by 2700 ms of the time of day"),
    ("a time of day among none", OWN + DATED + b" end\n", [], 6, "line 2 has a time of day, unlike those before"),
    ("a line without its time of day", LOG_2.encode() + b"4 - 2.2 9 own - -\n", [], 6, "has no time of day, unlike"),
    ("a line behind the end of a log", LATEST + b" 4 - 1.1 9 own - -\n", [], 6, "line 15 comes after the end"),
    ("a day that is none", b"2026-11-31T19:17:59.123Z end\n", [], 6, "line 1 is no line of a report"),
    ("an event that is none", DATED + b" ended\n", [], 6, "line 1 is no line of a report"),
    ("an event with too many words", DATED + b" deaf 1\n", [], 6, "line 1 is no line of a report"),
    ("the end of a schedule in a log", DATED + b" end 9 4\n", [], 6, "line 1 is no line of a report"),
]
