#!/usr/bin/env python3
"""The lines of the programs that test reports of steps and logs of frames, and their answers.

    frames.py answers < stdin > stdout      answers to calls, a line each
    frames.py write CRATES RUNS             stdin and stdout of CRATES/report_vectors (the reports alone), of CRATES/frame_vectors
                                            (the reports and the logs) and of CRATES/report, and RUNS/frame.run

By its name a call is one of logs.py or of reports.py, which say what a line asks and what its answer is.
"""

import sys

import logs
import reports


def answer(line):
    return (logs if logs.is_log_call(line) else reports).answer(line)


def write(crates, examples):
    of_reports = reports.all_lines()
    for crate, lines in (
        ("report_vectors", of_reports),
        ("frame_vectors", [*of_reports, "# ---- logs", *logs.all_lines()]),
    ):
        for file, texts in (("stdin", lines), ("stdout", map(answer, lines))):
            with open(f"{crates}/{crate}/{file}", "w") as out:
                out.write("".join(text + "\n" for text in texts))
    reports.write_example(crates, examples)


if __name__ == "__main__":
    command, *rest = sys.argv[1:]
    if command == "write":
        write(*rest)
    else:
        for asked in sys.stdin:
            print(answer(asked.rstrip("\n")))
