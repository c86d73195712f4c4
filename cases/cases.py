#!/usr/bin/env python3
"""The files of cases that the program `cases` answers, in its order, and what it must print.

    cases.py          writes them and stdout of the crate cases
    cases.py --check  says whether they are as this script makes them
"""
import check_cases
import mender_cases
import name_cases
import piece_cases
import reader_cases
import writer_cases
from made import keep

KINDS = {"check": check_cases.cases, "pieces": piece_cases.cases, "reader": reader_cases.cases, "writer": writer_cases.cases,
         "mender": mender_cases.cases, "names": name_cases.cases}

files = {f"data/{kind}": bytes(cases.data) for kind, cases in KINDS.items()}
files["stdout"] = "".join(line for cases in KINDS.values() for line in cases.printed).encode()
keep(__file__, files, "\n".join(cases.told(kind) for kind, cases in KINDS.items()))
