"""Worked bytes, and what the program for tests says of them: the scripts NAME.rows beside this, each row of which
counts, and before them the scripts of mistakes.py, which have to fail.

usage: python3 rows.py [NAME..]
"""
from pathlib import Path

import mistakes
import row_scripts
from script import reports

row_scripts.run(Path(__file__).resolve().parent, mistakes.unlike(), lambda _, text: reports(text))
