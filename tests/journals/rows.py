"""Worked uploads over journals that are kept in a map or in databases that take turns: the scripts NAME.rows beside
this, and before them those of mistakes.py, which have to fail. Each journal that is made counts.

usage: python3 rows.py [NAME..]
"""
from pathlib import Path

import mistakes
import row_scripts
from made import reports_of

row_scripts.run(Path(__file__).resolve().parent, mistakes.unlike(), reports_of)
