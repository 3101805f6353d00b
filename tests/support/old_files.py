"""Files of schema 1, written by the real sqlite3."""
import os
import re

from program import TOP
from registry import asked, texts_of_schema

# A vendor that alice submitted and root approved.
ROWS_FILE = os.path.join(TOP, "crates/pid_tests_registry/src/service/rows.rt")
with open(ROWS_FILE, encoding="utf-8") as source:
    ROWS = "".join(re.findall(r"^INSERT .*;\n", source.read(), re.M))

TABLES = ["meta", "account", "item", "submission", "remark", "receipt", "item_since"]


def texts_in_order():
    """Those of schema 2, in the order in which the program makes its tables: what is referred to
    stands first. Those of schema 1 are all but the last."""
    return sorted(texts_of_schema(), key=lambda text: TABLES.index(text.split()[2]))


def old_file(path, more=""):
    return asked(path, ";".join(texts_in_order()[:6]) + ";" + ROWS + more)
