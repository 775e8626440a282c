"""ClickHouse, by HTTP: rows of JSON for a table whose sorting key has an entry's key, so a repeated row is merged."""
import contextlib
import http.client
import re
import signal
from urllib.parse import urlencode, urlsplit

from . import settings
from .rows import COLUMNS, OWN

MOST_BYTES, LONGEST_REASON = 1 << 20, 400
# A row that isn't taken is an error that is told: none may be left out without a word. What a Distributed table answers
# is what the servers behind it have.
STRICT = {"input_format_allow_errors_num": "0", "input_format_allow_errors_ratio": "0",
          "input_format_skip_unknown_fields": "0", "insert_distributed_sync": "1"}
# The codes of what can be wrong with a row: it can't be parsed, or isn't what the table allows. The status alone
# doesn't tell that: servers answer 400 or 500.
CODE = re.compile(r"Code: ([0-9]+)")
OF_ROWS = {6, 26, 27, 38, 41, 69, 72, 117, 128, 130, 131, 190, 321, 349, 467, 469}
OF_TABLE = "Unknown field"


class Unavailable(Exception):
    """It takes nothing now, and why. Sent again later, the same may be taken."""


class Refused(Exception):
    """A row will never be taken, and why."""


class ClickHouse:
    def __init__(self, chosen: settings.Settings, seconds: float) -> None:
        parts, context, self.seconds = urlsplit(chosen.url), settings.encryption(chosen), seconds
        self.table, self.path, self.headers = chosen.table, parts.path.rstrip("/"), settings.headers(chosen)
        host, port = parts.hostname or "", parts.port
        self.connection = http.client.HTTPSConnection(host, port, context=context) if context \
            else http.client.HTTPConnection(host, port)
        self.insert = "/?" + urlencode({"query": f"INSERT INTO {self.table} FORMAT JSONEachRow", **STRICT})

    def look(self) -> None:
        """Whether the table is there, with all columns; Unavailable if not."""
        database, _, table = self.table.rpartition(".")
        where = f"'{database}'" if database else "currentDatabase()"
        status, said = self.post("/", f"SELECT name FROM system.columns WHERE database = {where} AND table = '{table}' "
                                      "FORMAT TabSeparated".encode())
        if status != 200:
            raise Unavailable(one_line(status, said))
        has = set(said.split())
        if missing := sorted({*OWN, *COLUMNS.values()} - has):
            lacks = f"lacks {', '.join(missing)}" if has else "isn't there"
            raise Unavailable(f"the table {self.table} {lacks}: see journal-collect-forward --schema")

    def put(self, rows: list[bytes]) -> None:
        """Brings rows there: it has all of them when this returns. Refused if one of them is wrong."""
        status, said = self.post(self.insert, b"".join(rows))
        if status == 200 and not said:
            return
        code = CODE.search(said)
        is_of_rows = status == 413 or code and int(code[1]) in OF_ROWS and OF_TABLE not in said
        raise (Refused if is_of_rows else Unavailable)(one_line(status, said))

    def post(self, target: str, body: bytes) -> tuple[int, str]:
        """A request, and its answer. All of it has a deadline, however slowly something comes."""
        signal.signal(signal.SIGALRM, self.end)
        self.connection.close()                     # it may be one that broke, or that the server has closed
        try:
            signal.setitimer(signal.ITIMER_REAL, self.seconds)
            try:
                self.connection.connect()
                # Who finds this too large answers before all of it is there.
                with contextlib.suppress(BrokenPipeError, ConnectionResetError):
                    self.connection.request("POST", self.path + target, body, self.headers)
                response = self.connection.getresponse()
                return response.status, response.read(MOST_BYTES).decode(errors="replace")
            finally:
                signal.setitimer(signal.ITIMER_REAL, 0)
        except (OSError, http.client.HTTPException) as error:
            raise Unavailable(f"it can't be reached: {str(error) or type(error).__name__}") from error

    def end(self, *_: object) -> None:
        raise TimeoutError(f"no answer within {self.seconds:g} s")


def one_line(status: int, said: str) -> str:
    text = "".join(each if each.isprintable() else "?" for each in said[:LONGEST_REASON].strip())
    return f"{status} {text}".strip()
