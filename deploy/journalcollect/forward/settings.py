"""The settings of journal-collect-forward, /etc/journal-collect/forward.conf.d/*.conf, and what they may be."""
import os
import re
import ssl
import stat
from dataclasses import dataclass
from urllib.parse import urlsplit

from ..common import settings
from ..common.settings import Wrong

TABLE = re.compile(r"[A-Za-z_][A-Za-z0-9_]*(\.[A-Za-z_][A-Za-z0-9_]*)?")
# What is sent there doesn't leave this machine.
HERE = re.compile(r"localhost|127(\.[0-9]{1,3}){3}|::1")
URL = re.compile(r"(https?://[^/?#@:][^/?#@]*(/[A-Za-z0-9._~-]+)*/?)?")


@dataclass(frozen=True)
class Settings:
    """Each setting under its name in small letters, with its default. Nothing is forwarded without a URL."""
    url: str = ""
    table: str = "journal"
    authorization_file: str = ""
    ca_file: str = ""
    certificate_file: str = ""

    @property
    def target(self) -> str:
        """What is forwarded to: another one has none of what this one has."""
        return f"{self.url} {self.table}"


def read() -> Settings:
    """The settings as they are; a Wrong if they can't be."""
    chosen = settings.read(settings.FOLDER / "forward.conf.d", Settings)
    if not TABLE.fullmatch(chosen.table):
        raise Wrong(f"TABLE can't be {chosen.table}: it is NAME or DATABASE.NAME")
    try:
        parts = urlsplit(chosen.url)
        port = parts.port
    except ValueError as error:
        raise Wrong(f"URL can't be {chosen.url}: {error}") from None
    if not URL.fullmatch(chosen.url) or port == 0:
        raise Wrong(f"URL can't be {chosen.url}: it is https://HOST:PORT, with a path behind it if need be")
    if parts.scheme == "http" and chosen.authorization_file and not HERE.fullmatch(parts.hostname or ""):
        raise Wrong("URL has to begin with https: AUTHORIZATION_FILE would go out for all to read")
    return chosen


def secret(path: str) -> str:
    """What a file of mode 0600 or 0400 has that belongs to who runs this, or to root."""
    try:
        with open(path, encoding="latin-1") as file:
            status, content = os.fstat(file.fileno()), file.read()
    except OSError as error:
        raise Wrong(f"{path} can't be read: {error.strerror}") from error
    if not stat.S_ISREG(status.st_mode) or status.st_mode & 0o177 or status.st_uid not in (0, os.geteuid()):
        raise Wrong(f"{path} has to be a file of mode 0600 that is this user's, or root's: others could read it")
    return content.strip()


def headers(chosen: Settings) -> dict[str, str]:
    """What each request says, such as `Authorization: Bearer TOKEN`."""
    said = {"Content-Type": "application/octet-stream", "User-Agent": "journal-collect-forward"}
    if chosen.authorization_file:
        value = secret(chosen.authorization_file)
        if not value or not value.isascii() or not value.isprintable():
            raise Wrong(f"{chosen.authorization_file} isn't one line such as `Bearer TOKEN`")
        said["Authorization"] = value
    return said


def encryption(chosen: Settings) -> ssl.SSLContext | None:
    """How connections are encrypted, if they are."""
    if not chosen.url.startswith("https:"):
        return None
    try:
        context = ssl.create_default_context(cafile=chosen.ca_file or None)
        if chosen.certificate_file:
            secret(chosen.certificate_file)
            context.load_cert_chain(chosen.certificate_file, password=lambda: "")
    except (OSError, ValueError) as error:
        raise Wrong(f"CA_FILE or CERTIFICATE_FILE can't be used: {error}") from error
    return context
