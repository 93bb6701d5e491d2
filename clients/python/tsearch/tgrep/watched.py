"""What has changed in a folder, as watchman tells it. Its cookies make that exact: a change that was on the disk before it is asked is
in its answer."""

from __future__ import annotations

import contextlib
import json
import os
import shutil
from typing import Any

# In seconds: how long watchman may take to begin, and to answer later.
_TO_BEGIN = 120
_TO_ANSWER = 2
# What holds for all folders that watchman watches, unless WATCHMAN_CONFIG_FILE names another file.
_SETTINGS = "/etc/watchman.json"
_FIELDS = ["name", "type", "new", "exists"]


class Unwatched(Exception):
    """The folder is not watched. The text says why, and what would help."""


class Watch:
    """Watches a folder. Its methods wait, so a thread calls them, one at a time."""

    def __init__(self, root: bytes) -> None:
        try:
            import pywatchman
        except ImportError:
            raise Unwatched("the library pywatchman is missing (apt-get install watchman python3-pywatchman)") from None
        self._errors = (pywatchman.WatchmanError, OSError, KeyError, TypeError, ValueError)
        self._begin(pywatchman, os.fsdecode(root))

    def _begin(self, pywatchman: Any, root: str) -> None:
        try:
            self._client = pywatchman.client(timeout=_TO_BEGIN, valueEncoding="utf-8", valueErrors="surrogateescape")
            project = self._client.query("watch-project", root)
            # it may be a folder above, whose settings count
            self._watched: str = project["watch"]
            settings = {*_settings_of_all(), *self._client.query("get-config", self._watched)["config"]}
            if any(key.startswith("ignore") for key in settings):
                raise ValueError("its settings have it leave something out")
            self._inner: str | None = project.get("relative_path")
            self._clock: str = self._client.query("clock", self._watched, {"sync_timeout": _TO_BEGIN * 1_000})["clock"]
            self._client.setTimeout(_TO_ANSWER)
        except self._errors as error:
            if "WATCHMAN_SOCK" not in os.environ and shutil.which("watchman") is None:
                raise Unwatched("watchman is not on the PATH (apt-get install watchman)") from error
            raise Unwatched(f"watchman does not watch it: {error}") from error

    def changes(self) -> set[bytes] | None:
        """The paths, from the top of the folder, of all files that may have changed since the last call. None if watchman does not know:
        then all have to be looked at. `Unwatched` if it no longer watches."""
        words: dict[str, Any] = {"since": self._clock, "fields": _FIELDS, "sync_timeout": _TO_ANSWER * 1_000}
        if self._inner:
            words["relative_root"] = self._inner
        try:
            told = self._client.query("query", self._watched, words)
            self._clock = told["clock"]
            if told.get("is_fresh_instance"):
                return None
            return {os.fsencode(file["name"]) for file in told["files"] if _matters(file)}
        except self._errors as error:
            self.close()
            raise Unwatched(f"watchman no longer watches it: {error}") from error

    def close(self) -> None:
        """Leaves watchman."""
        with contextlib.suppress(*self._errors):
            self._client.close()


def _matters(file: dict[str, Any]) -> bool:
    """Whether a change is more than that of the files in a folder, which are told too. Each call of git changes the folder .git."""
    return bool(file["type"] != "d" or file["new"] or not file["exists"])


def _settings_of_all() -> dict[str, Any]:
    """The settings for all folders. `ValueError` or `TypeError` if they are none."""
    try:
        with open(os.environ.get("WATCHMAN_CONFIG_FILE") or _SETTINGS, "rb") as file:
            return dict(json.load(file))
    except FileNotFoundError:
        return {}
