"""Structured logs: a JSON object a line, for journald and others; or plain lines for a terminal."""
from __future__ import annotations

import json
import logging
import sys
import time


class JsonLines(logging.Formatter):
    """A record as a line of JSON; what was given as `extra={"of": {..}}` stands in it."""

    def format(self, record: logging.LogRecord) -> str:
        moment = time.strftime("%Y-%m-%dT%H:%M:%S", time.localtime(record.created))
        told = {"at": f"{moment}.{int(record.msecs):03}", "level": record.levelname.lower(),
                "part": record.name.removeprefix("lazbendix."), "text": record.getMessage()}
        told |= getattr(record, "of", {})
        if record.exc_info:
            told["error"] = self.formatException(record.exc_info)
        return json.dumps(told)


def begin_logs(is_plain: bool, level: str = "INFO") -> None:
    """Has logs written to standard error."""
    handler = logging.StreamHandler(sys.stderr)
    plain = logging.Formatter("%(asctime)s %(levelname)s %(name)s: %(message)s")
    handler.setFormatter(plain if is_plain else JsonLines())
    logging.basicConfig(level=level, handlers=[handler], force=True)
