"""trace_viewer: opens JSON of the Trace Event Format in Chrome's own trace viewer, which Go's sources
bring along, by a Chromium that shows no window, and tells what the viewer has read.
"""

from __future__ import annotations

import functools
import glob
import http.server
import json
import os
import re
import shutil
import subprocess
import tempfile
import threading
from typing import Any

VIEWERS = "/usr/share/go-*/src/cmd/trace/static/trace_viewer_full.html"
# a page that lets the viewer read run.json, and gets what it has read as its title
PAGE = """<!DOCTYPE html><html><head>
<script src="webcomponents.min.js"></script><link rel="import" href="trace_viewer_full.html">
<script>
function told(model) {
  const told = {slices: 0, flows: model.flowEvents.length, instants: model.instantEvents.length};
  told.threads = model.getAllThreads().length;
  model.getAllThreads().forEach(it => told.slices += it.sliceGroup.length);
  model.getAllProcesses().forEach(it => told.instants += it.instantEvents.length);
  told.warnings = model.importWarnings.map(it => String(it.message));
  return told;
}
document.addEventListener('WebComponentsReady', async () => {
  const model = new tr.Model();
  const options = new tr.importer.ImportOptions();
  options.shiftWorldToZero = false;
  const text = await (await fetch('run.json')).text();
  try {
    new tr.importer.Import(model, options).importTraces([text]);
    document.title = JSON.stringify(told(model));
  } catch (error) {
    document.title = JSON.stringify(String(error));
  }
});
</script></head><body></body></html>
"""


class Quiet(http.server.SimpleHTTPRequestHandler):
    """Hands out the files of a folder, and logs nothing."""

    def log_message(self, format: str, *args: Any) -> None:
        """Writes nothing."""


def is_there() -> bool:
    """Whether the viewer and a Chromium are installed."""
    return bool(glob.glob(VIEWERS)) and shutil.which("chromium") is not None


def title_of(address: str, room: str) -> str:
    """The title that the page at the address has in the end; none if a busy machine left no time."""
    words = ["--headless=new", "--no-sandbox", "--disable-gpu", f"--user-data-dir={room}/profile"]
    call = ["chromium", *words, "--virtual-time-budget=120000", "--dump-dom", address]
    page = subprocess.run(call, capture_output=True, text=True, timeout=300, check=True).stdout
    found = re.search("<title>(.*)</title>", page)
    return found.group(1).replace("&quot;", '"') if found else ""


def read_by_viewer(file: str) -> Any:
    """What the viewer has read of a file: how many slices, flows, instants and threads, and its
    warnings; or its error."""
    with tempfile.TemporaryDirectory() as room:
        viewer = glob.glob(VIEWERS)[0]
        for name in ("trace_viewer_full.html", "webcomponents.min.js"):
            os.symlink(os.path.join(os.path.dirname(viewer), name), f"{room}/{name}")
        shutil.copy(file, f"{room}/run.json")
        with open(f"{room}/page.html", "w", encoding="utf-8") as page:
            page.write(PAGE)
        handler = functools.partial(Quiet, directory=room)
        with http.server.ThreadingHTTPServer(("127.0.0.1", 0), handler) as server:
            threading.Thread(target=server.serve_forever, daemon=True).start()
            address = f"http://127.0.0.1:{server.server_address[1]}/page.html"
            told = title_of(address, room) or title_of(address, room) or "{}"
            server.shutdown()
        return json.loads(told)
