"""A picture as PNG or PDF, by rsvg-convert or Chromium, whichever is installed."""
import os
import re
import shutil
import subprocess
import tempfile

from draw_logs import Faulty

BROWSERS = ["chromium", "chromium-browser", "google-chrome", "google-chrome-stable"]
# A page that is the picture alone, of the picture's size.
FRAME = """<!doctype html>
<style>@page {{ size: {0}px {1}px; margin: 0 }} body {{ margin: 0 }} svg {{ display: block }}</style>
"""


def converted(svg, form):
    """The picture's bytes in such a form."""
    if dear := shutil.which("rsvg-convert"):
        words = [dear, "--format", form, *(["--zoom", "2"] if form == "png" else [])]
        return finished(subprocess.run(words, input=svg.encode(), capture_output=True, check=False))
    browser = next((it for name in BROWSERS if (it := shutil.which(name))), None)
    if not browser:
        raise Faulty(f"no {form} without rsvg-convert or Chromium: neither is on the path")
    return by_browser(browser, svg, form)


def finished(done):
    if done.returncode or not done.stdout:
        raise Faulty(f"the converter failed: {done.stderr.decode(errors='replace').strip()}")
    return done.stdout


def by_browser(browser, svg, form):
    width, height = re.search(r'width="(\d+)" height="(\d+)"', svg).groups()
    with tempfile.TemporaryDirectory() as place:
        page, out = f"{place}/page.html", f"{place}/out.{form}"
        with open(page, "w", encoding="utf-8") as it:
            it.write(FRAME.format(width, height) + svg)
        how = ["--force-device-scale-factor=2", f"--window-size={width},{height}", f"--screenshot={out}"]
        if form == "pdf":
            how = [f"--print-to-pdf={out}", "--no-pdf-header-footer"]
        words = [browser, "--headless", "--no-sandbox", "--disable-gpu", "--hide-scrollbars", *how, page]
        done = subprocess.run(words, capture_output=True, check=False)
        if done.returncode or not os.path.exists(out):
            raise Faulty(f"the converter failed: {done.stderr.decode(errors='replace').strip()}")
        with open(out, "rb") as it:
            return it.read()
