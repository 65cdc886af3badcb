"""A Chromium without a window, in which a page is opened with a driver of tools/page_drivers behind it."""
import html
import json
import os
import re
import subprocess

DRIVERS = os.path.join(os.path.dirname(os.path.abspath(__file__)), "page_drivers")
# Before drivers, and behind them: what they leave is the page's only text then.
LEAVES = "const left = {}, leave = (it) => Object.assign(left, it);\n"
LEFT = 'document.body.replaceChildren(document.createElement("pre"));\ndocument.querySelector("pre").textContent = JSON.stringify(left);\n'


def driver_text(name):
    with open(os.path.join(DRIVERS, f"{name}.js"), encoding="utf-8") as file:
        return file.read()


class Browser:
    def __init__(self, path, room):
        self.path, self.room = path, room

    def dumped(self, page, *words, name="page"):
        path = os.path.join(self.room, f"{name}.html")
        with open(path, "w", encoding="utf-8", newline="") as file:
            file.write(page)
        words = [self.path, "--headless", "--no-sandbox", "--disable-gpu", f"--user-data-dir={self.room}/profile", *words, "--dump-dom"]
        return subprocess.run([*words, f"file://{path}"], capture_output=True, text=True, timeout=600).stdout

    def left(self, told):
        found = re.search(r"<pre>(.*)</pre>", told, re.S)
        return json.loads(html.unescape(found.group(1))) if found else {"seen": [], "errors": ["the script left nothing"]}

    def driven(self, page, *drivers, before=""):
        """What drivers of tools/page_drivers leave of a page, one after another."""
        script = before + LEAVES + "".join(driver_text(it) for it in drivers) + LEFT
        return self.left(self.dumped(page.replace("</body>\n</html>", f"<script>\n{script}</script>\n</body>\n</html>")))

    def framed(self, page, driver, width, height):
        """The same in a window of this size."""
        inner = page.replace("</body>\n</html>", f"<script>\n{driver_text(driver)}</script>\n</body>\n</html>")
        with open(os.path.join(self.room, "inner.html"), "w", encoding="utf-8") as file:
            file.write(inner)
        outer = f"""<!doctype html><body><script>addEventListener("message", (event) => {{ const it = document.createElement("pre"); it.textContent = event.data; document.body.replaceChildren(it); }});</script>
<iframe src="inner.html" style="width:{width}px;height:{height}px;border:0"></iframe></body>"""
        return self.left(self.dumped(outer, f"--window-size={width + 100},{height + 300}"))
