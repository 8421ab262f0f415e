"""What the tests of pages look at: the numbers in a page, and the widths of what it shows in a window."""
import html
import html.parser
import json
import os
import re
import shutil
import subprocess

from cuts import length_of
from guest import shown
from tool import counted

LOOK = """
<script>window.addEventListener("load", function () {
  var frame = document.querySelector("iframe"), inner = frame.contentDocument, wide = [];
  var width = inner.documentElement.clientWidth;
  if (inner.documentElement.scrollWidth > width) wide.push("page " + inner.documentElement.scrollWidth);
  inner.querySelectorAll("body *").forEach(function (one) {
    var box = one.getBoundingClientRect();
    if (box.width && (box.right > width + 0.5 || box.left < -0.5) && wide.length < 5)
      wide.push(one.tagName + " " + box.left + " to " + box.right);
    var holds = ["TD", "PRE", "P", "TABLE", "DIV"].includes(one.tagName);
    if (holds && one.scrollWidth > one.clientWidth + 1 && wide.length < 5)
      wide.push(one.tagName + " holds " + one.scrollWidth + " in " + one.clientWidth);
    if (one.tagName == "text") {
      var around = one.parentNode.querySelector("rect").getBoundingClientRect();
      if (box.width && (box.left < around.left - 1 || box.right > around.right + 1) && wide.length < 5)
        wide.push("text " + one.textContent);
    }
  });
  document.body.setAttribute("data-wide", JSON.stringify(wide));
});</script>"""


class PageNumbers(html.parser.HTMLParser):
    """The numbers that a page carries: the number, the cut, the regions, and the flows of each picture."""

    def __init__(self, page):
        super().__init__()
        self.number, self.cut, self.visits, self.regions, self.pictures, self.boxes = None, {}, {}, {}, [], []
        self.feed(page)

    def handle_starttag(self, tag, attributes):
        """Notes what an element carries."""
        given = dict(attributes)
        if "data-number" in given:
            self.number = int(given["data-number"])
        if "data-cut" in given:
            self.cut[given["data-cut"]] = int(given["data-bits"])
            self.visits[given["data-cut"]] = int(given["data-visits"])
        if "data-region" in given:
            self.regions[int(given["data-region"])] = given["data-skip"] == "1"
        if tag == "svg":
            self.pictures.append([])
            self.boxes.append([])
        if "data-flow" in given:
            self.pictures[-1].append((given["data-from"], given["data-to"], int(given["data-flow"])))
        if tag == "g":
            self.boxes[-1].append(given["class"])


def page_wrongs(page, text, numbers, cut, listed):
    """What in a page is not as `report --json` and `measure` say; `listed` are the numbers of the regions."""
    bits, words = numbers["bits"], " ".join(text.split())
    if page.number != bits:
        yield f"number {page.number} for {bits}"
    if f"at most {bits:,} bit" not in words and not (bits == 0 and "nothing of" in words):
        yield "the words have another number"
    if page.cut != {f"{item['region']} {item['address']} {item['slot']}": item["bits"] for item in numbers["cut"]}:
        yield f"cut {page.cut}"
    if sum(page.cut.values()) != bits:
        yield "the bits of the cut do not add up"
    visits = {f"{point[0]} {shown(point[1])} {point[2]}": length_of(runs) for point, (runs, _) in cut.points.items()}
    if page.visits != visits:
        yield f"visits {page.visits} for {visits}"
    forms = [f"took {counted(numbers['turns'], 'turn')}", f"wrote {counted(numbers['output'], 'byte')}"]
    forms += [f"status {numbers['status']}.", *(counted(numbers[name + "s"], name) for name in ("point", "link"))]
    for form in forms:
        if form not in words:
            yield f"no {form}"
    if page.regions != {number: number in numbers["skip"] for number in listed}:
        yield f"regions {page.regions}"
    yield from picture_wrongs(page, bits)


def picture_wrongs(page, bits):
    """What is wrong in the pictures of a page: each carries all bits from the secret through the cut to the output."""
    if len(page.pictures) != (2 if bits else 0):
        yield f"{len(page.pictures)} pictures"
    for flows, boxes in zip(page.pictures, page.boxes):
        sums = {
            "from the secret": sum(flow for source, _, flow in flows if source == "source"),
            "to what is seen": sum(flow for _, target, flow in flows if target == "sink"),
            "into the cut": sum(flow for _, target, flow in flows if target == "cut"),
            "out of the cut": sum(flow for source, _, flow in flows if source == "cut"),
        }
        yield from (f"{flow} {name} for {bits}" for name, flow in sums.items() if flow != bits)
        if "box cut" not in boxes or "box source" not in boxes or "box sink" not in boxes:
            yield f"boxes {boxes}"


class Chromium:
    """Asks a headless Chromium how wide pages are."""

    def __init__(self, folder):
        self.folder = folder
        self.name = shutil.which("chromium") or shutil.which("chromium-browser") or shutil.which("google-chrome")

    def overflow(self, page, width):
        """What in a page leaves a window of this width, or text its box; the page is shown in a frame."""
        frame = f'<iframe style="border:0;width:{width}px;height:900px" srcdoc="{html.escape(page)}"></iframe>'
        name = os.path.join(self.folder, "frame.html")
        with open(name, "w", encoding="utf-8") as file:
            file.write(f'<!DOCTYPE html><html><head><meta charset="utf-8"></head><body>{frame}{LOOK}</body></html>')
        words = [self.name, "--headless", "--no-sandbox", "--disable-gpu", "--window-size=1400,1000", "--dump-dom"]
        done = subprocess.run(words + ["file://" + name], capture_output=True, text=True, check=False, timeout=120)
        found = re.search(r'<body data-wide="([^"]*)"', done.stdout)
        return json.loads(html.unescape(found[1])) if found else ["Chromium does not answer"]
