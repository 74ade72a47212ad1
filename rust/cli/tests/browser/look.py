#!/usr/bin/env python3
"""Looks at pages in a real browser: python3 look.py HAVDRIMS FOLDER

Makes cards of invented weeks in FOLDER, a page of each with the program HAVDRIMS, and takes these through Chromium at the width of a
desk, a phone and paper. It finds a no without a line, what overflows or overlaps, links that lead nowhere and anything that is
fetched, and leaves pictures of all of them in FOLDER: look at these. It ends with status 1 if it found something.
"""
import pathlib
import re
import sys
import time

sys.dont_write_bytecode = True

from chrome import Chrome
from week import BEFORE, NAMES, UNTIL, Week

EIGHT = [UNTIL, BEFORE, "not e2 or e0 until[0,60] e1", "not e2 or e0 until[0,120] e1", "not e1 or e0 until[0,45] e3",
         "not e2 or not e3 until[0,200] e1", "not e3 or e0 since[0,60] e1", "not (e1 or e2) or next[0,inf] (e0 or e3)"]
HOSTILE = ("0 the thermal print head of the left-hand unit reports its working temperature\n1 <script>alert(1)</script>\n"
           "2 Kundin/Kunde <b>wünscht</b> & bestätigt einen 'Abzug'\n3 </style></title>--><!-- ]]>\n")
LONG = "Fotohaus Lindenstraße & Söhne <Filiale 17>, kiosk-left-of-the-entrance-beside-the-escalator-2"
WIDTHS = {"desk": (1280, "screen", False), "dark": (1280, "screen", True), "phone": (360, "screen", False), "paper": (688, "print", False)}

# What is wrong in the page as it is shown, as a list of sentences.
WRONG = """(() => {
  const wrong = [], wide = document.documentElement.clientWidth;
  const shown = e => { const b = e.getBoundingClientRect(); return b.width > 0 && b.height > 0 && getComputedStyle(e).display != 'none'; };
  if (document.documentElement.scrollWidth > wide) wrong.push('the page is ' + document.documentElement.scrollWidth + ' wide of ' + wide);
  for (const e of document.querySelectorAll('body *')) {
    if (!shown(e) || e.closest('thead')) continue;
    const b = e.getBoundingClientRect();
    if (b.right > wide + 1 || b.left < -1) wrong.push(e.tagName + '.' + e.getAttribute('class') + ' goes from ' + b.left + ' to ' + b.right);
  }
  for (const strip of document.querySelectorAll('.strip')) {
    const tags = [...strip.querySelectorAll('.tag rect')].filter(shown).map(e => e.getBoundingClientRect());
    tags.sort((a, b) => a.left - b.left);
    for (let i = 1; i < tags.length; i++) if (tags[i].left < tags[i - 1].right) wrong.push('two tags meet at ' + tags[i].left);
    const texts = [...strip.querySelectorAll(':scope > svg > text, .axis text')].filter(shown).map(e => e.getBoundingClientRect());
    const said = strip.querySelector('span').getBoundingClientRect();
    for (const b of texts.concat(tags)) if (b.left < said.left + 20) wrong.push('a sign stands on the day');
  }
  for (const row of document.querySelectorAll('tbody tr')) {
    const cells = [...row.children].filter(shown).map(e => e.getBoundingClientRect());
    for (const a of cells) for (const b of cells)
      if (a !== b && a.left < b.right - 1 && b.left < a.right - 1 && a.top < b.bottom - 1 && b.top < a.bottom - 1)
        wrong.push('two cells of mark ' + row.id + ' overlap');
    for (const e of row.children) if (e.scrollWidth > e.clientWidth + 1 && getComputedStyle(e).display != 'inline') wrong.push('a cell of ' + row.id + ' is clipped');
  }
  const ids = [...document.querySelectorAll('[id]')].map(e => e.id);
  if (new Set(ids).size != ids.length) wrong.push('two elements have one id');
  for (const a of document.querySelectorAll('a')) if (!document.getElementById(a.getAttribute('href').slice(1))) wrong.push(a.getAttribute('href') + ' leads nowhere');
  return [...new Set(wrong)].slice(0, 10);
})()"""

# The lines of each table: the number of its formula, and of each line what it says of positions or records, and how many no it has.
LINES = """[...document.querySelectorAll('table')].map(t => [t.closest('section').querySelector('h2').id,
  [...t.querySelectorAll('tbody tr')].map(r => [r.children[2].innerHTML, r.children[3].textContent])])"""


def number(text):
    return int(text.replace(",", ""))


def missing(week, chrome):
    """What the tables do not say of the sheet."""
    nos, tables = week.sheet(), {name: lines for name, lines in chrome.js(LINES)}
    for k, no in enumerate(nos):
        lines = tables.get(f"f{k}", [])
        said, count = set(), 0
        for where, how_many in lines:
            where = re.sub("&nbsp;|<[^>]*>", " ", where.split("<br>")[-1])       # positions stand last
            ends = [number(n) for n in re.findall(r"[\d,]+", where)]
            said.update(range(ends[0], ends[-1] + 1))
            count += number(re.match(r"[\d,]+", how_many)[0])
        if not no <= said:
            yield f"formula {k}: {len(no - said)} no have no line, as {min(no - said)}"
        if count != len(no):
            yield f"formula {k}: the lines have {count} no, the sheet {len(no)}"


def weeks(havdrims, folder):
    make = lambda name, rules=(UNTIL, BEFORE), **how: Week(havdrims, folder, name, rules, **how)
    yield make("kiosk 3, station hall")
    yield make("none", faults=0)
    yield make("many", faults=640)
    yield make("one", rules=[UNTIL], faults=5)
    yield make("eight", rules=EIGHT)
    yield make("closed", closed=True)
    yield make(LONG, names=HOSTILE)
    lost = make("overwritten", faults=40)
    lost.overwrite(100_000)
    yield lost
    trimmed = make("trimmed")
    trimmed.run("trim", trimmed.card, trimmed.log, trimmed.log, "--force")
    yield trimmed
    yield make("every", rules=["e30 or e29", "e0 since[5,inf] e9", "not e0"], total=180_000)


def look(week, chrome):
    before = time.time()
    week.make()
    took = time.time() - before
    found = []
    html = week.page.read_text()
    if re.search(r"<script|<link|<img|@import|url\(|https?:", re.sub("&lt;.*?&gt;", "", html)):
        found.append("something in it is a script or would be fetched")
    for width, (pixels, media, dark) in WIDTHS.items():
        begun = time.time()
        chrome.load(week.page, pixels, media, dark)
        shown = time.time() - begun
        found += [f"{width}: {wrong}" for wrong in chrome.js(WRONG)]
        if [url for url in chrome.asked_for if not url.startswith("file:")]:
            found.append(f"{width}: it asks for {chrome.asked_for}")
        if width == "desk":
            found += missing(week, chrome)
            print(f"{week.page.name}: {len(html.encode()):,} bytes, made in {took:.2f} s, shown in {shown:.2f} s")
        chrome.picture(week.page.with_suffix(f".{width}.png"))
    chrome.pdf(week.page.with_suffix(".pdf"))
    for wrong in found:
        print("  " + wrong)
    return not found


def main(havdrims, folder):
    folder = pathlib.Path(folder)
    folder.mkdir(parents=True, exist_ok=True)
    chrome = Chrome()
    try:
        good = [look(week, chrome) for week in weeks(havdrims, folder)]
    finally:
        chrome.close()
    print(f"{len(good)} pages, {good.count(False)} with something wrong; the pictures are in {folder}")
    return 0 if all(good) else 1


if __name__ == "__main__":
    if len(sys.argv) != 3:
        raise SystemExit(__doc__)
    sys.exit(main(sys.argv[1], sys.argv[2]))
