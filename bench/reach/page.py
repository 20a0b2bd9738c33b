"""Compares the pages of extras/pns-page with what `pns json` and `pns stable` print.

    bench/reach/run page [PROGRAM [FOLDER [PLANT..]]]

PROGRAM is crates/pns/out/pns if left out; without it this says so and ends with status 0. Without
PLANT the pages are those of the shipped plant and of three plants of cases/. Each number of a page
has its exact value in an element `data`. In the table of the units, of the materials and of the
money, in the verdict and among the best networks it has to be the number of `pns json`; of the
ranges, that of `pns stable`. It has to be shown in six digits as the report shows it. A column that
is missing has to be empty in the object too. No `data` may be left that was not compared, and a
page may not name anything outside itself.

If `chromium` is there, each page is opened at the width of a desk and of a phone, light and dark,
and printed. A message on its console, or a page that is wider than its window, is a difference. The
pictures are kept in FOLDER, if it is given and is not `-`. One line a page; the status is 1 if one
differs. Nothing here is part of the gate.
"""
import html.parser
import json
import os
import re
import shutil
import subprocess
import sys
import tempfile
from fractions import Fraction

from shared import PROGRAM, TOP, is_there
import report

PLANTS = ["crates/pns/data/a.pns", "cases/utilities/plant.pns", "cases/refinery/plant.pns",
          "cases/williams_refinery/plant.pns"]
BUDGET = "100000"
COUNT = 5
UNITS = {"size": "size", "share of capacity": "share", "limit": "limit", "fixed": "fixed",
         "proportional": "proportional", "investment": "investment", "total": "total"}
MATERIALS = {"kind": "kind", "made": "made", "used": "used", "net": "net", "limit": "limit",
             "price": "price", "cost": "cost"}
MONEY = {"fixed costs": "fixed", "proportional costs": "proportional",
         "investment costs": "investment", "material costs": "material_costs",
         "material incomes": "material_incomes", "total": "total"}
LOADS = {"src", "href", "xlink:href", "action", "srcset", "poster", "data"}
OUTSIDE = r"(?:url\(|@import)\s*([^);]*)"


class Page(html.parser.HTMLParser):
    """The tables of a page by their captions, all its exact numbers, and what it would load."""

    def __init__(self, text):
        super().__init__()
        self.tables, self.numbers, self.loads, self.scripts = {}, [], [], 0
        self.rows, self.caption, self.open = [], "", []
        self.feed(text)
        self.close()

    def handle_starttag(self, tag, attributes):
        given = dict(attributes)
        self.loads += [value for key, value in attributes if key in LOADS and tag != "data"]
        self.loads += re.findall(OUTSIDE, given.get("style") or "")
        self.scripts += tag == "script"
        if tag == "table":
            self.rows, self.caption = [], ""
        elif tag == "tr":
            self.rows.append([])
        elif tag in ("td", "th"):
            self.rows[-1].append(["", None])
        elif tag == "data":
            self.numbers.append([given["value"], "", False])
            if "td" in self.open:
                self.rows[-1][-1][1] = len(self.numbers) - 1
        if tag not in ("meta", "link", "br"):
            self.open.append(tag)

    def handle_endtag(self, tag):
        while self.open and self.open.pop() != tag:
            pass
        if tag == "table":
            self.tables[self.caption] = self.rows

    def handle_data(self, text):
        if "style" in self.open:
            self.loads += re.findall(OUTSIDE, text)
        elif "caption" in self.open:
            self.caption += text
        elif "td" in self.open or "th" in self.open:
            self.rows[-1][-1][0] += text
        if "data" in self.open:
            self.numbers[-1][1] += text


class Differs(Exception):
    pass


def want(what, found, wanted):
    if found != wanted:
        raise Differs(f"{what}: {found!r}, and {wanted!r} is wanted")


class Judge:
    """One page, and the answers of the program on the same plant."""

    def __init__(self, program, plant, folder):
        self.program, self.plant, self.folder = program, os.path.join(TOP, plant), folder
        self.file = os.path.join(folder, "page.html")
        self.tree = self.kept("tree", "solve", self.plant, BUDGET)
        words = [self.plant, "--tree", self.tree, "--budget", BUDGET, "--networks", str(COUNT)]
        run = subprocess.run([os.path.join(TOP, "extras/pns-page"), *words, "-o", self.file],
                             env=dict(os.environ, PNS=program), capture_output=True, text=True)
        want("pns-page", (run.returncode, run.stdout, run.stderr), (0, "", ""))
        with open(self.file, encoding="utf-8") as file:
            self.page = Page(file.read())

    def call(self, *words):
        run = subprocess.run([self.program, *words], capture_output=True, text=True)
        return run.stdout

    def kept(self, name, *words):
        path = os.path.join(self.folder, name)
        with open(path, "w", encoding="utf-8") as file:
            file.write(self.call(*words))
        return path

    def table(self, start):
        """The rows below the headings of the table whose caption begins so, by the headings."""
        found = [it for caption, it in self.page.tables.items() if caption.startswith(start)]
        want(f"tables {start}", len(found), 1)
        head, *rows = found[0]
        names = [heading for heading, _ in head]
        return [dict(zip(names, row)) for row in rows]

    def cell(self, what, cell, wanted):
        """A cell has this word, or this number: exactly in its element, in six digits to see. A
        cell that is missing was empty in each row."""
        if cell is None:
            return want(what, wanted in (None, 0), True)
        shown, number = cell
        if not isinstance(wanted, Fraction):
            return want(what, (shown, number), ("-" if wanted is None else str(wanted), None))
        if number is None:
            raise Differs(f"{what}: {shown!r} has no exact value")
        self.number(what, number, wanted)
        want(what, shown, report.six(wanted))

    def number(self, what, place, wanted):
        exact, shown, _ = self.page.numbers[place]
        want(what, (Fraction(exact), shown), (wanted, report.six(wanted)))
        self.page.numbers[place][2] = True

    def facts(self, tree):
        return json.loads(self.call("json", self.plant, tree))

    def rows(self, start, first, columns, facts):
        rows = self.table(start)
        want(f"{start}, names", [row[first][0] for row in rows], [it["name"] for it in facts])
        for row, it in zip(rows, facts):
            want(f"{start}, columns", set(row) - set(columns) - {first}, set())
            for heading, key in columns.items():
                wanted = exact(it[key])
                if key == "kind":
                    wanted = wanted.replace("_", " ")
                self.cell(f"{it['name']}, {heading}", row.get(heading), wanted)

    def network(self, facts):
        self.rows("Units", "unit", UNITS, facts["units"])
        self.rows("Materials", "material", MATERIALS, facts["materials"])
        for row in self.table("Money"):
            self.cell(row[""][0], row["money"], exact(facts["money"][MONEY[row[""][0]]]))
        want("rows of the money", len(self.table("Money")), len(MONEY))
        amounts = ("units", "size"), ("materials", "net")
        at = [(it["name"], exact(it[key])) for what, key in amounts for it in facts[what]
              if it["limit"]]
        rows = self.table("At a bound") if at else []
        want("bounds", [row["unit or material"][0] for row in rows], [name for name, _ in at])
        for row, (name, amount) in zip(rows, at):
            self.cell(f"bound of {name}", row.get("size, or net amount"), amount)
        loose = [k for k, it in enumerate(self.page.numbers) if not it[2]]
        verdict, once = loose[0], next(k for k in loose[1:] if not self.in_table(k))
        self.number("verdict", verdict, exact(facts["money"]["total"]))
        self.number("paid once", once, exact(facts["paid_once"]))

    def in_table(self, place):
        return any(cell[1] == place for rows in self.page.tables.values()
                   for row in rows for cell in row)

    def best(self):
        """The best networks: each a claim of its own, in numbers by `json`."""
        ranking = self.call("rank", self.plant, str(COUNT), BUDGET)
        claims = re.findall(r"^network .*\nsizes .*\ncost .*\n", ranking, re.M)
        rows = self.table("The ")
        want("networks", len(rows), len(claims))
        first = None
        for k, (row, claim) in enumerate(zip(rows, claims), 1):
            path = os.path.join(self.folder, f"claim{k}")
            with open(path, "w", encoding="utf-8") as file:
                file.write(f"file_type=PNS_tree_v1\n{claim}node\nopen\nend\n")
            facts = self.facts(path)
            cost, units = exact(facts["money"]["total"]), [it["name"] for it in facts["units"]]
            first = first or (cost, units)
            above = cost - first[0]
            self.cell(f"network {k}", row["total"], cost)
            self.cell(f"network {k}, above", row.get("above the best"), above)
            self.cell(f"network {k}, in %", row.get("in %"), 100 * above / abs(first[0]))
            changes = ["+" + it for it in units if it not in first[1]]
            changes += ["-" + it for it in first[1] if it not in units]
            said = row["units against the best"][0]
            want(f"network {k}, units", said, " ".join(changes) or "the best")

    def ranges(self, facts):
        """The ranges: each by a call of its own."""
        rows = self.table("Each value alone")
        spots = [("price", it["name"], exact(it["price"])) for it in facts["materials"]]
        spots += [("fix", it["name"], exact(it["fixed"])) for it in facts["units"]]
        for it in facts["units"]:
            size, cost = exact(it["size"]), exact(it["proportional"])
            spots.append(("proportional", it["name"], cost / size if size else None))
        want("ranges", len(rows), len(spots))
        for row, (kind, name, now) in zip(rows, spots):
            shown = "fixed cost" if kind == "fix" else kind
            want("range", (row["value"][0], row["of"][0]), (shown, name))
            self.cell(f"{kind} {name}, now", row.get("now"), now)
            answer = self.call("stable", self.plant, self.tree, kind, name, BUDGET)
            for word, side in (("from", "below"), ("to", "above")):
                value = re.search(rf"^{word} (\S+)\n{side}( limit)?$", answer, re.M)
                wanted = "any" if value[2] else Fraction(int(value[1]), 10**6)
                self.cell(f"{kind} {name}, {word}", row[word], wanted)

    def judge(self):
        facts = self.facts(self.tree)
        if facts["claim"] == "network":
            self.network(facts)
            self.best()
            self.ranges(facts)
        left = [it for it in self.page.numbers if not it[2]]
        want("numbers that are not compared", left, [])
        outside = [it for it in self.page.loads if not str(it).startswith(("#", "data:"))]
        want("what the page loads", (outside, self.page.scripts), ([], 0))
        return len(self.page.numbers)


def exact(value):
    if not isinstance(value, dict):
        return value
    return "past" if value["exact"] is None else Fraction(value["exact"])


# A window of any width, the page in it, and a line on the console with what the page needs.
FRAME = """<!doctype html><html><body style="margin:0">
<iframe width="{width}" height="{height}" style="border:0" srcdoc="{page}"></iframe>
<script>document.querySelector("iframe").onload = function () {{
const root = this.contentDocument.documentElement;
console.log("needs " + root.scrollWidth + " " + root.scrollHeight) }}</script></body></html>
"""
HEIGHT = 9000


def browse(file, folder, stem):
    """Opens a page in each way: its console has to be empty, and its width that of the window."""
    with open(file, encoding="utf-8") as it:
        text = html.escape(it.read())
    for form, width, dark in (("desk", 1000, False), ("dark", 1000, True),
                              ("phone", 390, False), ("phone_dark", 390, True)):
        frame = os.path.join(folder, f"{stem}.{form}.html")
        with open(frame, "w", encoding="utf-8") as it:
            it.write(FRAME.format(width=width, height=HEIGHT, page=text))
        picture = os.path.join(folder, f"{stem}.{form}.png")
        words = [f"--screenshot={picture}", f"--window-size={max(width, 500)},{HEIGHT}"]
        said = chromium(frame, *words, *["--force-dark-mode"] * dark)
        os.remove(frame)
        want(f"{form}, console", len(said), 1)
        needs = re.search(r'"needs (\d+) (\d+)"', said[0])
        if int(needs[1]) > width:
            raise Differs(f"{form}: the page needs {needs[1]} pixels of {width}")
    printed = os.path.join(folder, f"{stem}.pdf")
    said = chromium(file, f"--print-to-pdf={printed}", "--no-pdf-header-footer")
    want("print, console", said, [])


def chromium(file, *words):
    """Opens a file, and returns the messages on its console."""
    fixed = ["--headless", "--no-sandbox", "--disable-gpu", "--enable-logging=stderr"]
    words = ["chromium", *fixed, *words, f"file://{os.path.abspath(file)}"]
    run = subprocess.run(words, capture_output=True, text=True, timeout=300)
    return [line for line in run.stderr.splitlines() if ":CONSOLE" in line]


def main():
    words = sys.argv[1:]
    program = os.path.abspath(words[0] if words else PROGRAM)
    if not is_there("page", program):
        return 0
    has_browser = shutil.which("chromium") is not None
    if not has_browser:
        print("bench/reach/run page: no chromium, no page is opened: apt-get install chromium")
    wrong, plants = 0, words[2:] or PLANTS
    with tempfile.TemporaryDirectory() as work:
        kept = words[1] if len(words) > 1 and words[1] != "-" else work
        os.makedirs(kept, exist_ok=True)
        for plant in plants:
            path = os.path.join(TOP, plant)
            name = os.path.splitext(os.path.basename(path))[0]
            name = os.path.basename(os.path.dirname(path)) if name == "plant" else name
            try:
                judge = Judge(program, path, work)
                shutil.copy(judge.file, os.path.join(kept, f"{name}.html"))
                count = judge.judge()
                if has_browser:
                    browse(judge.file, kept, name)
                print(f"{name}: {count} numbers are as they should be", flush=True)
            except Differs as what:
                wrong += 1
                print(f"{name}: DIFFERENT, {what}", flush=True)
    print("all as expected" if wrong == 0 else f"{wrong} of {len(plants)} differ")
    return 1 if wrong else 0
