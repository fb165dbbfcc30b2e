"""What a page of `airdv serve` has to be, as bin/tries-page holds it against the JSON of the same question: its lines of a
head, its title, its tables, and its links. The rules are written here by hand, and read nothing of the program's sources."""

import dataclasses
import datetime
import html.parser
import re
from typing import Optional

PAGE = "/page"
MEDIA = "text/html; charset=utf-8"
POLICY = "default-src 'none'; style-src 'unsafe-inline'; frame-ancestors 'none'; form-action 'none'; base-uri 'none'"

# The first year of a question, the first one with a standard, and the last one of each.
FIRST_YEAR, FIRST_END_YEAR, LAST_YEAR = 1990, 1992, 2059
OZONE, PM25, PM10 = "44201", "88101", "81102"
PARAMETER_OF = {"O3-2015": OZONE, "PM25-ANNUAL-2012": PM25, "PM25-ANNUAL-SECONDARY": PM25, "PM25-ANNUAL-2024": PM25, "PM25-24H-2006": PM25,
                "PM10-24H-1987": PM10}

SPELLING = {"standard": r"[A-Z0-9-]+", "site": r"\d\d-\d{3}-\d{4}", "parameter": r"\d{5}", "year": r"\d{4}", "day": r"\d{4}-\d\d-\d\d",
            "number": r"\d+", "list": r"[0-9YN,]+", "area": r"[\d,-]+"}
SERIES = "{site}/{parameter}/{year}"
VALUE = "{standard}/{site}/{year}"
# The path of each question that has a page.
PATHS = {
    "dv": f"/dv/{VALUE}", "report": "/report/{standard}/{year}", "whatif": f"/whatif/{VALUE}/{{list}}", "decisive": f"/decisive/{VALUE}",
    "combined": f"/combined/{VALUE}", "area": "/area/{standard}/{area}/{year}", "reply": "/loads/{number}", "windows": "/ozone/{site}/windows/{day}",
    "days": "/ozone/{site}/days/{year}", "pm25": "/pm25/{site}/quarters/{year}", "pm10": "/pm10/{site}/quarters/{year}", "sites": "/sites",
    "monitors": "/monitors/{site}", "events": "/events/{site}", "flags": f"/flags/{SERIES}", "loads": "/loads", "daily": f"/daily/{SERIES}",
    "highest": f"/highest/{SERIES}", "completeness": f"/completeness/{SERIES}", "reports": "/reports/{year}",
}
EXPORT = f"/export/{SERIES}"
FORMS = {kind: re.compile(re.sub(r"\{(\w+)\}", lambda part: f"(?P<{part[1]}>{SPELLING[part[1]]})", path)) for kind, path in PATHS.items()}

OF_A_YEAR = "site year"
OF_A_SERIES = "site parameter year"
OF_A_VALUE = "standard site year"
DAYS_HEADS = f"{OF_A_YEAR} season_first season_last season_days season_valid fourth"
# The names of the heads of each sheet, in their order.
HEADS = {
    "dv": [f"{OF_A_VALUE} value test verdict"], "report": ["standard year"], "whatif": [f"{OF_A_VALUE} value test verdict"],
    "decisive": [f"{OF_A_VALUE} verdict"], "combined": [f"{OF_A_VALUE} value test verdict"],
    "area": ["standard year verdict governing value met", "standard year"], "reply": ["load lines accepted refused"], "windows": ["site day"],
    "days": [DAYS_HEADS], "pm25": [f"{OF_A_YEAR} counted rank percentile mean"], "pm10": [f"{OF_A_YEAR} estimate"], "sites": ["sites"],
    "monitors": ["site"], "events": ["site"], "flags": [OF_A_SERIES], "loads": ["loads"], "daily": [OF_A_SERIES],
    "highest": [f"{OF_A_SERIES} ranked decides"], "completeness": [OF_A_SERIES], "reports": ["standard year"] * 6,
}

# What no page has: what runs, fetches, posts or shows something of elsewhere.
NEVER = {"script", "link", "base", "img", "iframe", "frame", "frameset", "object", "embed", "applet", "audio", "video", "source", "track", "image",
         "use", "form", "input", "button", "select", "textarea", "portal", "foreignobject", "animate", "set"}
NEVER_NAMED = {"src", "srcset", "data", "action", "formaction", "background", "poster", "ping", "xlink:href", "srcdoc"}


@dataclasses.dataclass
class Stands:
    """What stands in an office: how many loads and observations, and the year of the last observation, if there is one."""

    loads: int
    observations: int
    last_year: Optional[int]


def stands(answer):
    """What stands, by the answers to questions: `answer` gives the JSON of a path."""
    monitors = [monitor for site in rows(answer("/sites")) for monitor in rows(answer(f"/monitors/{site['site']}"))]
    last = max((it["last"] for it in monitors if it["last"]), default=None)
    return Stands(answer("/loads")["loads"], sum(it["observations"] for it in monitors), last and int(last[:4]))


def rows(sheet):
    """The rows of a sheet, each by the names of its columns."""
    return [dict(zip(sheet["columns"], row)) for row in sheet["rows"]]


# ---- paths

def path_of(page):
    """The path of the question that a page answers."""
    path = page.partition("?")[0]
    return "/sites" if path == "/" else path.removeprefix(PAGE)


def asked_in(page):
    """The kind of the question that a page answers, and the parts of its path."""
    return next(((kind, found.groupdict()) for kind, form in FORMS.items() if (found := form.fullmatch(path_of(page)))), None)


def page_of(kind, **parts):
    return PAGE + PATHS[kind].format(**parts)


# ---- links

def links_of_reports(parts, office):
    """The six reports: of the year of the path or of its day, else of that of the last observation. There is none before 1992."""
    year = int(parts.get("year") or parts.get("day", "0")[:4])
    year = year if year >= FIRST_END_YEAR else office.last_year or 0
    return {page_of("report", standard=standard, year=year) for standard in PARAMETER_OF} if year >= FIRST_END_YEAR else set()


def links_to_years(kind, parts):
    """The year before and the year after, inside the range."""
    if "year" not in parts:
        return set()
    first = FIRST_END_YEAR if "standard" in parts or kind == "reports" else FIRST_YEAR
    year = int(parts["year"])
    return {page_of(kind, **{**parts, "year": it}) for it in (year - 1, year + 1) if first <= it <= LAST_YEAR}


def of_sites(parts, sheets):
    return {page_of("loads"), *(page_of("monitors", site=row["site"]) for row in rows(sheets[0]))}


def of_monitors(parts, sheets):
    """The events, and what each parameter with observations has in the year of its last one."""
    last, site = {}, parts["site"]
    for row in rows(sheets[0]):
        if row["observations"]:
            last[row["parameter"]] = max(last.get(row["parameter"], 0), int(row["last"][:4]))
    found = {page_of("events", site=site)}
    for parameter, year in last.items():
        found |= {page_of(kind, site=site, parameter=parameter, year=year) for kind in ("daily", "highest", "completeness", "flags")}
        found.add(page_of({OZONE: "days", PM25: "pm25", PM10: "pm10"}[parameter], site=site, year=year))
        if year >= FIRST_END_YEAR:
            found |= {page_of("dv", standard=standard, site=site, year=year) for standard, of in PARAMETER_OF.items() if of == parameter}
    return found


def of_value(parts, sheets):
    """What decides, and the highest days of each of its years."""
    parameter, year = PARAMETER_OF[parts["standard"]], int(parts["year"])
    highest = {page_of("highest", site=parts["site"], parameter=parameter, year=it) for it in range(year - 2, year + 1)}
    return {page_of("decisive", standard=parts["standard"], site=parts["site"], year=year), *highest}


def of_highest(parts, sheets):
    return {page_of("windows", site=parts["site"], day=row["day"]) for row in rows(sheets[0])} if parts["parameter"] == OZONE else set()


def of_windows(parts, sheets):
    """The day before and the day after, inside the range, and the days of the year."""
    day, site = datetime.date.fromisoformat(parts["day"]), parts["site"]
    beside = [day + datetime.timedelta(days=it) for it in (-1, 1)]
    return {page_of("days", site=site, year=day.year),
            *(page_of("windows", site=site, day=it) for it in beside if FIRST_YEAR <= it.year <= LAST_YEAR)}


def of_daily(parts, sheets):
    """The observations as CSV, which is no page."""
    return {EXPORT.format(**parts)}


def of_report(parts, sheets):
    return {page_of("dv", standard=sheet["standard"], site=row["site"], year=sheet["year"]) for sheet in sheets for row in rows(sheet)}


def of_loads(parts, sheets):
    return {page_of("reply", number=row["load"]) for row in rows(sheets[0])}


LINKS = {"sites": of_sites, "monitors": of_monitors, "dv": of_value, "highest": of_highest, "windows": of_windows, "daily": of_daily,
         "report": of_report, "loads": of_loads}
# Of these no rule says whether they have such links too.
OPEN = {"whatif": of_value, "combined": of_value, "reports": of_report}


def links(kind, parts, sheets, office):
    """The links that a page has to have, and those that it may have beside them."""
    wanted = {"/"} | links_of_reports(parts, office) | links_to_years(kind, parts)
    return (wanted | LINKS[kind](parts, sheets) if kind in LINKS else wanted), OPEN[kind](parts, sheets) if kind in OPEN else set()


# ---- pages

def words(text):
    return " ".join(text.split())


class Section:
    """A section of a page: its head, its tables, its words, and what is drawn in each picture."""

    def __init__(self):
        self.head, self.tables, self.words, self.drawn = "", [], [], []


class Page(html.parser.HTMLParser):
    """What stands on a page."""

    def __init__(self, text):
        super().__init__()
        self.text, self.open = text, []
        self.title, self.heads, self.sections, self.links, self.paragraphs, self.never = "", [], [], [], [], []
        self.language, self.tags, self.has_columns, self.group = None, set(), [], ""
        # The tags that are closed where they are not open, or not closed at all.
        self.torn = []
        self.feed(text)
        self.close()
        self.torn += [tag for tag, _ in self.open]

    def handle_starttag(self, tag, attributes):
        named = dict(attributes)
        self.tags.add(tag)
        self.look_at(tag, named)
        if tag == "html":
            self.language = named.get("lang")
        elif tag == "h1":
            self.heads.append("")
        elif tag == "section":
            self.sections.append(Section())
        elif tag == "a":
            self.links.append([named.get("href"), ""])
        elif tag == "p":
            self.paragraphs.append("")
            if named.get("class") == "words" and self.sections:
                self.sections[-1].words.append("")
        elif tag == "g":
            self.group = named.get("class")
        if self.sections:
            self.handle_inside(tag, named, self.sections[-1])
        if tag not in ("meta", "br", "hr"):
            self.open.append((tag, named.get("class")))

    def handle_inside(self, tag, named, section):
        if tag == "table":
            section.tables.append([])
        elif tag == "tr":
            section.tables[-1].append([])
        elif tag in ("td", "th"):
            section.tables[-1][-1].append("")
            if tag == "th":
                self.has_columns.append(named.get("scope") == "col")
        elif tag == "svg" and "class" not in named:
            section.drawn.append(0)
        elif section.drawn and not self.is_in("pattern") and (
                tag == "rect" or tag == "circle" and "class" not in named or tag == "path" and named.get("d", "").startswith(" M")
                or tag == "line" and self.group == "days"):
            section.drawn[-1] += 1

    def handle_startendtag(self, tag, attributes):
        self.handle_starttag(tag, attributes)
        if tag not in ("meta", "br", "hr"):
            self.open.pop()

    def handle_endtag(self, tag):
        if not self.open or self.open[-1][0] != tag:
            self.torn.append(tag)
        while self.open and self.open.pop()[0] != tag:
            pass

    def handle_data(self, data):
        if self.is_in("title"):
            self.title += data
        elif self.is_in("h1"):
            self.heads[-1] += data
        if self.is_in("a"):
            self.links[-1][1] += data
        if self.is_in("p"):
            self.paragraphs[-1] += data
        if not self.sections or not self.is_in("section"):
            return
        section = self.sections[-1]
        if self.is_in("h2"):
            section.head += data
        elif self.is_in("td") or self.is_in("th"):
            section.tables[-1][-1][-1] += data
        elif ("p", "words") in self.open:
            section.words[-1] += data

    def is_in(self, tag):
        return any(name == tag for name, _ in self.open)

    def look_at(self, tag, named):
        """Notes what no page has."""
        if tag in NEVER:
            self.never.append(f"<{tag}>")
        self.never += [f"{tag} {name}" for name in named if name.startswith("on") or name in NEVER_NAMED]
        if "href" in named and (tag != "a" or not re.fullmatch(r"/([^/\\].*)?", named["href"] or "")):
            self.never.append(f"{tag} href={named['href']}")
        if tag == "meta" and (named.get("http-equiv") or "").lower() not in ("", "content-security-policy"):
            self.never.append(f"meta {named}")


def wrong_round(page):
    """What is wrong with a page, whatever it answers."""
    wrong = []
    if not page.text.startswith("<!DOCTYPE html>") or not page.language:
        wrong.append("it is no page with a language")
    if len(page.heads) != 1 or words(page.title) != f"airdv \u00b7 {words(page.heads[0])}":
        wrong.append(f"the title is {page.title!r} and the heads are {page.heads}")
    if page.never or re.search(r"url\((?!#)|@import", page.text):
        wrong.append(f"it has {page.never or 'a style of elsewhere'}")
    if page.torn:
        wrong.append(f"its tags do not close: {page.torn[:5]}")
    if any(not words(label) for _, label in page.links):
        wrong.append("a link has no words")
    return wrong


def text_of(cell):
    return "-" if cell is None else str(cell)


def wrong_sheet(section, sheet, names, is_one_of_several):
    """What differs between a section and its sheet. It has a head of its own if there are several."""
    wrong = []
    wanted = [[name, text_of(sheet[name])] for name in names if name in sheet]
    if {*names} != {*sheet} - {"columns", "rows"}:
        wrong.append(f"the sheet has the heads {sorted({*sheet} - {'columns', 'rows'})}")
    found = section.tables[0] if section.tables else None
    if found != wanted:
        wrong.append(f"the heads are {found}, not {wanted}")
    wanted = [sheet["columns"], *([text_of(cell) for cell in row] for row in sheet["rows"])]
    found = section.tables[1] if len(section.tables) == 2 else []
    if found != wanted:
        at = next((place for place, (one, other) in enumerate(zip(found, wanted)) if one != other), min(len(found), len(wanted)))
        wrong.append(f"there are {len(section.tables)} tables, {len(found)} lines and not {len(wanted)}; line {at} is {found[at:at + 1]}, not {wanted[at:at + 1]}")
    if bool(words(section.head)) != is_one_of_several:
        wrong.append(f"the head of a section is {section.head!r}")
    if not section.words or not all(map(words, section.words)):
        wrong.append("no words say what the columns mean")
    if 0 in section.drawn:
        wrong.append("a picture is empty")
    return wrong


def wrong_words(page, kind, parts, office):
    """What the title does not say of the path, and no line of what stands."""
    wrong, title = [], page.title
    named = [parts[name] for name in ("site", "year", "number") if name in parts] + [parts["day"][:4] for _ in "d" if "day" in parts]
    named += parts["area"].split(",") if "area" in parts else []
    named += ["not what stands", *(it[:-1] for it in parts["list"].split(","))] if "list" in parts else []
    missing = [it for it in named if it not in title]
    if missing:
        wrong.append(f"the title {title!r} says nothing of {missing}")
    stand = {office.loads, office.observations}
    if not any(stand <= {int(it.replace(",", "")) for it in re.findall(r"\d[\d,]*", told)} for told in page.paragraphs):
        wrong.append(f"no line says that {office.loads} loads and {office.observations} observations stand; the last is {page.paragraphs[-1:]}")
    return wrong


def wrong_links(page, kind, parts, sheets, office):
    found = {link for link, _ in page.links}
    wanted, beside = links(kind, parts, sheets, office)
    wrong = [f"no link to {sorted(wanted - found)[:5]}"] if wanted - found else []
    return wrong + ([f"a link to {sorted(found - wanted - beside)[:5]}"] if found - wanted - beside else [])


def wrong_page(page, kind, parts, sheets, office):
    """All that is wrong with the page of an answer, whose sheets are these."""
    names = [DAYS_HEADS] if kind == "daily" and parts["parameter"] == OZONE else HEADS[kind]
    wrong = wrong_round(page)
    if not len(page.sections) == len(sheets) == len(names):
        return [*wrong, f"there are {len(page.sections)} sections for {len(sheets)} sheets"]
    for section, sheet, heads in zip(page.sections, sheets, names):
        wrong += wrong_sheet(section, sheet, heads.split(), len(sheets) > 1)
    if not all(page.has_columns):
        wrong.append("a name of a column has no scope")
    return wrong + wrong_words(page, kind, parts, office) + wrong_links(page, kind, parts, sheets, office)


def wrong_small(page, message=""):
    """What is wrong with the page of an error."""
    wrong = wrong_round(page)
    if message and message not in words(page.text):
        wrong.append(f"it does not say {message}")
    if "/" not in {link for link, _ in page.links}:
        wrong.append("no link leads to the sites")
    return wrong


# ---- replies

PHRASES = {200: "OK", 400: "Bad Request", 404: "Not Found", 405: "Method Not Allowed"}


def head_of(status, body, allow="", close=False):
    """The lines before a page, in their order."""
    return [f"HTTP/1.1 {status} {PHRASES[status]}", f"Content-Type: {MEDIA}", f"Content-Security-Policy: {POLICY}",
            "X-Content-Type-Options: nosniff", f"Content-Length: {len(body)}", *([f"Allow: {allow}"] if allow else []),
            *(["Connection: close"] if close else [])]


def parted(reply):
    """The lines of a head, and the body."""
    head, _, body = reply.partition(b"\r\n\r\n")
    return head.decode("latin-1").split("\r\n"), body


def wrong_head(reply, status, allow="", close=False):
    head, body = parted(reply)
    wanted = head_of(status, body, allow, close)
    return [f"the head is {head}, not {wanted}"] if head != wanted else []
