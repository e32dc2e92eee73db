"""What the page of `page` must be, whatever stands in the messages: whole markup of few elements, with no script and nothing that is
fetched from elsewhere, and all else as text; each message of the file in one row, and each account in one. By docs/ alone, with no look
into the program's code."""
import html.parser

from inputs import cut

ELEMENTS = set("html head meta title style body main header footer nav section h1 h2 h3 h4 p br hr div span ul ol li dl dt dd".split())
ELEMENTS |= set("table caption colgroup col thead tbody tfoot tr th td strong em b i small abbr meter progress details summary time".split())
EMPTY = {"meta", "br", "hr", "col"}
ATTRIBUTES = set("lang charset name content class id style colspan rowspan scope title min max low high optimum value datetime".split())


class Page(html.parser.HTMLParser):
    """Walks over a page, and notes what must not be in it."""

    def __init__(self):
        super().__init__(convert_charrefs=True)
        self.open, self.wrong, self.tables = [], [], []

    def note(self, what):
        self.wrong.append(what[:100])

    def handle_starttag(self, tag, attrs):
        if tag not in ELEMENTS:
            self.note(f"an element {tag}")
        for name, value in attrs:
            if name not in ATTRIBUTES and not (name == "href" and (value or "").startswith("#")):
                self.note(f"an attribute {name} of {tag}")
            if "url(" in (value or ""):
                self.note("something that is fetched")
        if tag not in EMPTY:
            self.open.append(tag)
        if tag == "table":
            self.tables.append([])
        elif tag == "tr" and self.tables:
            self.tables[-1].append([])
        elif tag in ("th", "td") and self.tables and self.tables[-1]:
            self.tables[-1][-1].append("")

    def handle_endtag(self, tag):
        if not self.open or self.open.pop() != tag:
            self.note(f"an end of {tag} that closes nothing")

    def handle_comment(self, data):
        self.note("a comment")

    def handle_pi(self, data):
        self.note("an instruction")

    def unknown_decl(self, data):
        self.note("a declaration")

    def handle_data(self, data):
        if "style" in self.open and ("@import" in data or "url(" in data):
            self.note("a style that is fetched")
        if {"th", "td"} & set(self.open) and self.tables and self.tables[-1] and self.tables[-1][-1]:
            self.tables[-1][-1][-1] += data

    def column(self, title, other):
        """What all tables with columns of these titles have in the first of them."""
        tables = [it for it in self.tables if it and title in it[0] and other in it[0]]
        return [row[it[0].index(title)] for it in tables for row in it[1:]]


def wrong(run, journal):
    """What is wrong with the page that was printed."""
    if any(it > 126 or it < 32 and it not in (9, 10, 13) for it in run.out):
        yield "bytes that are no plain text"
    page = Page()
    page.feed(run.out.decode("latin-1"))
    page.close()
    yield from page.wrong[:5]
    if page.open:
        yield f"{page.open[-1]} isn't closed"
    if not run.out[:15].lower().startswith(b"<!doctype html>"):
        yield "no page of HTML"
    messages, _ = cut(run.before["messages.fin"])
    # what to look twice at names messages once more, with neither what came of them nor a code
    if sorted(map(int, page.column("No", "Code") + page.column("No", "What"))) != list(range(1, len(messages) + 1)):
        yield "not each message stands in one row"
    if sorted(page.column("Account", "Ceiling")) != sorted(it.ident.decode() for it in journal.accounts):
        yield "not each account stands in one row"
