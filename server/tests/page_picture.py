"""python3 server/tests/page_picture.py: draws `server/page.svg`, the page of locks that the first page shows.

It starts a server with three clients and a fault, asks for the page, and sets what is in the HTML as texts, by its table and in its
colours. How wide a text gets is reckoned for a broad font, so that no text covers another one. A test draws it anew, and compares the
words."""

import contextlib
import html.parser
import http.client
import os
import re
import time
import xml.sax.saxutils

from harness import PATIENCE, TOP, Server, granted, say

PICTURE = os.path.join(TOP, "server", "page.svg")
WIDTH, MARGIN, LINE, GAP, SIZE = 1100, 25, 22, 14, 15
COLOURS = {"free": "#777", "held": "#063", "before": "#a40", "down": "#b00"}
#: parts of the height of a letter
NARROW, BROAD, CAPITAL, OTHER = 0.36, 0.98, 0.68, 0.62


class Reader(html.parser.HTMLParser):
    """The heading, the paragraphs before and after the table, and its rows: of each cell its class, whether it is a head's, its lines."""

    def __init__(self):
        super().__init__()
        self.heading, self.above, self.below, self.rows, self.open = "", [], [], [], []

    def handle_starttag(self, tag, attrs):
        if tag == "br":
            self.rows[-1][-1][2].append("")
        elif tag != "meta":
            self.open.append(tag)
        if tag == "p":
            (self.below if self.rows else self.above).append("")
        if tag == "tr":
            self.rows.append([])
        if tag in ("td", "th"):
            self.rows[-1].append((dict(attrs).get("class", ""), tag == "th", [""]))

    def handle_endtag(self, tag):
        self.open.pop()

    def handle_data(self, data):
        if "h1" in self.open:
            self.heading += data
        elif "p" in self.open:
            (self.below if self.rows else self.above)[-1] += data
        elif "td" in self.open or "th" in self.open:
            self.rows[-1][-1][2][-1] += data


def width(text, is_bold=False):
    parts = sum(NARROW if it in "iljtfrI.,:;' ()" else BROAD if it in "mwMW" else CAPITAL if it.isupper() or it.isdigit() else OTHER
                for it in text)
    return parts * SIZE * (1.1 if is_bold else 1)


def wrapped(text, room):
    """The lines of a text, none of them wider than the room, if its words are not."""
    lines = [""]
    for word in text.split():
        if lines[-1] and width(f"{lines[-1]} {word}") > room:
            lines.append("")
        lines[-1] = f"{lines[-1]} {word}".strip()
    return lines


def set_text(x, y, text, *words):
    return f'<text x="{x:g}" y="{y:g}"{"".join(f" {it}" for it in words)}>{xml.sax.saxutils.escape(text)}</text>\n'


def set_cell(cell, left, right, y):
    name, is_head, lines = cell
    words = ['text-anchor="end"'] if name == "n" else []
    words += ['font-weight="bold"'] if is_head or name in ("held", "before") else []
    words += [f'fill="{COLOURS[name]}"'] if name in COLOURS else []
    return "".join(set_text(right - GAP if name == "n" else left, y + LINE * at, it, *words) for at, it in enumerate(lines) if it)


def set_table(rows, y):
    """The rows as texts with a line under each, and where they end."""
    columns = list(zip(*rows))
    wide = [max(width(it, cell[1] or cell[0] == "held") for cell in column for it in cell[2]) + GAP for column in columns[:-1]]
    lefts = [MARGIN + sum(wide[:at]) for at in range(len(columns))]
    drawn = ""
    for row in rows:
        name, is_head, lines = row[-1]
        last = (name, is_head, [it for line in lines for it in wrapped(line, WIDTH - MARGIN - lefts[-1])])
        for cell, left, right in zip([*row[:-1], last], lefts, [*lefts[1:], WIDTH - MARGIN]):
            drawn += set_cell(cell, left, right, y)
        y += LINE * max(len(cell[2]) for cell in [*row[:-1], last])
        drawn += f'<path d="M{MARGIN} {y - 11}H{WIDTH - MARGIN}" stroke="#ddd"/>\n'
        y += 10
    return drawn, y


def draw(page):
    """The picture of a page."""
    it = Reader()
    it.feed(page)
    it.close()
    drawn, y = set_text(MARGIN, 50, it.heading, 'font-size="28"', 'font-weight="bold"'), 90
    for line in [line for text in it.above for line in wrapped(text, WIDTH - 2 * MARGIN)]:
        drawn, y = drawn + set_text(MARGIN, y, line), y + LINE
    table, y = set_table(it.rows, y + 18)
    drawn, y = drawn + table, y + 14
    for line in [line for text in it.below for line in wrapped(text, WIDTH - 2 * MARGIN)]:
        drawn, y = drawn + set_text(MARGIN, y, line), y + LINE
    return (f'<svg xmlns="http://www.w3.org/2000/svg" viewBox="0 0 {WIDTH} {y}" font-family="sans-serif" font-size="{SIZE}" fill="#222">\n'
            f'<rect width="{WIDTH}" height="{y}" rx="8" fill="#fff"/>\n{drawn}</svg>\n')


def words_of(picture):
    """What is in a picture, without what is of the moment: times, sizes, numbers of clients."""
    text = " ".join(re.findall(r">([^<]*)</text>", picture))
    for form, word in ((r"\d+-\d+-\d+T[\d:]+Z", "MOMENT"), (r"\b\d+(\.\d+)? (ms|s|min)\b", "TIME"), (r"\b\d+ bytes", "BYTES"), (r"client \d+", "CLIENT")):
        text = re.sub(form, word, text)
    return text


def page_of_now(seconds):
    """The page of a server with three locks: one is held and waited for, for so many seconds, one is held, one had a fault."""
    with Server("--page", "127.0.0.1:0", locks="deploy,gpu/0,gpu/1") as server, contextlib.ExitStack() as stack:
        deploy, gpu, waiter = (stack.enter_context(server.raw()) for _ in range(3))
        for label in (3, 4):
            say(gpu, f"acquire gpu/1 {label}\n")
            say(gpu, f"release gpu/1 {label - 2}\n")
        say(deploy, "acquire gpu/1 5\n")
        say(waiter, "acquire gpu/1 6\n")
        time.sleep(seconds / 10)
        say(deploy, "release gpu/1 3\n")
        granted(waiter)
        say(waiter, "release gpu/1 4\n")
        server.operate("corrupt gpu/1 2 5")
        say(deploy, "acquire deploy 7\n")
        say(gpu, "acquire gpu/0 9\n")
        say(waiter, "acquire deploy 8\n")
        time.sleep(seconds)
        connection = http.client.HTTPConnection("127.0.0.1", server.port("page"), timeout=PATIENCE)
        connection.request("GET", "/")
        page = connection.getresponse().read().decode()
        connection.close()
        return page


if __name__ == "__main__":
    with open(PICTURE, "w", encoding="utf-8") as file:
        file.write(draw(page_of_now(2.5)))
