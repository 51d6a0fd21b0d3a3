#!/usr/bin/env python3
"""A model of what `ntpd rehearse N` prints, written from its description in docs/FORMATS.md alone, and a check of the built
program against it.

The line of the threads is counted from the draws, since plain rules serve every request. The line of the link is that of a
server with its client list, a link that draws what happens at each give, and a client that runs
`mrulist limit=32 frags=8` over it. Left out is what no printed number depends on: status words, epochs, the digits of a nonce
(here it is the moment at which it was made) and the offset of a fragment (here its number in the answer).

    check_rehearsals.py                 the built program prints the model's lines, for 24 numbers, and documents have them
    check_rehearsals.py [--trace] N ..  the model's lines for these numbers, with a line for each give and each silence
"""
import re
import subprocess
import sys
from collections import deque, namedtuple

WORD = (1 << 64) - 1
SECOND = 1 << 32
ORIGIN = 0x83AA7E80 << 32
CLIENTS = 600
MINDEPTH, MAXDEPTH, MINAGE, MAXAGE = 64, 512, 0, 3600 * SECOND
LIMIT, FRAGS = 32, 8
BODY = 468                  # octets of a frame's body
NONCE_LIFE = 16 * SECOND
TICK = 1 << 28              # growth of the link's moment at each give and take
DRAWN_GIVES = 400
REFUSED = "error 5"
NTPD = "crates/ntpd_serve/out/ntpd_serve"
DOCUMENTS = ["README.md", "docs/FORMATS.md", "man/ntpd.8"]

Row = namedtuple("Row", "client first last count")
Pair = namedtuple("Pair", "client last")
Page = namedtuple("Page", "nonce confirmed rows ended now")
Request = namedtuple("Request", "sequence nonce pairs")     # nonce None: asks for one
Gram = namedtuple("Gram", "sequence tag part parts answer")

class Draws:
    """The draws from a number on: each is the high 31 bits of the next state."""

    def __init__(self, x):
        self.x = x

    def below(self, n):
        self.x = (self.x * 6364136223846793005 + 1442695040888963407) & WORD
        return (self.x >> 33) % n

def threads_line(draws):
    kinds, clients = [], set()
    for _ in range(4096):
        client = draws.below(CLIENTS)
        kinds.append(draws.below(16))
        if kinds[-1] >= 2:
            clients.add(client)
    times = sum(kind >= 2 for kind in kinds)
    return (f"threads times {times} variables {kinds.count(1)} silent {kinds.count(0)} "
            f"clients {len(clients)}")

def address(client):
    return f"10.0.{client // 256}.{client % 256}:123"

def stamp_text(stamp):
    time = (stamp + ORIGIN) & WORD
    return f"0x{time >> 32:08x}.{time & 0xffffffff:08x}"

def page_items(page, newest):
    """The items of a page in order, with a blank nonce of the true length."""
    items = ["nonce=" + 24 * "0"]
    if page.confirmed:
        items += ["addr.older=" + address(page.confirmed.client),
                  "last.older=" + stamp_text(page.confirmed.last)]
    for n, row in enumerate(page.rows):
        items += [f"addr.{n}={address(row.client)}", f"last.{n}={stamp_text(row.last)}",
                  f"first.{n}={stamp_text(row.first)}", f"ct.{n}={row.count}",
                  f"mv.{n}={3 + 8 * 4}", f"rs.{n}=0x0"]
    if page.ended:
        items += ["now=" + stamp_text(page.now), "last.newest=" + stamp_text(newest)]
    return items

def datagrams(items):
    """The number of datagrams into which the items are cut."""
    if sum(len(item) + 2 for item in items) <= BODY:    # ", " between them, CR LF behind
        return 1
    tag = len("resp=0x") + 16
    count, used = 1, tag
    for item in items:
        if used + 2 + len(item) + 3 > BODY:
            count, used = count + 1, tag
        used += 2 + len(item)
    return count

def named_pairs(trail):
    """The trail's newest pairs, newest first, at most 16 and as the body has room."""
    used = len(f"nonce={24 * '0'}, frags={FRAGS}, limit={LIMIT}")
    pairs = []
    for k, pair in enumerate(reversed(trail[-16:])):
        used += len(f", addr.{k}={address(pair.client)}, last.{k}={stamp_text(pair.last)}")
        if used > BODY:
            break
        pairs.append(pair)
    return pairs

class Server:
    """The client list (a dict, oldest row first) and its stamp."""

    def __init__(self):
        self.rows, self.stamp = {}, 0

    def next_stamp(self, moment):
        self.stamp = max(moment, self.stamp + 1)
        return self.stamp

    def oldest(self):
        return next(iter(self.rows.values()))

    def arrive(self, client, moment):
        stamp = self.next_stamp(moment)
        old = self.rows.pop(client, None)
        if old:
            self.rows[client] = Row(client, old.first, stamp, old.count + 1)
        elif self.admits(stamp):
            self.rows[client] = Row(client, stamp, stamp, 1)

    def admits(self, stamp):
        """Whether a client that is new to the list gets a row; the oldest row may make room here."""
        if len(self.rows) < MINDEPTH:
            return True
        age, full = stamp - self.oldest().last, len(self.rows) >= MAXDEPTH
        if age >= MAXAGE or (full and age >= MINAGE):
            del self.rows[self.oldest().client]
            return True
        return not full

    def sweep(self, moment):
        while len(self.rows) > MINDEPTH and moment - self.oldest().last >= MAXAGE:
            del self.rows[self.oldest().client]

    def read(self, pairs, moment):
        """A page and its number of datagrams, or error 5. Only a page draws a stamp."""
        lasts = {row.client: row.last for row in self.rows.values()}
        standing = [pair for pair in pairs if lasts.get(pair.client) == pair.last]
        if pairs and not standing:
            return REFUSED, 1
        confirmed = standing[0] if pairs else None
        rows = [row for row in self.rows.values() if not pairs or row.last > confirmed.last]
        newest = max(lasts.values())
        now = self.next_stamp(moment)
        for n in range(min(LIMIT, len(rows)), -1, -1):
            page = Page(moment, confirmed, rows[:n], n == len(rows), now)
            count = datagrams(page_items(page, newest))
            if count <= FRAGS:
                return page, count

class Link:
    """Server and queue of datagrams; draws what happens at each of the first 400 gives."""

    def __init__(self, draws, trace):
        self.draws, self.trace, self.server = draws, trace, Server()
        self.queue, self.given = deque(), 0
        self.moment = (CLIENTS + 1) * SECOND
        for client in range(CLIENTS):
            self.server.arrive(client, (client + 1) * SECOND)

    def give(self, request):
        self.given += 1
        drawn, draw = self.given <= DRAWN_GIVES, self.draws.below
        arrivals, swept, published, served = [], False, False, 1
        if drawn:
            arrivals = [draw(CLIENTS) for _ in range(draw(8))]
            swept = draw(16) == 0
            published = draw(16) == 0       # shows in no printed number
            served = {0: 0, 1: 2}.get(draw(16), 1)
        for client in arrivals:
            self.server.arrive(client, self.moment)
        if swept:
            self.server.sweep(self.moment)
        answers = [self.serve(request) for _ in range(served)]
        fates = []
        for answer, parts in answers:
            for part in range(parts):
                fates.append(draw(16) if drawn else 3)
                tag = answer.now if isinstance(answer, Page) else None
                self.put(Gram(request.sequence, tag, part, parts, answer), fates[-1])
        if self.trace:
            show_give(self.given, arrivals, swept, published, request, answers, fates)
        self.moment += TICK

    def serve(self, request):
        """The answer to a request and its number of datagrams."""
        if request.nonce is None:
            return self.moment, 1
        if not 0 <= self.moment - request.nonce <= NONCE_LIFE:
            return None, 0
        return self.server.read(request.pairs, self.moment)

    def put(self, gram, fate):
        """0 lost, 1 twice at the end, 2 at the front, others at the end."""
        if fate == 2:
            self.queue.appendleft(gram)
        elif fate != 0:
            self.queue.extend([gram] * (2 if fate == 1 else 1))

    def take(self):
        self.moment += TICK
        return self.queue.popleft() if self.queue else None

def show_give(number, arrivals, swept, published, request, answers, fates):
    kind = "nonce" if request.nonce is None else f"read with {len(request.pairs)} pairs"
    texts = []
    for answer, _ in answers:
        texts.append(f"page with {len(answer.rows)} rows{' ended' * answer.ended}"
                     if isinstance(answer, Page) else "nonce" if isinstance(answer, int)
                     else answer or "none")
    print(f"give {number} arrivals {arrivals} swept {swept:d} published {published:d} "
          f"served {len(answers)} datagrams {len(fates)} fates {fates} request {kind}: "
          f"{', '.join(texts) or 'none'}")

class Ended(Exception):
    """The run ended without completing; its argument is ntpq's status."""

class Run:
    """The mrulist run: the client, the table of rows and the trail of pairs."""

    def __init__(self, link):
        self.link, self.table, self.trail = link, {}, []
        self.posted = self.unused = self.quiets = self.pages = self.refused = 0

    def ask(self, nonce=None, pairs=()):
        """Posts one request; its whole answer, error 5, or None after a Quiet."""
        if self.posted == 60000:
            raise Ended(6)
        self.posted += 1
        self.link.give(Request(self.posted, nonce, pairs))
        held = {}               # tag -> parts
        while True:
            gram = self.link.take()
            if gram is None:
                self.quiets += 1
                if self.link.trace:
                    print(f"quiet {self.quiets} in a row")
                if self.quiets == 5:
                    raise Ended(4)
                return None
            if gram.sequence != self.posted or gram.part in held.get(gram.tag, ()):
                self.unused += 1
                if self.unused == 1000000:
                    raise Ended(10)
                continue
            self.quiets = 0
            held.setdefault(gram.tag, set()).add(gram.part)
            if len(held[gram.tag]) == gram.parts:
                return gram.answer

    def complete(self):
        """Runs up to the page that ends the list."""
        nonce = None
        while True:
            if nonce is None:
                nonce = self.ask()
                continue
            pairs = named_pairs(self.trail)
            answer = self.ask(nonce, pairs)
            if answer is None:
                nonce = None
            elif answer == REFUSED:     # never without pairs
                self.refused += 1
                del self.trail[-len(pairs):]
            else:
                self.accept(answer)
                nonce = answer.nonce
                if answer.ended:
                    return

    def accept(self, page):
        self.pages += 1
        while page.confirmed and self.trail[-1] != page.confirmed:
            self.trail.pop()
        for row in page.rows:
            self.table.pop(row.client, None)
            self.table[row.client] = row
            self.trail.append(Pair(row.client, row.last))

def rehearsal(number, trace=False):
    """What is printed of a number."""
    draws = Draws(number)
    lines = [f"rehearsal {number}", threads_line(draws)]
    run = Run(Link(draws, trace))               # draws on, as the thread part left it
    try:
        run.complete()
    except Ended as fault:
        lines.append(f"link ended {fault.args[0]}")
    else:
        lines.append(f"link requests {run.link.given} pages {run.pages} "
                     f"refused {run.refused} rows {len(run.table)}")
    return "\n".join(lines) + "\n"

def check_documents():
    """How many examples of the documents are not the model's, or 1 where a document has none."""
    bad = 0
    for name in DOCUMENTS:
        with open(name, encoding="utf-8") as document:
            examples = re.findall(r"^\$ ntpd rehearse (\d+)\n((?:rehearsal|threads|link) (?:.*\n)+?)(?:```|\.Ed)",
                                  document.read(), re.MULTILINE)
        wrong = [number for number, text in examples if text != rehearsal(int(number))]
        if wrong or not examples:
            bad += 1
            print(f"rehearsals: {name}: {', '.join(wrong) or 'no example'}")
    return bad

def check_program():
    """How many numbers the built program does not print as the model does."""
    bad = 0
    for number in [*range(20), 677, 988, 1 << 32, WORD]:
        it = subprocess.run([NTPD, "rehearse", str(number)], capture_output=True, text=True, timeout=60)
        if (it.returncode, it.stdout) != (0, rehearsal(number)):
            bad += 1
            print(f"rehearsals: {number}: status {it.returncode}\n{it.stdout}the model:\n{rehearsal(number)}", end="")
    return bad

if __name__ == "__main__":
    numbers = [int(word) for word in sys.argv[1:] if word != "--trace"]
    for number in numbers:
        print(rehearsal(number, "--trace" in sys.argv), end="")
    if not numbers:
        sys.exit(1 if check_program() + check_documents() else 0)
