"""Draws a run as an SVG: a column for each site, time downward, a band for each step. Plain Python, no packages.

Every text stands in a cell of its own: a box of a site, the left side (steps and items) or the right side (what clients are
told). Arrows run only in the gaps between rows and in the channels between columns, so none crosses a box."""
import re
from xml.sax.saxutils import escape

import traces

SIZE = 11  # of the letters
WIDE = 6.65  # of one letter, in a monospaced font
LINE = 14
LEFT, RIGHT = 196, 282
BOX, CHANNEL = 270, 30
PITCH = BOX + CHANNEL
PAD = 6
GAP, NO_GAP = 34, 10
TOP = 62
MOST_LINES = 9

INK, FAINT, PAPER = "#1f2430", "#8b93a5", "#ffffff"
# fill, border and ink of a box or a line, by its meaning
LOOKS = {
    "plain": ("#f7f8fa", "#c5cad6", INK),
    "vote": ("#dbe9ff", "#5b8def", "#123a80"),
    "join": ("#eee4fb", "#9a6fd0", "#4b2380"),
    "attempt commit": ("#e3f6e3", "#7cc47c", "#1d5a1d"),
    "attempt abort": ("#ffe9dc", "#eb9a6a", "#8a3a0c"),
    "decision commit": ("#1f8a3b", "#14692a", "#ffffff"),
    "decision abort": ("#c62f3a", "#96202a", "#ffffff"),
    "log": ("#eceef3", "#c5cad6", INK),
    "doubt": ("#fff6d6", "#d9b23c", "#6b5200"),
    "down": ("#3b3f4a", "#1f2430", "#ffffff"),
    "up": ("#d5f0ef", "#3aa6a0", "#0d4f4b"),
    "lost": ("#ffe1e4", "#d0303c", "#8f1620"),
    "split": ("#fdebd0", "#c97a10", "#7a4700"),
    "dropped": ("#e4e6eb", "#7b8394", "#3b3f4a"),
    "wait": ("#ffefc2", "#e0a100", "#6b4c00"),
    "twice": ("#eef3c9", "#9aa52f", "#4a5208"),
}
# what the legend says of them
LEGEND = (
    ("vote", "vote"), ("joins an election", "join"), ("attempt to commit", "attempt commit"), ("attempt to abort", "attempt abort"), ("commits", "decision commit"), ("aborts", "decision abort"),
    ("falls or is cut", "down"), ("rises", "up"), ("armed, in doubt, or open", "doubt"), ("waits for a lock", "wait"), ("comes twice", "twice"), ("lost", "lost"), ("cut off by a split, or blocks", "split"), ("dropped at a site that is down", "dropped"),
)
PARTS = ("#eaf2ff", "#fff0e2", "#eefbe9", "#f6ecfb", "#fffbe0", "#e8fafa")


def wrapped(text, width):
    """The lines of a text, of at most so many letters each."""
    lines, left = [], text
    while len(left) > width:
        cut = left.rfind(" ", 0, width + 1)
        cut = cut if cut > width // 3 else width
        lines.append(left[:cut].rstrip())
        left = "  " + left[cut:].lstrip()
    return lines + [left]


class Cell:
    """What happens at a site in one go: lines, each with its look, and the packets that leave."""

    def __init__(self, site, step, entry=None, look="plain"):
        self.site, self.step, self.entry, self.look = site, step, entry, look
        self.lines, self.told, self.sent, self.raw = [], [], [], []
        self.row = self.top = 0

    def say(self, text, look=None, width=int((BOX - 2 * PAD) / WIDE)):
        self.lines += [(it, look) for it in wrapped(text, width)]

    def height(self):
        return len(self.lines) * LINE + 2 * PAD - 2


class Arrow:
    def __init__(self, packet, start, end, is_again=False):
        self.packet, self.start, self.end, self.is_again = packet, start, end, is_again


class Band:
    """A step: its rows of cells, and the texts on its left."""

    def __init__(self, step, title):
        self.step, self.title, self.left, self.rows, self.parts = step, title, [], [], []


def _record_lines(cell, run, records, in_doubt):
    """The records of a step, a vote's operations behind it."""
    operations = 0
    for it in records:
        verb, _, left = it.partition(" ")
        words = left.split(" ")
        mark = "in doubt: " if in_doubt else "log: "
        if verb in ("read", "write", "row"):
            operations += 1
            if operations <= MOST_LINES - 4:
                cell.say(f"  {verb} {left if verb == 'row' else ' '.join(words[1:])}", "doubt" if in_doubt else "vote" if verb != "row" else "log")
            elif operations == MOST_LINES - 3:
                cell.say("  and more", "doubt" if in_doubt else "log")
            continue
        operations = 0
        name = traces.name_of(run, words[0])
        said, look = {
            "birth": lambda: (f"birth, weights {words[1]}", "log"),
            "inc": lambda: (f"incarnation {words[0]}", "log"),
            "vote": lambda: (f"votes yes on {name}", "vote"),
            "join": lambda: (f"joins election {words[1]} of {name}", "join"),
            "attempt": lambda: (f"attempt {words[1]} to {words[2]} {name}", f"attempt {words[2]}"),
            "decision": lambda: (f"{words[1]}s {name}", f"decision {words[1]}"),
        }[verb]()
        cell.say(mark + said, "doubt" if in_doubt else look)


class Story:
    """A run as bands of cells, and the arrows between them."""

    def __init__(self, run, first, last):
        self.run, self.first, self.last = run, first, last
        self.bands, self.arrows, self.waits = [], [], []
        self.doubt, self.waiting, self.state, self.counts = {}, {}, {}, {}
        self.sender_cells, self.cell_of = {}, {}
        self.tell()

    def tell(self):
        steps = sorted(it for it in self.run.items if it)
        by_step = {}
        for entry in self.run.entries:
            by_step.setdefault(entry.step, []).append(entry)
        for step in [0, *steps]:
            band = Band(step, f"step {step}" if step else "start")
            cells = self.armed(step) + [it for it in map(self.cell, by_step.get(step, [])) if it]
            if self.first <= step <= self.last:
                self.place(band, cells)
        self.has_ending = self.last >= max(steps, default=0)
        if self.has_ending:
            self.bands.append(self.ending())

    def place(self, band, cells):
        """Each cell stands below the one before it at its site, and below the one whose packet it takes."""
        lowest = {}
        for cell in cells:
            above = [lowest.get(cell.site, -1)] + [self.sender_cells[it.packet.number].row for it in self.arrows if it.end is cell]
            cell.row = max(above) + 1
            lowest[cell.site] = cell.row
            while len(band.rows) <= cell.row:
                band.rows.append([])
            band.rows[cell.row].append(cell)
        width = int((LEFT - 2 * PAD) / WIDE)
        for it in self.run.items.get(band.step, []):
            band.left += [(line, INK) for line in wrapped(it, width)]
        for it in self.run.skipped.get(band.step, []):
            band.left += [(line, LOOKS["lost"][2]) for line in wrapped(self.skip_words(it), width)]
        parts = self.run.parts.get(band.step) or next((self.run.parts[it] for it in range(band.step, -1, -1) if it in self.run.parts), [])
        if len(parts) > 1:
            said = "network cut: " + " | ".join(",".join(map(str, it)) for it in parts)
            band.left += [(line, LOOKS["split"][2]) for line in wrapped(said, width)]
            band.parts = parts
        self.bands.append(band)

    def skip_words(self, line):
        site, _, why = line.partition(": ")
        return f"skipped: {why}" if site == "0" else f"skipped: site {site} is {why}"

    # cells

    def armed(self, step):
        """The cell of a step that arms a disk, which no entry tells."""
        words = (self.run.items.get(step) or [""])[0].split(" ", 3)
        if words[0] != "stop":
            return []
        cell = Cell(int(words[1]), step, None, "doubt")
        cell.say(f"its disk is armed: call {words[2]} from now on fails, and leaves {words[3]}")
        return [cell]

    def cell(self, entry):
        if entry.kind in ("line", "parts"):
            return None
        made = {"step": self.of_step, "fall": self.of_fall, "rise": self.of_rise, "risefall": self.of_rise_fall, "miss": self.of_miss, "cut": self.of_cut, "drop": self.of_drop}
        cell = made[entry.kind](entry)
        for packet in entry.packets:
            self.sender_cells[packet.number] = cell
            if self.first <= entry.step <= self.last:
                cell.sent.append(packet)
        cell.raw = [f"{entry.owner} {entry.form}", *entry.records, *[f"packet {it.number} to {it.to}: {it.message}" for it in entry.packets], *entry.told]
        cell.told = [(f"{entry.owner}: {traces.told_words(self.run, it)}", it) for it in entry.told]
        return cell

    def taking(self, entry, cell):
        """The last packet that an entry takes, and whether it came before; with an arrow for each."""
        packet, again = None, False
        for number in traces.taken_by(entry):
            packet = self.run.packets.get(number)
            if packet:
                again = packet.taken.index(entry) > 0
                if self.first <= entry.step <= self.last:
                    self.arrows.append(Arrow(packet, self.sender_cells.get(number), cell, again))
        return packet, again

    def of_step(self, entry):
        cell, run = Cell(entry.owner, entry.step, entry), self.run
        packet, again = self.taking(entry, cell)
        given = entry.form[5:]
        began = [it.split(" ")[0] for it in entry.told if " began " in it]
        said = f"client begins {traces.name_of(run, began[0])} over {given[6:]}" if began else traces.input_words(run, given)
        cell.say(("again: " if again else "") + said)
        # a verdict stands behind the join of its election, and before what it makes
        joins = 1 + max((k for k, it in enumerate(entry.records) if it.startswith("join ")), default=-1)
        _record_lines(cell, run, entry.records[:joins], False)
        for it in entry.told:
            verdict = re.search(r" election \d+ (.*)", it)
            if verdict:
                said = re.search(r"block: (.*)", traces.told_words(run, it))
                cell.say(f"verdict: {'it blocks, as ' + said[1] if said else verdict[1]}", "split" if said else "join")
        _record_lines(cell, run, entry.records[joins:], False)
        self.locks(entry, cell, packet)
        for it in entry.packets:
            if it.fate != "kept":
                cell.say(f"{'cut off' if it.fate == 'split' else 'lost'}: {traces.message_name(it.message)} to {it.to}", it.fate)
            elif len(it.taken) > 1:
                cell.say(f"comes twice: {traces.message_name(it.message)} to {it.to}", "twice")
        for it in entry.records:
            words = it.split(" ")
            if words[0] in ("vote", "attempt", "decision"):
                self.state[entry.owner, words[1]] = words[0]
        return cell

    def locks(self, entry, cell, packet):
        """Requests that wait for a lock, and those that are granted."""
        run, given = self.run, entry.form[5:].split(" ")
        asked = None
        refused = any(" refused " in it for it in entry.told)
        if given[0] == "do" and not refused:
            txn, site = given[1], int(given[3].split(".")[0])
            number = self.counts[txn] = self.counts.get(txn, 0) + 1
            if site == entry.owner:
                asked = txn, str(number)
        elif packet and packet.message.startswith("do "):
            asked = tuple(packet.message.split(" ")[1:3])
        ended = {it.split(" ")[1] for it in entry.records if it.startswith("decision ")}
        done = {tuple(it.message.split(" ")[1:3]) for it in entry.packets if it.message.startswith("done ")}
        done |= {tuple(it.split(" ")[0:3:2]) for it in entry.told if it.split(" ")[1:2] == ["op"]}
        for key in [it for it in self.waiting if it[0] == entry.owner]:
            if key[1] in ended or key[1:] in done:
                begun = self.waiting.pop(key)
                if key[1:] in done:
                    cell.say(f"lock granted: operation {key[2]} of {traces.name_of(run, key[1])}", "wait")
                self.waits.append((begun, cell))
        if asked and asked not in done and asked[0] not in ended and (entry.owner, asked[0]) not in self.state and not entry.packets and not entry.told:
            if (entry.owner, *asked) not in self.waiting:
                cell.say(f"waits for a lock: operation {asked[1]} of {traces.name_of(run, asked[0])}", "wait")
                self.waiting[(entry.owner, *asked)] = cell

    def lose(self, site):
        """A site that is down waits for nothing, and forgets what has no record."""
        for key in [it for it in self.waiting if it[0] == site]:
            self.waiting.pop(key)

    def of_fall(self, entry):
        cell = Cell(entry.owner, entry.step, entry, "down")
        self.taking(entry, cell)
        why = re.fullmatch(r"fall (fault|full \d+ of \d+) \d+", entry.form)
        cell.say(f"FALLS: {traces.why_words(why[1]) if why else entry.form}", "down")
        for it in entry.inputs[:3]:
            cell.say(traces.input_words(self.run, it), "down")
        if len(entry.inputs) > 3:
            cell.say(f"and {len(entry.inputs) - 3} more", "down")
        in_doubt = bool(why) and why[1] == "fault"
        if in_doubt:
            _record_lines(cell, self.run, entry.records, True)
        self.doubt[entry.owner] = in_doubt and bool(entry.records)
        self.lose(entry.owner)
        return cell

    def of_rise(self, entry):
        cell = Cell(entry.owner, entry.step, entry, "up")
        kept = entry.form.endswith(" kept")
        cell.say(f"RISES: incarnation {entry.form.split(' ')[1]}", "up")
        if kept or self.doubt.get(entry.owner):
            cell.say("what was in doubt is in its log" if kept else "what was in doubt is lost", "doubt")
        self.doubt[entry.owner] = False
        return cell

    def of_rise_fall(self, entry):
        cell = Cell(entry.owner, entry.step, entry, "down")
        words = entry.form.split(" ")
        kept = words[-1] == "kept"
        why = " ".join(words[2 : -1 if kept else None])
        cell.say(f"FAILS TO RISE: {traces.why_words(why)}", "down")
        if kept:
            cell.say("what was in doubt is in its log", "doubt")
        self.doubt[entry.owner] = why == "fault"
        return cell

    def of_miss(self, entry):
        cell = Cell(entry.owner, entry.step, entry, "down")
        cell.say("FAILS TO RISE: its disk failed before its log was read", "down")
        return cell

    def of_cut(self, entry):
        cell = Cell(entry.owner, entry.step, entry, "down")
        cell.say("POWER CUT", "down")
        self.lose(entry.owner)
        return cell

    def of_drop(self, entry):
        packet = self.run.packets.get(int(entry.form.split(" ")[1]))
        cell = Cell(packet.to, entry.step, entry, "dropped")
        self.taking(entry, cell)
        cell.say(f"dropped, as the site is down: {traces.message_name(packet.message)} of site {packet.sender}", "dropped")
        return cell

    # the end

    def ending(self):
        band, run = Band(self.last + 1, "at the end"), self.run
        width = int((LEFT - 2 * PAD) / WIDE)
        band.left = [(it, INK) for it in wrapped("committed, in this order:" if run.order else "nothing is committed", width)]
        for it in run.order[:12]:
            band.left += [(line, LOOKS["attempt commit"][2]) for line in wrapped("  " + traces.name_of(run, it), width)]
        if len(run.order) > 12:
            band.left.append((f"  and {len(run.order) - 12} more", INK))
        row = []
        for site, (state, log, rows) in sorted(run.sites.items()):
            cell = Cell(site, band.step, None, "plain")
            cell.say(f"site {site} is {state.replace('up ', 'up, incarnation ')}")
            self.end_states(cell, log)
            for it in rows[:5]:
                cell.say(f"row {it}", "log")
            if len(rows) > 5:
                cell.say(f"and {len(rows) - 5} more rows", "log")
            row.append(cell)
        band.rows = [row]
        return band

    def end_states(self, cell, log):
        """What the log says of each transaction: decided, or open and how far."""
        state = {}
        for it in log:
            words = it.split(" ")
            if words[0] in ("vote", "attempt", "decision", "join"):
                if words[0] != "join" or words[1] not in state:
                    state.setdefault(words[1], []).append(" ".join([words[0], *words[2:]]))
        for txn, said in list(state.items())[:6]:
            name, last = traces.name_of(self.run, txn), said[-1].split(" ")
            decided = next((it.split(" ")[1] for it in said if it.startswith("decision ")), None)
            if decided:
                cell.say(f"{name} {decided}ted" if decided == "commit" else f"{name} aborted", f"decision {decided}")
            else:
                how = {"vote": "it voted yes", "join": "it joined an election"}.get(last[0], f"its last attempt is to {last[-1]}")
                cell.say(f"{name} is open: {how}", "doubt")
        if len(state) > 6:
            cell.say(f"and {len(state) - 6} more transactions")


class Drawing:
    """The story as shapes. `texts` are the places of all texts and `paths` the arrows, for a test that none lies on another."""

    def __init__(self, story, title):
        self.story, self.title = story, title
        self.back, self.lines, self.front, self.texts, self.paths = [], [], [], [], []
        self.sites = sorted(story.run.sites)
        self.column = {site: LEFT + CHANNEL + k * PITCH for k, site in enumerate(self.sites)}
        self.right = LEFT + CHANNEL + len(self.sites) * PITCH
        self.width = self.right + RIGHT
        self.lay_out()

    def centre(self, site):
        return self.column[site] + BOX / 2

    def text(self, x, y, said, ink=INK, weight=None, end=None):
        self.texts.append((x, y - SIZE + 1, x + len(said) * WIDE, y + 3, said))
        more = (' font-weight="bold"' if weight else "")
        self.front.append(f'<text x="{x:.0f}" y="{y:.0f}" fill="{ink}"{more} xml:space="preserve">{escape(said)}</text>')

    def rect(self, layer, x, y, w, h, fill, border=None, radius=0, more=""):
        edge = f' stroke="{border}"' if border else ""
        layer.append(f'<rect x="{x:.1f}" y="{y:.1f}" width="{w:.1f}" height="{h:.1f}" rx="{radius}" fill="{fill}"{edge}{more}/>')

    # places

    def lay_out(self):
        y = TOP + 10
        self.rows = []  # (band, cells, top, bottom)
        arrows = {}
        for arrow in self.story.arrows:
            arrows.setdefault(id(arrow.start), []).append(arrow)
        for number, band in enumerate(self.story.bands):
            band.top = y
            y += PAD + 4
            rows = band.rows or [[]]
            for k, cells in enumerate(rows):
                told = [(line, raw) for cell in cells for said, raw in cell.told for line in wrapped(said, int((RIGHT - 3 * PAD) / WIDE))]
                height = max([cell.height() for cell in cells] + [len(told) * LINE] + [0])
                for cell in cells:
                    cell.top = y
                is_last = k + 1 == len(rows)
                busy = any(arrows.get(id(cell)) for cell in cells) or not is_last and any(a.end in rows[k + 1] for a in self.story.arrows)
                lost = any(it.fate != "kept" for cell in cells for it in cell.sent)
                gap = NO_GAP if is_last and not lost else GAP if busy or lost else NO_GAP
                self.rows.append((band, cells, y, y + height, gap, told))
                y += height + gap
            y = max(y, band.top + 2 * PAD + LINE * (1 + len(band.left)) + 4)
            band.bottom = y
        self.height = y + 84

    def row_of(self, cell):
        return next(k for k, it in enumerate(self.rows) if cell in it[1])

    # shapes

    def draw(self):
        self.draw_bands()
        self.draw_lifelines()
        self.draw_arrows()
        for band, cells, top, bottom, gap, told in self.rows:
            for cell in cells:
                self.draw_cell(cell)
            for k, (line, raw) in enumerate(told):
                self.text(self.right + 2 * PAD, top + SIZE + k * LINE, line, self.told_ink(raw), self.is_end(raw))
        self.draw_head()
        self.draw_legend()
        return self.page()

    def is_end(self, raw):
        return bool(re.search(r" (committed|aborted|died|doomed|election \d+ block)", raw))

    def told_ink(self, raw):
        if " committed" in raw or re.search(r"election \d+ commit", raw):
            return LOOKS["decision commit"][0]
        if re.search(r" (aborted|died|doomed)| election \d+ abort", raw):
            return LOOKS["decision abort"][0]
        if " block " in raw or " refused " in raw:
            return LOOKS["split"][2]
        return INK

    def draw_bands(self):
        for k, band in enumerate(self.story.bands):
            self.rect(self.back, 0, band.top, self.width, band.bottom - band.top, "#fbfbfd" if k % 2 else "#f1f3f8")
            for number, part in enumerate(band.parts):
                for site in part:
                    if site in self.column:
                        self.rect(self.back, self.column[site] - CHANNEL / 2, band.top, PITCH, band.bottom - band.top, PARTS[number % len(PARTS)])
            self.back.append(f'<line x1="0" y1="{band.top:.0f}" x2="{self.width}" y2="{band.top:.0f}" stroke="#dfe3ec"/>')
            self.text(PAD + 4, band.top + PAD + SIZE, band.title, INK, True)
            for n, (line, ink) in enumerate(band.left):
                self.text(PAD + 4, band.top + PAD + SIZE + (n + 1) * LINE, line, ink)

    def draw_lifelines(self):
        """A line for each site: whole while it is up, broken while it is down; broad where it waits for a lock."""
        # up to the boxes at the end, or through the last step that is drawn
        end = self.rows[-1][2] if self.story.has_ending else self.rows[-1][0].bottom
        for site in self.sites:
            up, y, x = self.is_up_before(site), TOP - 4, self.centre(site)
            for band, cells, top, bottom, gap, told in self.rows:
                for cell in cells:
                    if cell.site == site and cell.entry and cell.entry.kind in ("rise", "fall", "cut", "risefall", "miss"):
                        self.lifeline(x, y, top, up)
                        y, up = top, cell.entry.kind == "rise"
            self.lifeline(x, y, end, up)
        for begun, ended in self.story.waits:
            if begun.top and ended.top:
                x = self.centre(begun.site)
                self.back.append(f'<line x1="{x}" y1="{begun.top + begun.height():.0f}" x2="{x}" y2="{ended.top:.0f}" stroke="{LOOKS["wait"][1]}" stroke-width="7" stroke-opacity="0.55"/>')

    def is_up_before(self, site):
        up = False
        for entry in self.story.run.entries:
            if entry.step >= self.story.first:
                break
            if entry.owner == site and entry.kind in ("rise", "fall", "cut", "risefall", "miss"):
                up = entry.kind == "rise"
        return up

    def lifeline(self, x, top, bottom, up):
        look = f'stroke="{INK}" stroke-width="1.6"' if up else f'stroke="{FAINT}" stroke-width="1.2" stroke-dasharray="2 5"'
        self.back.append(f'<line x1="{x:.0f}" y1="{top:.0f}" x2="{x:.0f}" y2="{bottom:.0f}" {look}/>')

    def draw_cell(self, cell):
        x, fill, border, _ = self.column[cell.site], *LOOKS[cell.look]
        self.front.append(f'<g><title>{escape(chr(10).join(cell.raw))}</title>')
        self.rect(self.front, x, cell.top, BOX, cell.height(), fill, border, 5)
        for k, (line, look) in enumerate(cell.lines):
            y = cell.top + PAD - 1 + k * LINE
            if look and look != cell.look:
                self.rect(self.front, x + 2, y, BOX - 4, LINE, LOOKS[look][0], None, 2)
            self.text(x + PAD, y + SIZE, line, LOOKS[look or cell.look][2])
        self.front.append("</g>")

    # arrows

    def ink_of(self, message):
        words = message.split(" ")
        if words[0] == "decide":
            return LOOKS[f"decision {words[-1]}"][0]
        if words[0] == "pre":
            return LOOKS[f"attempt {words[-1]}"][1]
        if words[0] in ("vote", "votereq"):
            return LOOKS["vote"][1] if words[-1] != "no" else LOOKS["decision abort"][0]
        if words[0] in ("elected", "report", "ask", "last"):
            return LOOKS["join"][1]
        return "#5d6575"

    def ports(self, cell):
        """For each packet that a cell sends, where it leaves: to the left on the left side, to the farthest site outermost."""
        ports = {}
        for side in (-1, 1):
            those = [it for it in cell.sent if (it.to > cell.site) == (side > 0)]
            those.sort(key=lambda it: (it.fate != "kept", abs(it.to - cell.site)))
            gap = min(18, (BOX / 2 - 34) / max(1, len(those)))
            for k, it in enumerate(those):
                ports[it.number] = self.centre(cell.site) + side * (14 + k * gap)
        return ports

    def draw_arrows(self):
        row = {id(cell): k for k, it in enumerate(self.rows) for cell in it[1]}
        ports = {}
        for _, cells, *_ in self.rows:
            for cell in cells:
                ports.update(self.ports(cell))
                for it in cell.sent:
                    if it.fate != "kept":
                        self.draw_stub(cell, it, ports[it.number], self.rows[row[id(cell)]][3])
        slots = self.slots(row)
        for arrow in self.story.arrows:
            if not arrow.start or id(arrow.start) not in row:
                continue
            start, end = row[id(arrow.start)], row[id(arrow.end)]
            side = 1 if arrow.start.site > arrow.end.site else -1
            into = self.centre(arrow.end.site) + side * 22
            x = ports.get(arrow.packet.number, self.centre(arrow.start.site))
            points = [(x, arrow.start.top + arrow.start.height()), (x, self.rows[start][3] + 3)]
            if end > start + 1:
                lane = slots[id(arrow)]
                points += [(lane, self.rows[start + 1][2] - 5), (lane, self.rows[end - 1][3] + 5)]
            points.append((into, arrow.end.top))
            self.draw_path(points, self.ink_of(arrow.packet.message), arrow)

    def slots(self, row):
        """The lane of each arrow that passes a row: in the channel beside its receiver, beside no other that it meets."""
        channels = {}
        for arrow in self.story.arrows:
            if arrow.start and id(arrow.start) in row and row[id(arrow.end)] > row[id(arrow.start)] + 1:
                side = 1 if arrow.start.site > arrow.end.site else 0
                channels.setdefault((arrow.end.site, side), []).append(arrow)
        lanes = {}
        for (site, side), those in channels.items():
            taken, own = [], {}
            for arrow in sorted(those, key=lambda it: row[id(it.end)]):
                start, end = row[id(arrow.start)], row[id(arrow.end)]
                k = next((n for n, until in enumerate(taken) if until <= start), None)
                if k is None:
                    k = len(taken)
                    taken.append(0)
                taken[k] = end
                own[id(arrow)] = k
            # (the half of the channel that is the receiver's)
            gap = (CHANNEL / 2 - 3) / len(taken)
            for key, k in own.items():
                lanes[key] = self.column[site] + BOX + 3 + k * gap if side else self.column[site] - 3 - k * gap
        return lanes

    def draw_path(self, points, ink, arrow):
        dash = ' stroke-dasharray="5 3"' if arrow.is_again else ""
        self.paths.append((points, arrow))
        path = "M" + " L".join(f"{x:.1f} {y:.1f}" for x, y in points)
        packet = arrow.packet
        title = f"packet {packet.number}, site {packet.sender} to {packet.to}: {packet.message}"
        self.lines.append(f'<g><title>{escape(title)}</title><path d="{path}" fill="none" stroke="{ink}" stroke-width="1.6" stroke-linejoin="round"{dash}/>{self.head(points[-2], points[-1], ink)}</g>')
        if arrow.end.look == "dropped":
            self.cross(points[-1][0], points[-1][1] - 9, LOOKS["dropped"][1])

    def head(self, before, at, ink):
        """The head of an arrow."""
        dx, dy = at[0] - before[0], at[1] - before[1]
        far = (dx * dx + dy * dy) ** 0.5 or 1
        dx, dy = dx / far, dy / far
        a = (at[0] - 9 * dx + 4 * dy, at[1] - 9 * dy - 4 * dx)
        b = (at[0] - 9 * dx - 4 * dy, at[1] - 9 * dy + 4 * dx)
        return f'<path d="M{at[0]:.1f} {at[1]:.1f} L{a[0]:.1f} {a[1]:.1f} L{b[0]:.1f} {b[1]:.1f} Z" fill="{ink}"/>'

    def draw_stub(self, cell, packet, x, bottom):
        """A packet that never comes: a short line with a cross."""
        ink = LOOKS[packet.fate][1]
        end = x + (12 if packet.to > cell.site else -12)
        self.lines.append(f'<path d="M{x:.1f} {cell.top + cell.height():.1f} L{x:.1f} {bottom + 3:.1f} L{end:.1f} {bottom + 22:.1f}" fill="none" stroke="{ink}" stroke-width="1.6" stroke-dasharray="3 2"/>')
        self.cross(end, bottom + 22, ink)

    def cross(self, x, y, ink):
        self.lines.append(f'<path d="M{x - 4:.1f} {y - 4:.1f} l8 8 m0 -8 l-8 8" stroke="{ink}" stroke-width="2.2" fill="none"/>')

    # head and legend

    def draw_head(self):
        self.text(PAD + 4, 20, self.title, INK, True)
        self.text(PAD + 4, 50, "steps and their items", FAINT)
        self.text(self.right + 2 * PAD, 50, "what clients and electors are told", FAINT)
        for k, site in enumerate(self.sites):
            weights = self.story.run.weights
            said = f"site {site}" + (f", weight {weights[k]}" if k < len(weights) else "")
            self.rect(self.front, self.column[site], 34, BOX, 24, "#e6e9f1", "#9aa3b5", 5)
            self.text(self.centre(site) - len(said) * WIDE / 2, 50, said, INK, True)

    def looks(self):
        """The looks that the picture has."""
        cells = [cell for row in self.rows for cell in row[1]]
        used = {cell.look for cell in cells} | {look for cell in cells for _, look in cell.lines}
        used |= {it.fate for cell in cells for it in cell.sent}
        return used | {"split" for band in self.story.bands if band.parts}

    def draw_legend(self):
        y, x = self.height - 52, PAD + 4
        used = self.looks()
        for said, look in (it for it in LEGEND if it[1] in used):
            wide = len(said) * WIDE + 12
            if x + wide > self.width - PAD:
                x, y = PAD + 4, y + LINE + 8
            self.rect(self.front, x, y - SIZE - 1, wide, LINE + 3, LOOKS[look][0], LOOKS[look][1], 3)
            self.text(x + 6, y, said, LOOKS[look][2])
            x += wide + 8

    def page(self):
        head = (
            f'<svg xmlns="http://www.w3.org/2000/svg" width="{self.width:.0f}" height="{self.height:.0f}" viewBox="0 0 {self.width:.0f} {self.height:.0f}" '
            f'font-family="DejaVu Sans Mono, Menlo, Consolas, monospace" font-size="{SIZE}">'
        )
        body = [f"<title>{escape(self.title)}</title>", f'<rect width="{self.width:.0f}" height="{self.height:.0f}" fill="{PAPER}"/>']
        return "\n".join([head, *body, *self.back, *self.lines, *self.front, "</svg>"]) + "\n"


def overlaps(drawing):
    """Two texts of a drawing that lie on each other, or one that leaves the page; None where there are none."""
    those = sorted(drawing.texts, key=lambda it: it[1])
    for k, one in enumerate(those):
        if one[0] < 0 or one[2] > drawing.width or one[3] > drawing.height:
            return one[4], "the edge"
        for other in those[k + 1 :]:
            if other[1] >= one[3]:
                break
            if one[0] < other[2] and other[0] < one[2]:
                return one[4], other[4]
    return None


def crossings(drawing):
    """An arrow of a drawing that runs through a box; None where there is none."""
    boxes = [(drawing.column[it.site], it.top, drawing.column[it.site] + BOX, it.top + it.height(), it) for row in drawing.rows for it in row[1]]
    for points, arrow in drawing.paths:
        for (x0, y0), (x1, y1) in zip(points, points[1:]):
            for left, top, right, bottom, cell in boxes:
                if cell in (arrow.start, arrow.end) or max(y0, y1) <= top or min(y0, y1) >= bottom:
                    continue
                # where the segment is inside the box's height
                cut = [(x0 + (x1 - x0) * (y - y0) / (y1 - y0)) if y1 != y0 else x0 for y in (max(top, min(y0, y1)), min(bottom, max(y0, y1)))]
                if max(cut) > left and min(cut) < right:
                    return arrow.packet.number, cell.raw
    return None
