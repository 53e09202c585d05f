"""Reads what `run --trace` writes: the report and the history behind it. docs/FORMATS.md has both forms."""
import re


class Entry:
    """An entry of the history. `step` is the number of its step, 0 for the first rises."""

    def __init__(self, number, step, owner, form):
        self.number, self.step, self.owner, self.form = number, step, owner, form
        self.kind = form.split(" ")[0]
        self.records, self.packets, self.told, self.inputs = [], [], [], []


class Packet:
    """A packet that was sent: its number, sites and message, and what became of it.

    fate: `kept`, `split` (between parts of the network) or `lost`. `taken` are the entries that took it: deliveries, or a drop."""

    def __init__(self, number, entry, to, message):
        self.number, self.entry, self.sender, self.to, self.message = number, entry, entry.owner, to, message
        self.taken, self.fate = [], "kept"


class Run:
    """What happened: entries, packets by number, and what the report says beside them.

    items      for each step its items, as the scenario has them
    skipped    for each step the report's lines on items that were skipped
    names      transaction to the name that the scenario has for it
    parts      for each step the parts of the network in it
    order      the committed transactions
    sites      for each site (state, log lines, rows), as the report ends"""

    def __init__(self):
        self.entries, self.packets, self.items, self.skipped = [], {}, {0: []}, {0: []}
        self.names, self.parts, self.order, self.sites, self.weights = {}, {}, [], {}, []

    def last_step(self):
        return max(self.items)


class BadTrace(Exception):
    pass


def read(text):
    """The run that the text tells. BadTrace where it is no output of `run --trace`."""
    lines = text.split("\n")
    if lines[:1] != ["start"]:
        said = lines[0] or "nothing"
        raise BadTrace(f"this is no output of `run --trace`: it begins with {said!r}")
    if lines.count("end") < 2:
        raise BadTrace("this is a report without a trace: the words are `run --trace`")
    run, middle = Run(), lines.index("end")
    _read_report(run, lines[:middle])
    _read_entries(run, lines[middle + 1 :])
    _name(run)
    _judge_fates(run)
    return run


def _read_report(run, lines):
    step, at = 0, 1
    while at < len(lines) and lines[at] != "order":
        line, at = lines[at], at + 1
        if re.fullmatch(r"step \d+", line):
            step = int(line[5:])
            run.items[step], run.skipped[step] = [], []
        elif line.startswith("> "):
            run.items[step].append(line[2:])
        elif re.fullmatch(r"\d+: (down|up)|0: [a-z0-9_]+ not begun", line):
            run.skipped[step].append(line)
    at += 1
    while at < len(lines) and not re.fullmatch(r"site \d+ (up \d+|down)", lines[at]):
        run.order.append(lines[at])
        at += 1
    part = None
    while at < len(lines):
        line, at = lines[at], at + 1
        found = re.fullmatch(r"site (\d+) (up \d+|down)", line)
        if found:
            part, site = None, int(found[1])
            run.sites[site] = (found[2], [], [])
        elif line in ("log", "rows"):
            part = line
        else:
            run.sites[site][1 if part == "log" else 2].append(line)


def _read_entries(run, lines):
    step, entry = 0, None
    for line in lines[: lines.index("end")]:
        mark, _, left = line.partition(" ")
        if mark == "r":
            entry.records.append(left)
            if left.startswith("birth "):
                run.weights = [int(it) for it in left.split(" ")[2].split(",")]
        elif mark == "t":
            entry.told.append(left)
        elif mark == "i":
            entry.inputs.append(left)
        elif mark == "o":
            number, to, message = left.split(" ", 2)
            run.packets[int(number)] = packet = Packet(int(number), entry, int(to), message)
            entry.packets.append(packet)
        else:
            step = int(left[5:]) if left.startswith("line ") else step
            entry = Entry(len(run.entries), step, int(mark), left)
            run.entries.append(entry)


def inputs_of(entry):
    """The inputs of a step or a fall."""
    return [entry.form[5:]] if entry.kind == "step" else entry.inputs if entry.kind == "fall" else []


def taken_by(entry):
    """The numbers of the packets that an entry takes: it delivers them, falls over them, or drops them."""
    found = [re.fullmatch(r"(?:deliver|drop) (\d+)", it) for it in [*inputs_of(entry), entry.form]]
    return [int(it[1]) for it in found if it]


def _name(run):
    """Names: the n-th begin that a site takes in a step is the n-th item of the step that is a begin for that site."""
    begun, taken = {}, {}
    for entry in run.entries:
        if entry.kind == "line":
            taken = {}
        for given in inputs_of(entry):
            if given.startswith("begin "):
                begins = [it.split(" ") for it in run.items[entry.step] if it.startswith("begin ")]
                own = [it[1] for it in begins if it[2] == str(entry.owner)]
                k = taken.get(entry.owner, 0)
                taken[entry.owner] = k + 1
                began = [it.split(" ")[0] for it in entry.told if it.split(" ")[1:2] == ["began"]]
                if began and k < len(own):
                    run.names[began[0]] = own[k]


def _judge_fates(run):
    """What took each packet. One that nothing took was lost, or its sites lay in two parts of the network."""
    for entry in run.entries:
        for number in taken_by(entry):
            if number in run.packets:
                run.packets[number].taken.append(entry)
    sites = [list(range(1, max(run.sites, default=1) + 1))]
    parts = sites
    for entry in run.entries:
        if entry.kind == "parts":
            parts = [[int(it) for it in part.split(",")] for part in entry.form[6:].split("|")]
        run.parts[entry.step] = parts
        for packet in entry.packets:
            if not packet.taken:
                apart = not any(packet.sender in part and packet.to in part for part in parts)
                packet.fate = "split" if apart else "lost"


# In words

DIRECTIONS = {"commit": "pre-commit", "abort": "pre-abort"}
STATES = {"q": "no vote", "w": "voted", "pc": "pre-committed", "pa": "pre-aborted", "c": "committed", "a": "aborted"}


def name_of(run, txn):
    """A transaction with the scenario's name beside it."""
    return f"{run.names[txn]} ({txn})" if txn in run.names else txn


def _answer(words):
    return "absent" if words[0] == "absent" else "written" if words[0] == "written" else f"value {' '.join(words[1:])}"


def message_words(run, message, sender):
    """A message in words, as its receiver hears it."""
    verb, txn, *more = message.split(" ")
    name, who = name_of(run, txn), f"site {sender}"
    said = {
        "do": lambda: f"{who} asks for operation {more[0]} of {name}: {' '.join(more[1:])}",
        "done": lambda: f"{who} answers operation {more[0]} of {name}: {_answer(more[2:])}",
        "died": lambda: f"{who}: operation {more[0]} of {name} died for {name_of(run, more[1])}",
        "ask": lambda: f"{who} asks for the last number of {name}",
        "last": lambda: f"{who}'s last number of {name} is {more[2]}",
        "elected": lambda: f"{who} calls election {more[0]} of {name}",
        "report": lambda: f"{who} reports for {more[0]} of {name}: {STATES.get(more[1], more[1])}, last attempt {more[2]}",
        "votereq": lambda: f"{who} asks for the vote on {name}",
        "vote": lambda: f"{who} votes {more[0]} on {name}",
        "pre": lambda: f"{who} says {DIRECTIONS[more[1]]} {more[0]} of {name}",
        "ack": lambda: f"{who} acknowledges {DIRECTIONS[more[1]]} {more[0]} of {name}",
        "decide": lambda: f"{who} says that {name} {more[0]}s",
    }.get(verb)
    return said() if said else message


def message_name(message):
    """A message in two or three words."""
    verb, _, *more = message.split(" ")
    return {
        "do": "operation", "done": "answer", "died": "died", "ask": "ask for number", "last": "last number", "elected": "call of election",
        "report": "report", "votereq": "vote request", "vote": f"vote {more[0] if more else ''}", "decide": f"decision {more[-1] if more else ''}",
        "ack": "acknowledgement", "pre": DIRECTIONS.get(more[-1] if more else "", "pre"),
    }.get(verb, verb)


def input_words(run, given):
    """An input in words."""
    verb, _, left = given.partition(" ")
    txn, _, more = left.partition(" ")
    if verb == "begin":
        return f"client begins over sites {left}"
    if verb == "deliver":
        packet = run.packets.get(int(left))
        return message_words(run, packet.message, packet.sender) if packet else given
    name = name_of(run, txn)
    return {
        "do": f"client of {name}: {more}",
        "commit": f"client asks to commit {name}",
        "cancel": f"client asks to cancel {name}",
        "expire": f"gives {name} up, if it may",
        "elect": f"begins an election of {name} for {more}",
    }.get(verb, given)


def told_words(run, told):
    """What a step told, with the names of the scenario."""
    txn, _, left = told.partition(" ")
    blocked = re.fullmatch(r"election (\d+) block (\d+) of (\d+)", left)
    if blocked:
        left = f"election {blocked[1]} block: weight {blocked[2]} of {blocked[3]} is no quorum"
    verb, *more = left.split(" ")
    if verb == "died":
        left = f"died for {name_of(run, more[-1])}"
    elif verb == "doomed":
        left = f"doomed: {_doom(more)}"
    elif verb == "kept":
        left = f"stays as it is: {STATES.get(more[0], more[0])}"
    elif verb == "refused":
        left = f"refused: {_refusal(run, *more)}"
    return f"{name_of(run, txn)} {left}"


def _doom(words):
    site, had, now = words
    return f"site {site} answered in incarnation {had}, and now in {now}"


def _refusal(run, reason, *more):
    return {
        "no-transaction": lambda: "no such transaction",
        "busy": lambda: f"busy, operation {more[0]} is unanswered",
        "over": lambda: f"over, it {STATES[more[0][0]]}",
        "died": lambda: f"it died for {name_of(run, more[0])}",
        "doomed": lambda: f"it was doomed, as {_doom(more)}",
        "too-late": lambda: "too late, as it voted" if more[0] == "0" else f"too late, attempt {more[0]} is made",
    }[reason]()


def why_words(why):
    return "its disk failed" if why == "fault" else f"its disk is full: {why[5:]} bytes"
