"""Reads scenarios for the tools of this folder: a scenario's text to its values, or to its first fault with its place and cause.

The order of faults and the forms are those of docs/FORMATS.md. The program decides: where a text of this module and the
program differ, the program is right. The TOML document is read by Python's own tomllib (Python 3.11), which knows TOML
1.0, so a document that only TOML 1.1 allows is taken for none here."""
import difflib
import re

try:
    import tomllib
except ImportError:  # Python before 3.11
    tomllib = None

MOST_BYTES = 4194304
MOST_STEPS = MOST_ITEMS = 10000
MOST_IN_GROUP = 16
MOST_OPERATIONS = 64
MOST_BEGINS = 4000
MOST_SITES = 16
# Each key with the kind of its value, and an example.
KEYS = {
    "weights": ("an array of integers", "weights = [1, 1, 1]"),
    "rows": ("an array of strings", 'rows = ["1.ann 100"]'),
    "loss": ("an integer", "loss = 10"),
    "repeat": ("an integer", "repeat = 10"),
    "luck": ("an integer", "luck = 10"),
    "steps": ("an array of strings and of arrays of strings", 'steps = ["begin t 1 1", ["write t 1.x a", "commit t"]]'),
}

# Each verb with the forms of its words, and an example.
VERBS = {
    "begin": (("NAME", "SITE", "SITES"), "begin t 1 1,2"),
    "read": (("NAME", "KEY"), "read t 1.x"),
    "write": (("NAME", "KEY", "VALUE"), "write t 1.x a"),
    "commit": (("NAME",), "commit t"),
    "cancel": (("NAME",), "cancel t"),
    "expire": (("SITE", "NAME"), "expire 2 t"),
    "elect": (("SITE", "NAME", "SITES"), "elect 2 t 2,3"),
    "recover": (("SITES",), "recover 1,2"),
    "split": (("PARTS",), "split 1,2|3"),
    "merge": ((), "merge"),
    "crash": (("SITE",), "crash 1"),
    "restart": (("SITE",), "restart 1"),
    "stop": (("SITE", "COUNT", "LEAVE"), "stop 1 8 all"),
}
GROUPABLE = ("begin", "read", "write", "commit", "cancel", "expire", "elect")

FORMS = {
    "NAME": "1 to 32 characters of a to z, 0 to 9 and _",
    "SITE": "a number from 1 to 64 without leading zeros",
    "SITES": "sites in ascending order, each once, with commas and no spaces",
    "KEY": "a site, a point and a name",
    "VALUE": "0 to 256 printable characters",
    "COUNT": "a number from 1 to 1,000,000 without leading zeros",
    "LEAVE": "none, half, all, or junk and a number from 0 to 255 without leading zeros",
    "PARTS": "the parts of the network, each a list of sites, with | between them",
}

# Every cause: its refusal, what is at fault, the form that is wanted, an example of it. The table of docs/FORMATS.md is this one.
CAUSES = {
    "too-long": ("too-long", "the text is longer than a scenario may be", "at most 4,194,304 bytes", None),
    "encoding": ("not-toml", "a byte is no part of a character", "text in UTF-8", None),
    "toml": ("not-toml", "a line is no TOML", "TOML: `key = value` lines; strings in quotes; commas between the values of an array", 'steps = ["begin t 1 1", "commit t"]'),
    "integer": ("not-toml", "an integer does not fit 64 bits", "integers from -9223372036854775808 to 9223372036854775807", "luck = 9223372036854775807"),
    "key": ("unknown-key", "a key is none of the six", "one of weights, rows, loss, repeat, luck and steps", "weights = [1, 1, 1]"),
    "missing": ("kind FIELD", "a key that must be there is missing", "the keys weights and steps", "weights = [1, 1, 1]"),
    "kind": ("kind FIELD", "a value is of another kind", "weights: an array of integers; rows: an array of strings; loss, repeat and luck: integers; steps: an array of strings and of arrays of strings", 'steps = ["begin t 1 1", ["write t 1.x a", "commit t"]]'),
    "sites-count": ("range weights", "there are no weights, or too many", "1 to 16 weights, one for each site", "weights = [1, 1, 1]"),
    "weight": ("range weights", "a weight is too small or too large", "numbers from 1 to 1,000", "weights = [1, 500, 1000]"),
    "row-bytes": ("range rows", "a row has a character that is not printable", "printable ASCII characters, from space to ~", 'rows = ["1.ann 100"]'),
    "row-form": ("range rows", "a row has no space behind its key", "KEY, a space and VALUE", 'rows = ["1.ann 100"]'),
    "row-key": ("range rows", "the key of a row is none", "a site, a point and a name", 'rows = ["1.ann 100"]'),
    "row-value": ("range rows", "the value of a row is too long", "at most 256 characters", 'rows = ["1.ann 100"]'),
    "row-site": ("range rows", "the site of a row does not exist", "a site that has a weight", 'rows = ["1.ann 100"]'),
    "loss": ("range loss", "the share of lost packets is no share of a hundred", "a number from 0 to 100", "loss = 10"),
    "repeat": ("range repeat", "the share of doubled packets is no share of a hundred", "a number from 0 to 100", "repeat = 10"),
    "shares": ("range repeat", "loss and repeat together are more than a hundred", "loss plus repeat at most 100", "loss = 60\nrepeat = 40"),
    "luck": ("range luck", "the luck is negative", "a number from 0 to 9,223,372,036,854,775,807", "luck = 7"),
    "steps-count": ("range steps", "there are too many steps", "at most 10,000 steps", None),
    "items-count": ("range steps", "all steps together have too many items", "at most 10,000 items", None),
    "empty-group": ("range steps", "a group has no item", "groups of 1 to 16 items", '["commit t", "commit u"]'),
    "large-group": ("range steps", "a group has too many items", "groups of 1 to 16 items", '["commit t", "commit u"]'),
    "row-twice": ("row-twice", "two rows have one key", "each key once", 'rows = ["1.ann 100", "1.bob 50"]'),
    "bytes": ("bad-line STEP", "an item has a character that is not printable", "printable ASCII characters, from space to ~", '"begin t 1 1,2"'),
    "verb": ("bad-line STEP", "the first word of an item is no verb", "one of " + ", ".join(VERBS), '"begin t 1 1,2"'),
    "spaces": ("bad-line STEP", "a space stands before, behind or next to another", "exactly one space between two words, and none else", '"begin t 1 1,2"'),
    "few-words": ("bad-line STEP", "a word is missing", "all words of the item's form", '"begin t 1 1,2"'),
    "many-words": ("bad-line STEP", "a word is too much", "no more words than the item's form has", '"begin t 1 1,2"'),
    "name": ("bad-line STEP", "a name is none", "NAME: " + FORMS["NAME"], '"begin t 1 1,2"'),
    "site": ("bad-line STEP", "a site is none", "SITE: " + FORMS["SITE"], '"restart 2"'),
    "sites": ("bad-line STEP", "a list of sites is none", "SITES: " + FORMS["SITES"], '"begin t 1 1,2"'),
    "record": ("bad-line STEP", "the key of a record is none", "KEY: " + FORMS["KEY"], '"read t 1.x"'),
    "value": ("bad-line STEP", "a value is too long", "VALUE: " + FORMS["VALUE"], '"write t 1.x a"'),
    "count": ("bad-line STEP", "a count is none", "COUNT: " + FORMS["COUNT"], '"stop 1 8 all"'),
    "leave": ("bad-line STEP", "what a stop leaves is none of the leaves", "LEAVE: " + FORMS["LEAVE"], '"stop 1 8 junk 7"'),
    "junk": ("bad-line STEP", "the number behind junk is none", "junk and a number from 0 to 255 without leading zeros", '"stop 1 8 junk 7"'),
    "parts": ("bad-line STEP", "a part of a split is no list of sites", "PARTS: " + FORMS["PARTS"], '"split 1,2|3"'),
    "grouped": ("bad-line STEP", "the item may not stand in an inner array, not even alone", "a step of its own; in groups stand " + ", ".join(GROUPABLE), '"merge"'),
    "operations": ("bad-line STEP", "the transaction has too many operations", "at most 64 reads and writes of a name", None),
    "begins": ("bad-line STEP", "there are too many begins", "at most 4,000 begins", None),
    "no-site": ("no-site STEP", "a site has no weight", "sites that have a weight", 'weights = [1, 1, 1]\nsteps = ["begin t 1 1,2,3"]'),
    "coordinator": ("no-site STEP", "the coordinator is none of the transaction's sites", "the SITE of a begin among its SITES", '"begin t 1 1,2"'),
    "elector": ("no-site STEP", "the elector is none of its group", "the SITE of an elect among its SITES", '"elect 2 t 2,3"'),
    "other-site": ("no-site STEP", "a site is none of the transaction's", "sites for which the name was begun", '"begin t 1 1,2", "read t 2.x"'),
    "not-begun": ("no-transaction STEP", "no step begins the name", "a begin of the name in an earlier step", '"begin t 1 1", "commit t"'),
    "begun-here": ("no-transaction STEP", "the name is begun in the same step", "a begin of the name in an earlier step", '"begin t 1 1", "commit t"'),
    "begun-later": ("no-transaction STEP", "the name is begun in a later step only", "a begin of the name in an earlier step", '"begin t 1 1", "commit t"'),
    "begun-before": ("name-twice STEP", "an earlier step begins the name", "a new name for each begin", '"begin t 1 1", "begin u 1 1"'),
    "begun-twice": ("name-twice STEP", "the same step begins the name before", "a new name for each begin", '["begin t 1 1", "begin u 1 1"]'),
    "part-twice": ("parts STEP", "a split names a site twice", "each site in exactly one part", '"split 1,2|3"'),
    "part-lacking": ("parts STEP", "a split leaves a site out", "each site in exactly one part", '"split 1,2|3"'),
    "apart": ("parts STEP", "the sites of a recover lie in several parts of the network", "sites of one part, or a merge before", '"merge", "recover 1,2,3"'),
}


class Fault(Exception):
    """The first fault of a scenario. `start` and `end` are places in the text, where they are known."""

    def __init__(self, cause, said, start=None, end=None, field=None, step=None, item=None, verb=None, example=None, wanted=None):
        super().__init__(said)
        self.cause, self.said, self.start, self.end, self.step, self.item = cause, said, start, end, step, item
        self.form = " ".join([verb, *VERBS[verb][0]]).replace("PARTS", "SITES|SITES") if verb in VERBS else None
        refusal, _, self.wanted, self.example = CAUSES[cause]
        self.example, self.wanted = example or self.example, wanted or self.wanted
        self.refusal = "refused " + refusal.replace("FIELD", field or "").replace("STEP", str(step))


# Where values stand in the text. A node is (start, end, children), with a child for each member of an array.

def _past_blank(text, at):
    """Past white space, line ends and comments."""
    while at < len(text):
        if text[at] in " \t\r\n":
            at += 1
        elif text[at] == "#":
            end = text.find("\n", at)
            at = len(text) if end < 0 else end
        else:
            break
    return at


def _past_string(text, at):
    for quote in ('"""', "'''", '"', "'"):
        if text.startswith(quote, at):
            break
    end = at + len(quote)
    while not text.startswith(quote, end):
        end += 2 if text[end] == "\\" and quote[0] == '"' else 1
    end += len(quote)
    while len(quote) == 3 and text.startswith(quote[0], end):
        end += 1
    return end


def _node(text, at):
    """The node of the value that begins here."""
    if text[at] in "\"'":
        return at, _past_string(text, at), []
    if text[at] in "[{":
        close, begun, children = {"[": "]", "{": "}"}[text[at]], at, []
        at = _past_blank(text, at + 1)
        while text[at] != close:
            if close == "}":
                at = _past_blank(text, _past_key(text, at) + 1)
            children.append(_node(text, at))
            at = _past_blank(text, children[-1][1])
            if text[at] == ",":
                at = _past_blank(text, at + 1)
        return begun, at + 1, children
    bare = re.compile(r"[^,\]}#\r\n]*").match(text, at)
    return at, at + len(bare[0].rstrip()), []


def _past_key(text, at):
    """The place of the = or ] behind a key."""
    while text[at] not in "=]":
        at = _past_string(text, at) if text[at] in "\"'" else at + 1
    return at


def _first_part(text, at, end):
    """The first part of a key that may be dotted or quoted."""
    key = text[at:end].strip()
    found = re.match(r'"(?:\\.|[^"\\])*"|\'[^\']*\'|[^.\s]+', key)[0]
    return tomllib.loads(f"{found} = 0").popitem()[0]


def nodes_of(text):
    """For each key of a valid document: the place of the key, and the node of its value (None for a table)."""
    found, at, in_table = {}, _past_blank(text, 0), False
    while at < len(text):
        if text[at] == "[":
            begun = at
            while text[at] == "[":
                at += 1
            end = _past_key(text, at)
            found.setdefault(_first_part(text, at, end), (begun, None))
            in_table, at = True, end
            while at < len(text) and text[at] == "]":
                at += 1
        else:
            end = _past_key(text, at)
            value = _node(text, _past_blank(text, end + 1))
            if not in_table:
                found.setdefault(_first_part(text, at, end), (at, value))
            at = value[1]
        at = _past_blank(text, at)
    return found


def _is_plain(text, node, value):
    """The string stands in the text as it is, between one quote on each side."""
    return text[node[0] + 1 : node[1] - 1] == value


# Kinds and ranges

def _is_integer(value):
    return isinstance(value, int) and not isinstance(value, bool)


def _is_texts(value):
    return isinstance(value, list) and all(isinstance(it, str) for it in value)


def _is_step(value):
    return isinstance(value, str) or _is_texts(value)


def _wrong_member(values, is_right):
    """The number of the first member that is not right, or None where the value is no array."""
    return next((k for k, it in enumerate(values) if not is_right(it)), None) if isinstance(values, list) else None


KIND_TESTS = {"weights": _is_integer, "rows": lambda it: isinstance(it, str), "steps": _is_step}


def _kind_of(value):
    names = ((bool, "a truth value"), (int, "an integer"), (float, "a number with a point"), (str, "a string"), (list, "an array"), (dict, "a table"))
    return next((name for kind, name in names if isinstance(value, kind)), "a date or time")


def _is_printable(text):
    return all(" " <= it <= "~" for it in text)


def _character(it):
    return f"{it} (U+{ord(it):04X})" if it.isprintable() else f"U+{ord(it):04X}"


def _number(text, most):
    """A number from 1 without leading zeros, else None."""
    return int(text) if re.fullmatch(r"[1-9][0-9]{0,6}", text) and int(text) <= most else None


def _why_no_number(text, most):
    if not text:
        return "nothing stands there"
    if not re.fullmatch(r"[0-9]+", text):
        return f"`{text}` has something else than digits"
    if text.strip("0") == "":
        return f"`{text}` is less than 1"
    return f"`{text}` begins with a 0" if text[0] == "0" else f"`{text}` is above {most:,}"


def _is_name(text):
    return bool(re.fullmatch(r"[a-z0-9_]{1,32}", text))


def _why_no_name(text):
    if not text:
        return "it is empty"
    if len(text) > 32:
        return f"it has {len(text)} characters"
    return f"`{re.search('[^a-z0-9_]', text)[0]}` may not stand in it"


# The words of an item. Each finds a mistake as (cause, what is said, first character, last character and one) or None.

def _bad_name(word, at):
    return None if _is_name(word) else ("name", f"`{word}` is no name: {_why_no_name(word)}", at, at + len(word))


def _bad_site(word, at):
    return None if _number(word, 64) else ("site", f"this is no site: {_why_no_number(word, 64)}", at, at + len(word))


def _bad_sites(word, at, cause="sites"):
    low = 0
    for number, piece in enumerate(word.split(",")):
        site = _number(piece, 64)
        if piece == "" and number and word:
            return cause, f"`{word}` is no list of sites: no site stands behind the comma; no spaces may stand in a list", at - 1, at
        if not site:
            return cause, f"`{word}` is no list of sites: {_why_no_number(piece, 64)}", at, at + len(piece)
        if site <= low:
            return cause, f"`{word}` is no list of sites: {site} stands behind {low}", at, at + len(piece)
        low, at = site, at + len(piece) + 1
    return None


def _bad_key(word, at):
    site, point, name = word.partition(".")
    if not point:
        return "record", f"`{word}` is no key: it has no point", at, at + len(word)
    if not _number(site, 64):
        return "record", f"`{word}` is no key: before the point, {_why_no_number(site, 64)}", at, at + len(site)
    if not _is_name(name):
        return "record", f"`{word}` is no key: of the name behind the point, {_why_no_name(name)}", at + len(site) + 1, at + len(word)
    return None


def _bad_value(word, at):
    return None if len(word) <= 256 else ("value", f"the value has {len(word)} characters", at, at + len(word))


def _bad_count(word, at):
    return None if _number(word, 1000000) else ("count", f"this is no count: {_why_no_number(word, 1000000)}", at, at + len(word))


def _bad_leave(word, at):
    if word in ("none", "half", "all"):
        return None
    first, space, number = word.partition(" ")
    if first != "junk":
        return "leave", f"`{word}` is no leave", at, at + len(word)
    if not space:
        return "junk", "the number behind junk is missing", at, at + len(word)
    if number == "0" or _number(number, 255):
        return None
    why = f"`{number}` begins with a 0" if number.strip("0") == "" and number else _why_no_number(number, 255)
    return "junk", f"the number behind junk is none: {why}", at + 5, at + len(word)


def _bad_parts(word, at):
    for part in word.split("|"):
        bad = _bad_sites(part, at, "parts")
        if bad:
            return bad
        at += len(part) + 1
    return None


TESTS = {"NAME": _bad_name, "SITE": _bad_site, "SITES": _bad_sites, "KEY": _bad_key, "VALUE": _bad_value, "COUNT": _bad_count, "LEAVE": _bad_leave, "PARTS": _bad_parts}


def mistake_in(text):
    """The first mistake of an item's text, from the left, or None."""
    if not _is_printable(text):
        at = next(k for k, it in enumerate(text) if not " " <= it <= "~")
        return "bytes", f"the character {_character(text[at])} may not stand in an item", at, at + 1
    verb, _, left = text.partition(" ")
    if verb == "" and text:
        return "spaces", "a space stands before the first word", 0, 1
    if verb not in VERBS:
        return "verb", f"`{verb}` is no verb" if verb else "the item is empty", 0, max(1, len(verb))
    forms, _ = VERBS[verb]
    lacking = forms[len(text.split(" ")) - 1 :]
    if lacking and "" not in text.split(" "):
        hint = ": an empty one needs the space before it" if lacking == ("VALUE",) else ""
        return "few-words", f"`{verb}` wants {' '.join(forms)} behind it; {len(forms) - len(lacking)} of {len(forms)} words are there{hint}", 0, len(text)
    at, has_more = len(verb) + 1, len(text) > len(verb)
    for number, form in enumerate(forms):
        is_rest = form in ("VALUE", "LEAVE")
        word, space, more = (left, "", "") if is_rest else left.partition(" ")
        if word == "" and not is_rest:
            return "spaces", "behind a space comes another, or the end", min(at, len(text)) - 1, min(at, len(text))
        bad = TESTS[form](word, at)
        if bad:
            return bad
        left, at, has_more = more, at + len(word) + 1, bool(space)
    if has_more:
        if left == "" or left[0] == " ":
            return "spaces", "a space stands behind the last word", at - 1, at
        hint = "; no spaces may stand in a list" if left[0] in ",|" else ""
        return "many-words", f"`{left}` stands behind the words of `{verb}`{hint}", at, at + len(left)
    return None


def parts_of(word):
    return [[int(it) for it in part.split(",")] for part in word.split("|")]


class Item:
    """An item that is well formed: its verb and what its words say."""

    def __init__(self, text):
        self.text, (self.verb, _, left) = text, text.partition(" ")
        for form in VERBS[self.verb][0]:
            word, _, left = (left, "", "") if form in ("VALUE", "LEAVE") else left.partition(" ")
            setattr(self, form.lower(), word)
        self.places = [int(self.site)] if hasattr(self, "site") else []
        if hasattr(self, "key"):
            self.places = [int(self.key.split(".")[0])]
        self.group = [int(it) for it in self.sites.split(",")] if hasattr(self, "sites") else []


class _Said:
    """What the items so far say."""

    def __init__(self, count):
        self.all = set(range(1, count + 1))
        self.begun, self.fresh, self.operations, self.parts = {}, {}, {}, [self.all]

    def lacking(self, sites, what):
        wrong = sorted(set(sites) - self.all)
        if wrong:
            raise _Wrong("no-site", f"{what} {wrong[0]} has no weight: the sites are 1 to {len(self.all)}", str(wrong[0]))

    def known(self, item, sites, later):
        """The name was begun in an earlier step, and the sites are its transaction's."""
        if item.name not in self.begun:
            here, after = later()
            where = "begun-here" if item.name in here else "begun-later" if item.name in after else "not-begun"
            raise _Wrong(where, f"`{item.name}` is not begun in an earlier step", item.name)
        wrong = sorted(set(sites) - set(self.begun[item.name]))
        if wrong:
            own = ",".join(map(str, self.begun[item.name]))
            raise _Wrong("other-site", f"site {wrong[0]} is none of the sites of `{item.name}`, which are {own}", str(wrong[0]))

    def judge(self, item, later):
        getattr(self, f"_{item.verb}")(item, later)

    def _begin(self, item, later):
        if len(self.begun) + len(self.fresh) >= MOST_BEGINS:
            raise _Wrong("begins", f"this is begin {MOST_BEGINS + 1}", None)
        self.lacking(item.group + item.places, "site")
        if item.places[0] not in item.group:
            raise _Wrong("coordinator", f"the coordinator {item.site} is none of the sites {item.sites}", item.site)
        for begun, cause in ((self.begun, "begun-before"), (self.fresh, "begun-twice")):
            if item.name in begun:
                raise _Wrong(cause, f"`{item.name}` is begun before", item.name)
        self.fresh[item.name] = item.group

    def _read(self, item, later):
        if self.operations.get(item.name, 0) >= MOST_OPERATIONS:
            raise _Wrong("operations", f"this is operation {MOST_OPERATIONS + 1} of `{item.name}`", None)
        self.lacking(item.places, "site")
        self.known(item, item.places, later)
        self.operations[item.name] = self.operations.get(item.name, 0) + 1

    _write = _read

    def _commit(self, item, later):
        self.known(item, [], later)

    _cancel = _commit

    def _expire(self, item, later):
        self.lacking(item.places, "site")
        self.known(item, item.places, later)

    def _elect(self, item, later):
        self.lacking(item.group + item.places, "site")
        if item.places[0] not in item.group:
            raise _Wrong("elector", f"the elector {item.site} is none of its group {item.sites}", item.site)
        self.known(item, item.group, later)

    def _recover(self, item, later):
        self.lacking(item.group, "site")
        if not any(set(item.group) <= set(part) for part in self.parts):
            parts = "|".join(",".join(map(str, sorted(part))) for part in self.parts)
            raise _Wrong("apart", f"the sites {item.sites} lie in several of the parts {parts}", item.sites)

    def _split(self, item, later):
        parts = parts_of(item.parts)
        self.lacking([site for part in parts for site in part], "site")
        for site in sorted(self.all):
            count = sum(site in part for part in parts)
            if count != 1:
                raise _Wrong("part-twice" if count else "part-lacking", f"site {site} is in {count} parts" if count else f"site {site} is in no part", str(site) if count else None)
        self.parts = parts

    def _merge(self, item, later):
        self.parts = [self.all]

    def _crash(self, item, later):
        self.lacking(item.places, "site")

    _restart = _stop = _crash

    def close(self):
        self.begun.update(self.fresh)
        self.fresh = {}


class _Wrong(Exception):
    def __init__(self, cause, said, word):
        super().__init__(said)
        self.cause, self.said, self.word = cause, said, word


class Scenario:
    """A scenario that was read. Each step is a list of texts; `is_group` says whether it stood in an inner array."""

    def __init__(self, weights, rows, loss, repeat, luck, steps, is_group):
        self.weights, self.rows, self.loss, self.repeat, self.luck = weights, rows, loss, repeat, luck
        self.steps, self.is_group = steps, is_group

    def text(self):
        """The scenario as TOML, a step on a line."""
        quoted = lambda it: '"' + it.replace("\\", "\\\\").replace('"', '\\"') + '"'
        lines = [f"weights = [{', '.join(map(str, self.weights))}]"]
        if self.rows:
            lines.append(f"rows = [{', '.join(map(quoted, self.rows))}]")
        lines += [f"{name} = {getattr(self, name)}" for name in ("loss", "repeat", "luck") if getattr(self, name)]
        lines.append("steps = [")
        for step, grouped in zip(self.steps, self.is_group):
            items = ", ".join(map(quoted, step))
            lines.append(f"  [{items}]," if grouped else f"  {items},")
        return "\n".join(lines + ["]"]) + "\n"


def read(data):
    """The scenario that the bytes spell; raises their first fault."""
    if len(data) > MOST_BYTES:
        raise Fault("too-long", f"the text has {len(data):,} bytes")
    try:
        text = data.decode("utf-8")
    except UnicodeDecodeError as e:
        at = len(data[: e.start].decode("utf-8"))
        raise Fault("encoding", f"byte {e.start + 1} of the text, hexadecimal {data[e.start]:02X}, in line {data.count(10, 0, e.start) + 1}, is no part of a character", at, at + 1)
    return _Reader(text, _document(text)).scenario()


def _document(text):
    try:
        table = tomllib.loads(text)
    except tomllib.TOMLDecodeError as e:
        raise _no_toml(text, str(e))
    large = next((it for it in _integers(table) if not -(2**63) <= it < 2**63), None)
    if large is not None:
        at = text.find(str(large))
        raise Fault("integer", f"{large} is past 64 bits", *([at, at + len(str(large))] if at >= 0 else []))
    return table


def _no_toml(text, said):
    """The fault of a text of which Python's reader says this."""
    place = re.search(r" \(at line (\d+), column (\d+)\)$", said)
    at = len(text.rstrip())
    if place:
        # (tomllib counts lines of the text with its line ends made one character)
        lines = text.replace("\r\n", "\n").split("\n")
        at = len("\n".join(lines[: int(place[1]) - 1])) + (int(place[1]) > 1) + int(place[2]) - 1
        at += text.replace("\r\n", "\n").count("\n", 0, at) if "\r\n" in text else 0
        said = said[: place.start()]
    said = said.removesuffix(" (at end of document)")
    guess, start, end = _guess(text, at, said)
    return Fault("toml", f"{guess + '; ' if guess else ''}this Python's reader says: {said}", start, end)


def _guess(text, at, said):
    """What may be wrong where Python's reader stopped, and the place of it; None and the reader's own place where nothing is known."""
    opened, quote, value = _before(text, at)
    line = lambda it: text.count("\n", 0, it) + 1
    if said.startswith("Cannot overwrite a value"):
        # (the reader stops behind the second value)
        found = [it for it in re.finditer(r"^[ \t]*([A-Za-z0-9_-]+)[ \t]*=", text, re.M) if it.start() < at]
        if found and len([it for it in found if it[1] == found[-1][1]]) > 1:
            return f"`{found[-1][1]}` stands twice", found[-1].start(1), found[-1].end(1)
    if quote is not None:
        return f"the string begun in line {line(quote)} is not closed", quote, quote + 1
    if opened and (not text[at:].strip() or re.match(r"[A-Za-z0-9_-]+[ \t]*=", text[at:])):
        return f"the array begun in line {line(opened[-1])} is not closed", opened[-1], opened[-1] + 1
    if opened and said.startswith("Unclosed array") and value:
        return f"a comma may be missing behind the value before, at line {line(value - 1)}", value - 1, value
    at = max(0, min(at, len(text.rstrip()) - 1))
    return None, at, at + 1


def _before(text, end):
    """Of the text before a place: the arrays that are open, the string that is not closed, and the end of the last value."""
    opened, value, at = [], 0, 0
    while at < end:
        it = text[at]
        if it == "#":
            at = text.find("\n", at) if "\n" in text[at:] else len(text)
            continue
        if it in "\"'":
            try:
                past = _past_string(text, at)
            except IndexError:
                return opened, at, value
            if "\n" in text[at:past] and not text.startswith((3 * it), at):
                return opened, at, value
            at = value = past
            continue
        if it == "[":
            opened.append(at)
        elif it == "]" and opened:
            opened.pop()
        at += 1
        value = value if it in " \t\r\n,[" else at
    return opened, None, value


def _integers(value):
    if _is_integer(value):
        yield value
    for it in value.values() if isinstance(value, dict) else value if isinstance(value, list) else []:
        yield from _integers(it)


class _Reader:
    def __init__(self, text, table):
        self.text, self.table, self.nodes = text, table, nodes_of(text)

    def fault(self, cause, said, key=None, path=(), word=None, **more):
        """A fault at a key, or at a member of its value. `word` is a part of a string: its two ends."""
        start = end = None
        if key in self.nodes:
            start, node = self.nodes[key]
            end = start + len(key)
            node = node if key in KEYS else None
            for k in path:
                node = node and node[2][k] if node and k < len(node[2]) else None
            if node:
                start, end = node[0], node[1]
                value = self.table[key]
                for k in path:
                    value = value[k]
                if word and isinstance(value, str) and _is_plain(self.text, node, value):
                    start, end = node[0] + 1 + word[0], node[0] + 1 + word[1]
        return Fault(cause, said, start, end, **more)

    def scenario(self):
        for key in self.nodes:
            if key not in KEYS:
                near = next(iter(difflib.get_close_matches(key.lower(), KEYS, 1, 0.5)), None)
                hint = f"; did you mean `{near}`?" if near else ""
                raise self.fault("key", f"`{key}` is none of the six keys{hint}", key, example=KEYS[near][1] if near else None)
        self.kinds()
        weights, rows = self.weights(), self.rows(len(self.table["weights"]))
        loss, repeat, luck = self.numbers()
        self.sizes()
        self.rows_differ(rows)
        self.items(len(weights))
        steps = self.table["steps"]
        listed = [[it] if isinstance(it, str) else it for it in steps]
        return Scenario(weights, rows, loss, repeat, luck, listed, [isinstance(it, list) for it in steps])

    def kinds(self):
        for key in KEYS:
            value, (kind, example) = self.table.get(key), KEYS[key]
            if value is None and key not in ("weights", "steps"):
                continue
            if value is None:
                raise self.fault("missing", f"the key `{key}` is missing", None, field=key, example=example, wanted=f"{key}: {kind}")
            if key in KIND_TESTS:
                wrong = _wrong_member(value, KIND_TESTS[key])
                if not isinstance(value, list):
                    raise self.fault("kind", f"`{key}` is {_kind_of(value)}, and no array", key, field=key, example=example, wanted=f"{key}: {kind}")
                if wrong is not None:
                    inner = _wrong_member(value[wrong], lambda it: isinstance(it, str)) if key == "steps" else None
                    path = (wrong,) if inner is None else (wrong, inner)
                    found = value[wrong] if inner is None else value[wrong][inner]
                    raise self.fault("kind", f"member {wrong + 1} of `{key}` {'is' if inner is None else 'has'} {_kind_of(found)}", key, path, field=key, example=example, wanted=f"{key}: {kind}")
            elif not _is_integer(value):
                raise self.fault("kind", f"`{key}` is {_kind_of(value)}, and no integer", key, field=key, example=example, wanted=f"{key}: {kind}")

    def weights(self):
        weights = self.table["weights"]
        if not 1 <= len(weights) <= MOST_SITES:
            raise self.fault("sites-count", f"there are {len(weights)} weights", "weights", field="weights")
        for k, it in enumerate(weights):
            if not 1 <= it <= 1000:
                raise self.fault("weight", f"the weight of site {k + 1} is {it}", "weights", (k,), field="weights")
        return weights

    def rows(self, count):
        rows = self.table.get("rows", [])
        for k, row in enumerate(rows):
            at = lambda cause, said, word: self.fault(cause, f"row {k + 1}: {said}", "rows", (k,), word, field="rows")
            key, space, value = row.partition(" ")
            if not _is_printable(row):
                wrong = next(n for n, it in enumerate(row) if not " " <= it <= "~")
                raise at("row-bytes", f"the character {_character(row[wrong])} may not stand in it", (wrong, wrong + 1))
            bad = _bad_key(key, 0)
            if bad:
                raise at("row-key", bad[1], (bad[2], max(bad[3], bad[2] + 1)))
            if not space:
                raise at("row-form", "it has no value, not even an empty one", (0, len(row)))
            if len(value) > 256:
                raise at("row-value", f"the value has {len(value)} characters", (len(key) + 1, len(row)))
            site = int(key.split(".")[0])
            if site > count:
                raise at("row-site", f"site {site} has no weight: the sites are 1 to {count}", (0, len(str(site))))
        return rows

    def numbers(self):
        loss, repeat, luck = (self.table.get(it, 0) for it in ("loss", "repeat", "luck"))
        if not 0 <= loss <= 100:
            raise self.fault("loss", f"loss is {loss}", "loss")
        if not 0 <= repeat <= 100:
            raise self.fault("repeat", f"repeat is {repeat}", "repeat")
        if loss + repeat > 100:
            raise self.fault("shares", f"loss plus repeat is {loss + repeat}", "repeat")
        if luck < 0:
            raise self.fault("luck", f"luck is {luck}", "luck")
        return loss, repeat, luck

    def sizes(self):
        steps, room = self.table["steps"], MOST_ITEMS
        if len(steps) > MOST_STEPS:
            raise self.fault("steps-count", f"there are {len(steps):,} steps", "steps", (MOST_STEPS,))
        for k, step in enumerate(steps):
            size = 1 if isinstance(step, str) else len(step)
            if size < 1:
                raise self.fault("empty-group", f"step {k + 1} is an empty group", "steps", (k,))
            if size > MOST_IN_GROUP:
                raise self.fault("large-group", f"step {k + 1} has {size} items", "steps", (k,))
            if size > room:
                raise self.fault("items-count", f"with step {k + 1} there are more than {MOST_ITEMS:,} items", "steps", (k,))
            room -= size

    def rows_differ(self, rows):
        seen = {}
        for k, row in enumerate(rows):
            key = row.partition(" ")[0]
            if key in seen:
                raise self.fault("row-twice", f"rows {seen[key] + 1} and {k + 1} have the key {key}", "rows", (k,), (0, len(key)))
            seen[key] = k

    def items(self, count):
        said, steps = _Said(count), self.table["steps"]
        begins = [[it.split(" ")[1] for it in ([step] if isinstance(step, str) else step) if it.startswith("begin ")] for step in steps]
        for number, step in enumerate(steps):
            grouped = isinstance(step, list)
            for k, text in enumerate(step if grouped else [step]):
                path = (number, k) if grouped else (number,)
                verb = text.split(" ")[0]
                where = {"step": number + 1, "item": k + 1, "verb": verb}
                bad = mistake_in(text)
                if bad:
                    cause, why, start, end = bad
                    # (a stop of another leave says nothing of junk)
                    example = VERBS[verb][1] if verb in VERBS and cause not in ("leave", "junk") else None
                    raise self.fault(cause, why, "steps", path, (start, max(end, start + 1)), example=example and f'"{example}"', **where)
                item = Item(text)
                if grouped and item.verb not in GROUPABLE:
                    raise self.fault("grouped", f"`{item.verb}` stands in an inner array", "steps", path, (0, len(item.verb)), example=f'"{text}"', **where)
                try:
                    said.judge(item, lambda: (begins[number], {it for later in begins[number + 1 :] for it in later}))
                except _Wrong as e:
                    found = re.search(rf"(?<![0-9a-z_]){re.escape(e.word)}(?![0-9a-z_])", text[len(item.verb) :]) if e.word else None
                    word = (found.start() + len(item.verb), found.end() + len(item.verb)) if found else (0, len(text))
                    raise self.fault(e.cause, e.said, "steps", path, word, **where)
            said.close()
