"""Rows of a router alone, with two shards that both have keys. Each step is a row, whose messages and replies are told by hand too: both must agree."""
from alone import part, request
from alone_requests import Read, Table, Task, Write, expired, lacking, open_request, outcomes_of
from bson import DOCUMENT, fields_of, shown
from wire import Request, reply_bytes


def listed(says):
    """The replies that are told by hand: none, one or several."""
    return [] if says is None else [says] if isinstance(says, str) else says


def cause_of(node, words):
    """Why a node refuses: `stale EPOCH MAJOR` is the version of its table, and others are lacks."""
    word, _, rest = words.partition(" ")
    return tuple(map(int, rest.split(" "))) if word == "stale" else lacking(node, words)


class Router:
    """A router and its rows: the tables that it knows, and the requests that are open, by their counts."""

    def __init__(self, title):
        self.lines, self.time, self.moment_now, self.count = ["", f"# {title}", "router"], 0, 0, 0
        self.tables, self.open = {}, {}

    def row(self, step, sent, sends, gets=(), says=None, note=None):
        """One more row: what is sent and returned must be what is told by hand. `gets`: pairs of a request and the fields of its reply."""
        told = [shown((DOCUMENT, fields)) for _, fields in gets]
        wanted = [shown((DOCUMENT, fields_of(one))) for one in listed(says)]
        if (", ".join(sent), told) != (sends, wanted):
            raise SystemExit(f"{self.lines[1]}\n{step}\nwanted {sends} {wanted}\ntold   {', '.join(sent)} {told}")
        replies = ", ".join(reply_bytes(Request(request(one.source)), one.number, fields).hex() for one, fields in gets)
        words = ": ".join(word for word in (note, ", ".join(told)) if word)
        self.lines += [f"# {words}"] if words else []
        self.lines.append(f"{step} | {sends}{' ' if sends else ''}| {replies}".rstrip(" |"))
        return self

    def take(self, counts, step):
        """What becomes of these requests, in order: what is sent, and what those get that are answered."""
        sent, gets = [], []
        for count in counts:
            one = self.open[count]
            letters, fields = step(one)
            sent += letters
            if fields is not None:
                del self.open[count]
                gets.append((one, fields))
        return sent, gets

    def table_of(self, one):
        return self.tables.get(one.namespace)

    def moment(self, milliseconds, sends="", says=None):
        """What is under way is sent again as it was, but for what its time limit has passed of."""
        self.time, self.moment_now = milliseconds // 1000 << 32, milliseconds

        def step(one):
            if one.is_expired(milliseconds) and not one.is_bound():
                return [], one.give_up(expired(one.arrived, milliseconds), self.time)
            return one.again(), None
        sent, gets = self.take(list(self.open), step)
        return self.row(f"moment {milliseconds} |", sent, sends, gets, says)

    def asks(self, source, sends="TableAsk 0", number=None):
        """A request comes."""
        self.count += 1
        one = self.open[self.count] = open_request(source, number or self.count, self.moment_now, self.time)
        sent, _ = one.goes_on(self.table_of(one), True, self.time)
        return self.row(f"asks {one.number} | {request(source).hex()}", sent, sends, note=source)

    def told(self, verb, middle, moves, sends, says):
        """The table of `d.c` comes, with so many moves more, and what waits for it goes on."""
        old = self.tables.get("d.c")
        if old is None or old.moves < moves:
            self.tables["d.c"] = Table(middle, moves)

        def step(one):
            if isinstance(one, Task) and verb == "begun":
                return one.created(self.time)
            return one.arrives(self.tables["d.c"], self.time)
        waiting = [count for count, one in self.open.items() if one.namespace == "d.c" and one.waits_for_catalogue()]
        sent, gets = self.take(waiting, step)
        return self.row(f"{verb} {middle} |" + (f" {moves}" if moves else ""), sent, sends, gets, says)

    def begun(self, sends, middle=10, moves=0, says=None):
        return self.told("begun", middle, moves, sends, says)

    def table(self, sends, middle=10, moves=0, says=None):
        return self.told("table", middle, moves, sends, says)

    def part(self, shard, documents, count=1, turn=1, gets=None):
        """A part of a read comes; what the last one gets is told by hand alone."""
        one = self.open.get(count)
        is_last = isinstance(one, Read) and one.gains(shard, turn)
        if is_last != (gets is not None):
            raise SystemExit(f"{self.lines[1]}\na part that is the last one: {is_last}")
        if is_last:
            del self.open[count]
        self.lines.append(part(shard, documents, count, turn, gets))
        return self

    def reaches(self, shard, count):
        """A shard returns its time, which is behind what a read waits for."""
        one = self.open.get(count)
        if isinstance(one, Read) and one.waits_for == "time" and shard not in one.told:
            one.told.append(shard)
        return self.row(f"time {shard} {count} |", [], "")

    def done(self, shard, count, outcomes, sends="", says=None):
        """Outcomes come."""
        write, sent, gets = self.open.get(count), [], []
        if isinstance(write, Write) and write.note(outcomes_of(outcomes)):
            again = write.left_of(write.served_in_part())
            write.runs = write.left_of(write.runs)
            sent, gets = self.take([count], lambda one: one.goes_on(self.table_of(one), one.is_ordered, self.time, again))
        return self.row(f"done {shard} {count} | {outcomes}", sent, sends, gets, says)

    def refused(self, node, count, turn, first, words, sends="", says=None):
        """What was sent for a request, in a turn and from a statement on, is refused."""
        why = cause_of(node, words)
        counts = [count] if count in self.open else []
        sent, gets = self.take(counts, lambda one: one.refused(node, turn, first, why, self.table_of(one), self.time))
        return self.row(f"refused {node} {count} {turn} {first} | {words}", sent, sends, gets, says)

    def no_table(self, kind, words, sends="", says=None):
        """The request for the table of `d.c` is refused, of this kind: `create`, the time of a read, or `plain`."""
        why = lacking(0, words)
        waiting = [count for count, one in self.open.items() if one.namespace == "d.c" and one.waits_for_catalogue() and one.table_kind == kind]
        sent, gets = self.take(waiting, lambda one: one.give_up_unsent(why, self.table_of(one), self.time))
        return self.row(f"no_table {kind} | {words}", sent, sends, gets, says)
