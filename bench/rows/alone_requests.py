"""What a router alone has to do for each open request, with two shards that both have keys: what it sends, and when it gives up (MongoDB manual, "insert",
"update", "delete", "ordered", "maxTimeMS", "Sharded Cluster Query Routing"; that ten tries are made is own)."""
from collections import namedtuple

from alone import request
from bson import array, doc, field, int32, int64, stamp, text, whole
from changing import key_of
from cluster import done, refusal, write_error
from commands import Refused
from order import order_of
from wire import Request

# statements that were sent to a shard together, by a table of this version
Run = namedtuple("Run", "shard version indices")
# a request that was sent by a table of the first version, to a shard whose table has the second
Try = namedtuple("Try", "sent met")
MOST_TRIES = 10


class Outcome:
    """The outcome of a statement: `SECONDS.COUNTER N`, or `N MODIFIED`, `upserts KEY`, `error CODE`; or `old TRANSACTION`."""

    def __init__(self, words):
        first, rest = words.split(" ", 1)
        self.at, self.count, self.modified, self.upserted, self.code, self.evidence = None, 0, 0, None, 0, []
        if first == "old":
            self.code, self.evidence = 225, [("txnNumber", int64(int(rest)))]
            return
        self.at = stamp(*map(int, first.split(".")))
        word, _, more = rest.partition(" ")
        if word == "error":
            self.code = int(more)
        elif word == "upserts":
            self.count, self.upserted = 1, int32(int(more))
        else:
            self.count, self.modified = int(word), int(more or 0)


class GivenUp:
    """The outcome of a statement that was given up."""

    def __init__(self, refused):
        self.at, self.count, self.modified, self.upserted, self.code, self.evidence = None, 0, 0, None, refused.code, refused.evidence


def outcomes_of(words):
    """Pairs of an index and an outcome, in order."""
    pairs = [item.split(" ", 1) for item in words.split(", ")] if words else []
    return [(int(index), Outcome(rest)) for index, rest in pairs]


def expired(arrived, now):
    """The time limit has passed, from this moment on."""
    return Refused(50, ("arrived", int64(arrived)), ("now", int64(now)))


def lacking(node, words):
    """A node is out of memory, `memory`, or at its last step, `steps N`."""
    word, _, steps = words.partition(" ")
    return Refused(146) if word == "memory" else Refused(91, ("node", int32(node)), ("steps", int64(int(steps))))


def worn_out(tries):
    """Each try met a later table."""
    def version(of):
        return doc(("epoch", int64(of[0])), ("major", int64(of[1])))
    return Refused(13388, ("tries", array([doc(("sent", version(one.sent)), ("met", version(one.met))) for one in tries])))


class Table:
    """The first shard has the keys below this one. Those from it on moved to the second, and then so many times from one to the other."""

    def __init__(self, middle, moves):
        self.middle, self.moves = order_of(int32(middle)), moves
        self.upper, self.version = 2 - moves % 2, (1, 2 + moves)

    def owner(self, key):
        return 1 if key < self.middle else self.upper

    def reaches(self, tries):
        """It is not older than the table that the last of these tries met."""
        return not tries or tries[-1].met <= self.version


class Asked:
    """A request that is not answered. Its time limit is in milliseconds, none where it is 0, from the last moment before it came."""

    def __init__(self, source, number, command, arrived):
        self.source, self.number, self.namespace = source, number, command["own"]
        self.arrived, self.limit = arrived, command.get("maxTimeMS") or 0

    def is_expired(self, moment):
        return self.limit > 0 and self.arrived + self.limit <= moment

    def is_bound(self):
        return False

    def give_up(self, refused, time):
        """The fields of the reply where all of it is given up."""
        return refusal(refused)


class Write(Asked):
    """A write: the keys of its statements, their outcomes and tries, and the runs that are under way."""

    asks, table_kind = "TableAsk 0", "create"

    def __init__(self, source, number, command, arrived):
        super().__init__(source, number, command, arrived)
        self.kind, self.is_ordered, self.transaction = command["name"], command.get("ordered", True), command.get("txnNumber")
        self.keys = [order_of(key_of(self.kind, statement)) for statement in command["statements"]]
        self.outcomes, self.runs, self.tries = {}, [], [[] for _ in self.keys]

    def note(self, listed):
        """Takes outcomes, and tells whether one is new: the first of a statement; of an ordered write one behind outcomes of all statements before."""
        before = len(self.outcomes)
        for index, outcome in listed:
            is_next = not self.is_ordered or all(other in self.outcomes for other in range(index))
            if index < len(self.keys) and is_next:
                self.outcomes.setdefault(index, outcome)
        return len(self.outcomes) > before

    def is_answered(self):
        """Each statement has an outcome; of an ordered write each up to the first error."""
        for index in range(len(self.keys)):
            if index not in self.outcomes:
                return False
            if self.is_ordered and self.outcomes[index].code:
                return True
        return True

    def unanswered(self):
        return [index for index in range(len(self.keys)) if index not in self.outcomes]

    def unsent(self):
        """The statements that are to be sent: of an ordered write none while a run is under way."""
        under_way = [index for run in self.runs for index in run.indices]
        if self.is_ordered and under_way:
            return []
        return [index for index in self.unanswered() if index not in under_way]

    def waits_for_catalogue(self):
        return bool(self.unsent())

    def next_runs(self, table):
        """One run to the owner of the first statement, as far as those behind it go there too; of an unordered write one to each owner. A statement goes by no
        table that is older than the one that it met."""
        runs = {}
        for index in self.unsent():
            shard = table.owner(self.keys[index]) if table.reaches(self.tries[index]) else None
            if self.is_ordered and (shard is None or runs and shard not in runs):
                break
            if shard is not None:
                runs.setdefault(shard, []).append(index)
        return [Run(shard, table.version, indices) for shard, indices in runs.items()]

    def left_of(self, runs):
        """What has no outcome of runs."""
        left = [run._replace(indices=[index for index in run.indices if index not in self.outcomes]) for run in runs]
        return [run for run in left if run.indices]

    def served_in_part(self):
        return [run for run in self.runs if any(index in self.outcomes for index in run.indices)]

    def turn(self, run):
        """One more than the tries of its first statement."""
        return len(self.tries[run.indices[0]]) + 1

    def asked(self, runs):
        """The messages of runs; the first turn is not told."""
        more = "" if self.transaction is None else f" txn {self.transaction}"
        turns = [f" turn {self.turn(run)}" if self.turn(run) > 1 else "" for run in runs]
        return [f"WriteAsk {run.shard}{turn}: {' '.join(map(str, run.indices))}{more}" for run, turn in zip(runs, turns)]

    def again(self):
        return ([self.asks] if self.waits_for_catalogue() else []) + self.asked(self.runs)

    def goes_on(self, table, asks, time, again=()):
        """What is sent, or the fields of the answer: these runs again, and the next; where statements are left for no table, the catalogue is asked."""
        if self.is_answered():
            return [], self.answer(time)
        more = self.next_runs(table) if table else []
        self.runs = self.runs + more
        sent = self.asked([*again, *more])
        return ([self.asks] if asks and self.unsent() else []) + sent, None

    def arrives(self, table, time):
        """The table that it waits for comes."""
        return self.goes_on(table, False, time)

    def is_bound(self):
        """Several statements of an ordered write are under way: what is given up of them might be done while the others are not."""
        return self.is_ordered and any(len(run.indices) > 1 for run in self.runs)

    def leave(self, indices, refused):
        """These statements are given up, of an ordered write the first."""
        for index in indices[:1] if self.is_ordered else indices:
            self.outcomes.setdefault(index, GivenUp(refused))
        self.runs = self.left_of(self.runs)

    def give_up(self, refused, time):
        self.leave(self.unanswered(), refused)
        return self.answer(time)

    def give_up_unsent(self, refused, table, time):
        """What waits for a table is given up."""
        self.leave(self.unsent(), refused)
        return self.goes_on(table, False, time)

    def run_of(self, turn, first):
        """The run under way of that turn, whose first statement is that."""
        return next((run for run in self.runs if run.indices[0] == first and self.turn(run) == turn), None)

    def meets(self, run, met, table, time):
        """A run met a later table: it is tried again, but for what has had all its tries."""
        for index in run.indices:
            self.tries[index].append(Try(run.version, met))
        self.runs.remove(run)
        for index in run.indices[:1] if self.is_ordered else run.indices:
            if len(self.tries[index]) == MOST_TRIES:
                self.outcomes[index] = GivenUp(worn_out(self.tries[index]))
        return self.goes_on(table, table is None or table.version < met, time)

    def refused(self, sender, turn, first, why, table, time):
        """What was sent is refused: for a lack, or for a table of this version, a pair."""
        run = self.run_of(turn, first)
        if run is None:
            return [], None
        if isinstance(why, tuple):
            return self.meets(run, why, table, time)
        if self.is_ordered and len(run.indices) > 1:
            return [], None
        self.leave(run.indices, why)
        return self.goes_on(table, False, time)

    def answer(self, time):
        """The joint answer; its time is the greatest of the statements that were applied, or else this one of the router."""
        listed = sorted(self.outcomes.items())
        fields = [("n", whole(sum(outcome.count for _, outcome in listed)))]
        if self.kind == "update":
            fields.append(("nModified", whole(sum(outcome.modified for _, outcome in listed))))
            upserted = [doc(("index", int32(index)), ("_id", outcome.upserted)) for index, outcome in listed if outcome.upserted]
            fields += [("upserted", array(upserted))] if upserted else []
        errors = [write_error(index, outcome.code, outcome.evidence) for index, outcome in listed if outcome.code]
        fields += [("writeErrors", array(errors))] if errors else []
        return fields + done(max((outcome.at for _, outcome in listed if outcome.at is not None), default=time))


class Read(Asked):
    """A read of all keys, or of one; what its documents make is told by hand. It waits for its time, a table, or the shards that were asked, by a version."""

    asks = "TableAsk 0"

    def __init__(self, source, number, command, arrived, time):
        super().__init__(source, number, command, arrived)
        named, _ = command.get("readConcern") or (None, None)
        self.at = time if named is None else named
        self.waits_for = "time" if self.at > time else "catalogue"
        key = field(command.get("filter") or [], "_id")
        self.key = None if key is None else order_of(key)
        self.tries, self.told, self.parts, self.shards, self.version = [], [], [], [], None

    @property
    def table_kind(self):
        return f"{self.at >> 32}.{self.at & 0xFFFFFFFF}"

    def waits_for_catalogue(self):
        return self.waits_for == "catalogue"

    def awaited(self):
        return [shard for shard in self.shards if shard not in self.parts]

    def asked(self, shards):
        turn = len(self.tries) + 1
        return [f"ReadAsk {shard}{f' turn {turn}' if turn > 1 else ''}" for shard in shards]

    def again(self):
        if self.waits_for == "time":
            return [f"TimeAsk {shard}" for shard in (1, 2) if shard not in self.told]
        return [self.asks] if self.waits_for_catalogue() else self.asked(self.awaited())

    def goes_on(self, table, asks, time):
        if self.waits_for == "time":
            return self.again(), None
        self.parts, self.shards, self.waits_for = [], [], "catalogue"
        if table is None or not table.reaches(self.tries):
            return [self.asks] if asks else [], None
        self.shards = sorted({1, table.upper} if self.key is None else {table.owner(self.key)})
        self.version, self.waits_for = table.version, "shards"
        return self.asked(self.shards), None

    def arrives(self, table, time):
        return self.goes_on(table, False, time)

    def give_up_unsent(self, refused, table, time):
        return [], refusal(refused)

    def gains(self, shard, turn):
        """A part comes: whether it is the last one."""
        if self.waits_for == "shards" and turn == len(self.tries) + 1 and shard in self.awaited():
            self.parts.append(shard)
            return not self.awaited()
        return False

    def refused(self, sender, turn, first, why, table, time):
        if self.waits_for == "time":
            is_for_it = (turn, first) == (0, 0) and sender not in self.told and not isinstance(why, tuple)
            return [], refusal(why) if is_for_it else None
        if self.waits_for_catalogue() or (turn, first) != (len(self.tries) + 1, 0) or sender not in self.awaited():
            return [], None
        if not isinstance(why, tuple):
            return [], refusal(why)
        self.tries.append(Try(self.version, why))
        if len(self.tries) == MOST_TRIES:
            return [], refusal(worn_out(self.tries))
        return self.goes_on(table, True, time)


class Task(Asked):
    """A `shardCollection` or a `split`: the catalogue is asked alone."""

    def __init__(self, source, number, command, arrived):
        super().__init__(source, number, command, arrived)
        self.is_split = command["name"] == "split"
        self.asks, self.table_kind = ("SplitAsk 0", None) if self.is_split else ("TableAsk 0", "create")

    def waits_for_catalogue(self):
        return True

    def again(self):
        return [self.asks]

    def goes_on(self, table, asks, time):
        return [self.asks] if asks else [], None

    def arrives(self, table, time):
        return [], None

    def give_up_unsent(self, refused, table, time):
        return [], refusal(refused)

    def created(self, time):
        """The table comes that was requested with its creation."""
        return [], None if self.is_split else [("collectionsharded", text(self.namespace))] + done(time)

    def refused(self, sender, turn, first, why, table, time):
        is_for_it = self.is_split and (turn, first) == (0, 0) and not isinstance(why, tuple)
        return [], refusal(why) if is_for_it else None


def open_request(source, number, arrived, time):
    """The request that comes."""
    command = Request(request(source)).command()
    if command["name"] in ("shardCollection", "split"):
        return Task(source, number, command, arrived)
    return Read(source, number, command, arrived, time) if command["name"] == "find" else Write(source, number, command, arrived)
