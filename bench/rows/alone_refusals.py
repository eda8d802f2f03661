"""Rows of a router alone, with two shards that both have keys: what was sent is refused, for a later table or a lack, and time limits pass. The keys from 10 on
are the second shard's, and after one move more the first's."""
from alone import FIND, refused
from alone_router import Router
from alone_writes import LOWER, SESSION, UPPER, answered, begun, errors, insert, three, too_old, two_runs, unordered
from reads import first

BOTH, ALL = "ReadAsk 1, ReadAsk 2", "WriteAsk 1: 0 2, WriteAsk 2: 1"
SHARDED = '{collectionsharded: "d.c", ok: 1, operationTime: Timestamp(5, 0)}'
SHARD, SPLIT = '{shardCollection: "d.c", key: {_id: 1}, $db: "admin"}', '{split: "d.c", middle: {_id: 5}, $db: "admin"}'
AHEAD = '{find: "c", readConcern: {level: "snapshot", atClusterTime: Timestamp(9, 0)}, $db: "d"}'
# the version of the table that comes first, and those behind one move more, and two
FIRST, SECOND, THIRD = (1, 2), (1, 3), (1, 4)
MEMORY = 146, "ExceededMemoryLimit"


def limited(source, milliseconds):
    return source.replace(", $db", f", maxTimeMS: {milliseconds}, $db")


def stale(*tries):
    """What is shown of tries, each a pair of versions."""
    def version(of):
        return f"{{epoch: {of[0]}L, major: {of[1]}L}}"
    items = ", ".join(f"{{sent: {version(sent)}, met: {version(met)}}}" for sent, met in tries)
    return 13388, "StaleConfig", f", evidence: {{tries: [{items}]}}"


def last_step(node, steps):
    return 91, "ShutdownInProgress", f", evidence: {{node: {node}, steps: {steps}L}}"


def expired(arrived, now):
    return 50, "MaxTimeMSExpired", f", evidence: {{arrived: {arrived}L, now: {now}L}}"


def failed(n, *listed, counter=0, seconds=5):
    """The reply to a write with errors."""
    return answered(n, counter, errors(*listed), seconds)


def read(title, source=FIND, sends=BOTH):
    return Router(title).moment(5000).asks(source).table(sends)


def tried_again():
    one = insert(11)
    return [
        begun("a later table that the router has: the run is tried again at once", one, "WriteAsk 2: 0")
        .refused(2, 1, 1, 0, "stale 1 2", "WriteAsk 2 turn 2: 0").moment(6000, "WriteAsk 2 turn 2: 0").done(2, 1, "0 6.1 1", says=answered(1, 1, seconds=6)),
        begun("one that it has not: the catalogue is asked, and the run goes to the owner by the table that comes", one, "WriteAsk 2: 0")
        .refused(2, 1, 1, 0, "stale 1 3", "TableAsk 0").moment(6000, "TableAsk 0").begun("WriteAsk 1 turn 2: 0", moves=1)
        .done(1, 1, "0 6.1 1", says=answered(1, 1, seconds=6)),
        begun("a table that is older than the one it met sends nothing, and one that is as late does", one, "WriteAsk 2: 0")
        .refused(2, 1, 1, 0, "stale 1 4", "TableAsk 0").begun("").begun("", moves=1).moment(6000, "TableAsk 0").begun("WriteAsk 2 turn 2: 0", moves=2),
        begun("a later collection of that name", one, "WriteAsk 2: 0").refused(2, 1, 1, 0, "stale 2 1", "TableAsk 0").begun("", moves=9),
        begun("an older table than the router's, of a shard that is behind", one, "WriteAsk 2: 0").refused(2, 1, 1, 0, "stale 1 1", "WriteAsk 2 turn 2: 0"),
        three("one run of an unordered write: the other stays under way").refused(2, 1, 1, 1, "stale 1 3", "TableAsk 0")
        .moment(6000, "TableAsk 0, WriteAsk 1: 0 2").done(1, 1, "0 5.1 1", "WriteAsk 1: 2").begun("WriteAsk 1 turn 2: 1", moves=1)
        .moment(7000, "WriteAsk 1: 2, WriteAsk 1 turn 2: 1").done(1, 1, "1 7.1 1, 2 7.2 1", says=answered(3, 2, seconds=7)),
        three("both runs: they go on in one").refused(2, 1, 1, 1, "stale 1 3", "TableAsk 0").refused(1, 1, 1, 0, "stale 1 3", "TableAsk 0")
        .begun("WriteAsk 1 turn 2: 0 1 2", moves=1).done(1, 1, "0 5.1 1, 1 5.2 1, 2 5.3 1", says=answered(3, 3)),
        two_runs("an ordered write: the run, which may be another one then").refused(1, 1, 1, 0, "stale 1 3", "TableAsk 0")
        .begun("WriteAsk 1 turn 2: 0 1 2 3", moves=1).done(1, 1, "0 5.1 1", "WriteAsk 1 turn 2: 1 2 3").done(1, 1, "1 5.2 1", "WriteAsk 1: 2 3"),
        begun("a statement that was not sent joins a run that is tried again", insert(11, 12, 1), "WriteAsk 2: 0 1")
        .refused(2, 1, 1, 0, "stale 1 3", "TableAsk 0").begun("WriteAsk 1 turn 2: 0 1 2", moves=1).refused(1, 1, 2, 0, "stale 1 4", "TableAsk 0")
        .begun("WriteAsk 2 turn 3: 0 1", moves=2).done(2, 1, "0 5.1 1, 1 5.2 1", "WriteAsk 1 turn 2: 2").done(1, 1, "2 5.3 1", says=answered(3, 3)),
        begun("statements keep their number", insert(11, rest=SESSION), "WriteAsk 2: 0 txn 5")
        .refused(2, 1, 1, 0, "stale 1 2", "WriteAsk 2 turn 2: 0 txn 5").done(2, 1, "0 old 7", says=failed(0, too_old(0, 7))),
    ]


def not_refused():
    """Refusals of what is not under way."""
    again = begun("of a turn that is over or not yet come", insert(11), "WriteAsk 2: 0").refused(2, 1, 1, 0, "stale 1 2", "WriteAsk 2 turn 2: 0")
    for turn, words in ((1, "stale 1 2"), (0, "stale 1 2"), (3, "stale 1 2"), (1, "memory"), (3, "steps 9")):
        again.refused(2, 1, turn, 0, words)
    served = three("of a run that was served, in part or whole, and of statements that are not its first").done(1, 1, LOWER).refused(1, 1, 1, 0, "memory")
    served.refused(1, 1, 1, 2, "memory").refused(2, 1, 1, 0, "stale 1 2").refused(2, 1, 1, 2, "stale 1 2").done(2, 1, UPPER, says=answered(3, 3))
    part = three("the rest of a run that was served in part has another first statement").done(1, 1, "0 5.1 1", "WriteAsk 1: 2")
    part.refused(1, 1, 1, 0, "stale 1 2").refused(1, 1, 1, 2, "stale 1 2", "WriteAsk 1 turn 2: 2").done(1, 1, "2 5.2 1").done(2, 1, UPPER, says=answered(3, 3))
    other = three("of other requests").refused(1, 2, 1, 0, "stale 1 2").refused(1, 0, 1, 0, "memory").done(1, 1, LOWER).done(2, 1, UPPER, says=answered(3, 3))
    reads = read("of a read: another turn, a statement, a shard that was not asked, one that returned its part").refused(1, 1, 2, 0, "stale 1 2")
    reads.refused(1, 1, 0, 0, "memory").refused(1, 1, 1, 1, "stale 1 2").refused(5, 1, 1, 0, "memory").refused(0, 1, 1, 0, "memory").part(1, ["{_id: 1}"])
    reads.refused(1, 1, 1, 0, "stale 1 2").refused(1, 1, 1, 0, "memory").part(2, ["{_id: 12}"], gets=(FIND, 1, first("{_id: 1}, {_id: 12}", 0, seconds=5)))
    waits = Router("of a read that waits for a table").moment(5000).asks(FIND).refused(1, 1, 1, 0, "stale 1 2").refused(1, 1, 0, 0, "memory").table(BOTH)
    shard = Router("of a shardCollection").moment(5000).asks(SHARD).refused(0, 1, 0, 0, "memory").refused(0, 1, 1, 0, "steps 9").begun("", says=SHARDED)
    split = Router("of a split: a turn, a statement, a table").moment(5000).asks(SPLIT, "SplitAsk 0").refused(0, 1, 1, 0, "memory")
    split.refused(0, 1, 0, 1, "memory").refused(0, 1, 0, 0, "stale 1 3").moment(6000, "SplitAsk 0")
    return [again, served, part, other.refused(1, 1, 1, 0, "stale 1 2"), reads, waits, shard, split]


def reads_again():
    one = '{find: "c", filter: {_id: 11}, $db: "d"}'
    both = first("{_id: 1}, {_id: 12}", 0, seconds=5)
    return [
        read("a later table that the router has: all shards are asked again, and parts of the turn before are late").part(1, ["{_id: 7}"])
        .refused(2, 1, 1, 0, "stale 1 2", "ReadAsk 1 turn 2, ReadAsk 2 turn 2").part(1, ["{_id: 7}"]).part(2, ["{_id: 17}"])
        .refused(2, 1, 1, 0, "stale 1 2").moment(6000, "ReadAsk 1 turn 2, ReadAsk 2 turn 2").part(2, ["{_id: 12}"], turn=2)
        .part(1, ["{_id: 1}"], turn=2, gets=(FIND, 1, both)),
        read("one that it has not: the catalogue is asked, and the shards by the table that comes").refused(1, 1, 1, 0, "stale 1 3", "TableAsk 0")
        .refused(2, 1, 1, 0, "stale 1 3").part(2, ["{_id: 12}"]).moment(6000, "TableAsk 0").table("").begun("ReadAsk 1 turn 2", moves=1)
        .part(1, ["{_id: 1}", "{_id: 12}"], turn=2, gets=(FIND, 1, both)),
        read("a read of one key, whose chunk moved on", one, "ReadAsk 2").refused(2, 1, 1, 0, "stale 1 3", "TableAsk 0").table("ReadAsk 1 turn 2", moves=1)
        .refused(1, 1, 2, 0, "stale 1 4", "TableAsk 0").table("ReadAsk 2 turn 3", moves=2).part(2, ["{_id: 11}"], turn=2)
        .part(2, ["{_id: 11}"], turn=3, gets=(one, 1, first("{_id: 11}", 0, seconds=5))),
    ]


def ten(router, step, sends=""):
    """The turns from this one on to the tenth are refused, and each is tried again at once, but for the tenth."""
    turn, says = step["turn"], step["says"]
    for number in range(turn, 10):
        router.refused(step["shard"], 1, number, step["first"], step["words"], sends.replace("N", str(number + 1)))
    return router.refused(step["shard"], 1, 10, step["first"], step["words"], step.get("rest", ""), says)


def worn_out():
    ten_pairs = stale(*[(FIRST, FIRST)] * 10)
    one = begun("an insert that meets a later table ten times", insert(11), "WriteAsk 2: 0")
    one = ten(one, {"shard": 2, "turn": 1, "first": 0, "words": "stale 1 2", "says": failed(0, (0, *ten_pairs))}, "WriteAsk 2 turn N: 0").moment(6000)
    bound = two_runs("an ordered run of two: the first is refused, and ends it")
    bound = ten(bound, {"shard": 1, "turn": 1, "first": 0, "words": "stale 1 2", "says": failed(0, (0, *ten_pairs))}, "WriteAsk 1 turn N: 0 1")
    other = three("an unordered run of two: both are refused, and the other run goes on")
    other = ten(other, {"shard": 1, "turn": 1, "first": 0, "words": "stale 1 2", "says": None}, "WriteAsk 1 turn N: 0 2").moment(6000, "WriteAsk 2: 1")
    other.done(1, 1, LOWER).done(2, 1, UPPER, says=failed(1, (0, *ten_pairs), (2, *ten_pairs), counter=3))
    mixed = three("of a run of statements that were tried ten and nine times, those that had all").refused(1, 1, 1, 0, "stale 1 2", "WriteAsk 1 turn 2: 0 2")
    mixed.refused(1, 1, 2, 0, "stale 1 3", "TableAsk 0").refused(2, 1, 1, 1, "stale 1 3", "TableAsk 0").begun("WriteAsk 1 turn 3: 0 1 2", moves=1)
    mixed = ten(mixed, {"shard": 1, "turn": 3, "first": 0, "words": "stale 1 3", "says": None, "rest": "WriteAsk 1 turn 10: 1"}, "WriteAsk 1 turn N: 0 1 2")
    eight = [(SECOND, SECOND)] * 8
    whole, joined = stale((FIRST, FIRST), (FIRST, SECOND), *eight), stale((FIRST, SECOND), *eight, (SECOND, SECOND))
    mixed.refused(1, 1, 10, 1, "stale 1 3", says=failed(0, (0, *whole), (1, *joined), (2, *whole)))
    reads = ten(read("a read"), {"shard": 2, "turn": 1, "first": 0, "words": "stale 1 2", "says": refused(*ten_pairs)}, "ReadAsk 1 turn N, ReadAsk 2 turn N")
    moving = read("a read whose chunk moves on each time", '{find: "c", filter: {_id: 11}, $db: "d"}', "ReadAsk 2")
    for turn in range(1, 10):
        moving.refused(2 - (turn + 1) % 2, 1, turn, 0, f"stale 1 {2 + turn}", "TableAsk 0").table(f"ReadAsk {2 - turn % 2} turn {turn + 1}", moves=turn)
    moved = stale(*[((1, 1 + turn), (1, 2 + turn)) for turn in range(1, 11)])
    return [one, bound, other, mixed, reads.moment(6000), moving.refused(1, 1, 10, 0, "stale 1 12", says=refused(*moved)).part(1, ["{_id: 11}"], turn=10)]


def given_up():
    return [
        three("an unordered run: each of its statements").refused(1, 1, 1, 0, "memory").done(1, 1, LOWER).moment(6000, "WriteAsk 2: 1")
        .done(2, 1, UPPER, says=failed(1, (0, *MEMORY), (2, *MEMORY), counter=3)),
        three("for a last step").refused(2, 1, 1, 1, "steps 72057594037927935")
        .done(1, 1, LOWER, says=failed(2, (1, *last_step(2, 72057594037927935)), counter=2)).refused(1, 1, 1, 0, "memory"),
        three("what is left of a run").done(1, 1, "0 5.1 1", "WriteAsk 1: 2").refused(1, 1, 1, 2, "memory")
        .done(2, 1, UPPER, says=failed(2, (2, *MEMORY), counter=3)),
        three("both runs").refused(2, 1, 1, 1, "memory")
        .refused(1, 1, 1, 0, "steps 9", says=failed(0, (0, *last_step(1, 9)), (1, *MEMORY), (2, *last_step(1, 9)))),
        begun("an ordered run of one: it ends", insert(11), "WriteAsk 2: 0").refused(2, 1, 1, 0, "memory", says=failed(0, (0, *MEMORY))).done(2, 1, "0 5.1 1"),
        two_runs("an ordered run of two: no effect, and it is sent again; the run of one behind it ends it").refused(1, 1, 1, 0, "memory")
        .refused(1, 1, 1, 0, "steps 9").moment(6000, "WriteAsk 1: 0 1").done(1, 1, "0 5.1 1, 1 5.2 1", "WriteAsk 2: 2")
        .refused(2, 1, 1, 2, "steps 9", says=failed(2, (2, *last_step(2, 9)), counter=2)).done(2, 1, "2 5.3 1"),
        two_runs("what is left of it is one: it ends").done(1, 1, "0 5.1 1", "WriteAsk 1: 1")
        .refused(1, 1, 1, 1, "memory", says=failed(1, (1, *MEMORY), counter=1)),
        three("in a later turn").refused(2, 1, 1, 1, "stale 1 2", "WriteAsk 2 turn 2: 1").refused(2, 1, 2, 1, "memory")
        .done(1, 1, LOWER, says=failed(2, (1, *MEMORY), counter=2)),
        read("a read").part(1, ["{_id: 1}"]).refused(2, 1, 1, 0, "memory", says=refused(*MEMORY)).part(2, ["{_id: 12}"]).moment(6000),
        read("a read, in a later turn").refused(1, 1, 1, 0, "stale 1 2", "ReadAsk 1 turn 2, ReadAsk 2 turn 2")
        .refused(2, 1, 2, 0, "steps 9", says=refused(*last_step(2, 9))),
        Router("a split").moment(5000).asks(SPLIT, "SplitAsk 0").refused(0, 1, 0, 0, "memory", says=refused(*MEMORY)).moment(6000),
        Router("a split at a last step").moment(5000).asks(SPLIT, "SplitAsk 0").refused(0, 1, 0, 0, "steps 9", says=refused(*last_step(0, 9))),
        Router("a read that waits for its time: of a shard that has not returned its own").moment(5000).asks(AHEAD, "TimeAsk 1, TimeAsk 2")
        .refused(1, 1, 1, 0, "memory").refused(1, 1, 0, 0, "stale 1 2").reaches(1, 1).refused(1, 1, 0, 0, "memory").moment(6000, "TimeAsk 2")
        .refused(2, 1, 0, 0, "memory", says=refused(*MEMORY)),
    ]


def no_tables():
    mixed = three("what waits for a table, beside a run under way").refused(2, 1, 1, 1, "stale 1 3", "TableAsk 0").no_table("create", "memory")
    mixed.moment(6000, "WriteAsk 1: 0 2").done(1, 1, LOWER, says=failed(2, (1, *MEMORY), counter=2))
    bound = two_runs("an ordered write whose first run waits").refused(1, 1, 1, 0, "stale 1 3", "TableAsk 0")
    bound.no_table("create", "memory", says=failed(0, (0, *MEMORY)))
    several = Router("several requests: their replies in order").moment(5000).asks(insert(1, 2)).asks(FIND).asks(SHARD).asks(SPLIT, "SplitAsk 0")
    several.no_table("create", "steps 9", says=[failed(0, (0, *last_step(0, 9))), refused(*last_step(0, 9))]).moment(6000, "TableAsk 0, SplitAsk 0")
    several.no_table("5.0", "memory", says=refused(*MEMORY)).no_table("create", "memory").moment(7000, "SplitAsk 0")
    others = Router("of another kind, or another collection").moment(5000).asks(insert(1, collection="e")).asks(insert(2)).asks(FIND)
    others.no_table("plain", "memory").no_table("6.0", "memory").no_table("create", "memory", says=failed(0, (0, *MEMORY)))
    return [
        Router("a write: each statement").moment(5000).asks(unordered(1, 11))
        .no_table("create", "memory", says=failed(0, (0, *MEMORY), (1, *MEMORY))).begun(""),
        Router("an ordered write: the first").moment(5000).asks(insert(1, 11))
        .no_table("create", "steps 9", says=failed(0, (0, *last_step(0, 9)))).moment(6000),
        mixed, bound, several, others.moment(6000, "TableAsk 0, TableAsk 0"),
        read("nothing waits").no_table("5.0", "memory").no_table("create", "memory").moment(6000, BOTH),
    ]


def limits():
    late, soon = expired(5000, 6000), expired(5250, 6250)
    early = Router("from the moment before it came, 0 where there was none").asks(limited(insert(11), 5000)).moment(4999, "TableAsk 0")
    several = Router("one passes, and the others are sent again").moment(5000).asks(FIND).asks(limited(FIND, 1000)).asks(limited(insert(11), 2000))
    several.moment(6000, "TableAsk 0, TableAsk 0", refused(*late)).begun("ReadAsk 1, ReadAsk 2, WriteAsk 2: 0")
    both = Router("two at one moment: their replies in order").moment(5250).asks(limited(insert(1, 2), 1)).asks(limited(SPLIT, 1000), "SplitAsk 0")
    tried = begun("tries do not begin it anew", limited(insert(11), 1000), "WriteAsk 2: 0").refused(2, 1, 1, 0, "stale 1 2", "WriteAsk 2 turn 2: 0")
    return [
        read("a read: not a millisecond before", limited(FIND, 1000)).moment(5999, BOTH).moment(6000, says=refused(*late)).moment(7000).part(1, ["{_id: 1}"]),
        read("a read, long after", limited(FIND, 1)).part(1, ["{_id: 1}"]).moment(99999, says=refused(*expired(5000, 99999))),
        read("a limit of 0 is none", limited(FIND, 0)).moment(99999, BOTH),
        Router("a read that waits for the table").moment(5250).asks(limited(FIND, 1000)).moment(6249, "TableAsk 0").moment(6250, says=refused(*soon)).table(""),
        Router("a read that waits for its time").moment(5000).asks(limited(AHEAD, 1000), "TimeAsk 1, TimeAsk 2").moment(5999, "TimeAsk 1, TimeAsk 2")
        .moment(6000, says=refused(*late)),
        begun("an unordered write: each statement that has no outcome", limited(unordered(1, 11, 2), 1000), ALL).moment(5999, ALL).done(2, 1, UPPER)
        .moment(6000, says=failed(1, (0, *late), (2, *late), counter=3)).done(1, 1, LOWER),
        begun("none has", limited(unordered(1, 11), 1000), "WriteAsk 1: 0, WriteAsk 2: 1").moment(6000, says=failed(0, (0, *late), (1, *late), seconds=6)),
        begun("an ordered run of one: it ends", limited(insert(1, 11), 1000), "WriteAsk 1: 0").done(1, 1, "0 5.1 1", "WriteAsk 2: 1")
        .moment(5999, "WriteAsk 2: 1").moment(6000, says=failed(1, (1, *late), counter=1)).done(2, 1, "1 5.2 1"),
        begun("an ordered run of two under way is sent again; the run of one behind it ends it", limited(insert(1, 2, 11, 3), 1000), "WriteAsk 1: 0 1")
        .moment(6000, "WriteAsk 1: 0 1").moment(7000, "WriteAsk 1: 0 1").done(1, 1, "0 7.1 1, 1 7.2 1", "WriteAsk 2: 2")
        .moment(8000, says=failed(2, (2, *expired(5000, 8000)), counter=2, seconds=7)),
        begun("it is answered where its last run is done, however late", limited(insert(1, 2), 1000), "WriteAsk 1: 0 1").moment(6000, "WriteAsk 1: 0 1")
        .done(1, 1, "0 6.1 1, 1 6.2 1", says=answered(2, 2, seconds=6)),
        Router("an ordered write of two that waits for the table").moment(5000).asks(limited(insert(1, 2), 1000)).moment(5999, "TableAsk 0")
        .moment(6000, says=failed(0, (0, *late), seconds=6)).begun(""),
        Router("a shardCollection").moment(5000).asks(limited(SHARD, 1000)).moment(5999, "TableAsk 0").moment(6000, says=refused(*late)).begun(""),
        early.moment(5000, says=failed(0, (0, *expired(0, 5000)))),
        several.moment(7000, "ReadAsk 1, ReadAsk 2", failed(0, (0, *expired(5000, 7000)), seconds=7)),
        both.moment(6250, says=[failed(0, (0, *soon), seconds=6), refused(*soon)]).moment(7000),
        tried.moment(6000, says=failed(0, (0, *late), seconds=6)).refused(2, 1, 2, 0, "stale 1 2"),
    ]


def lines():
    head = ["# One step of a router after another, of a cluster of a catalogue, two shards and this router, whose number is 3:",
            "# VERB WORDS | MORE | MESSAGES | REPLIES. The messages and replies are those of the separate account of bench/rows, worked out there.",
            "# A WriteAsk is told with the indices of its statements; a turn is told but for the first."]
    routers = tried_again() + not_refused() + reads_again() + worn_out() + given_up() + no_tables() + limits()
    return head + [line for router in routers for line in router.lines]
