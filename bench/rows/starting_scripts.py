"""Rows of several scripts on the same files: what the next one finds. Each reply is written beside its request, by hand."""
from cluster import Cluster
from form import Ask
from reads import find, first, inserted, refused
from records import ROUTER, create_record, table_record
from retries import done, insert
from routers import ONE, Play, at, entry, lives
from starts import AFTER, TWO, Calls
from wire import Connection


def script_calls(name, *plays):
    """Plays of scripts, one after another on the same files, as one row; each with the records that are kept, and its status."""
    lines = [f"# {name}"]
    for number, (play, keeps, status) in enumerate(plays):
        told_ = play.rows(keeps, status)[1:]
        told_ = [line for line in told_ if line != "ask "]
        last = told_.pop()
        lines += told_ + [last if number == len(plays) - 1 else last.replace("ends", "then")]
    return lines


def script_insert(number="1L", at_=(1, 2), **options):
    return insert(ONE, number, done(at_[0], at_[1], seconds=0), **options)


def two_routers():
    session = bytes(range(16))
    stored = [table_record("d.c", at(1)), entry(at(2), inserted(ONE), 1, number=(session, 1))]
    one = Play("", 2)
    asked = one.client(0, script_insert())
    one.settled(asked)
    two = Play("", 2)
    again_ = two.client(1, script_insert())
    two.settled(again_)
    early = two.client(0, find("", first("", 0, seconds=0)), 2)
    two.settled(early)
    late = two.client(0, find(AFTER % (0, 2), first(ONE, 2, seconds=0)), 3)
    two.settled(late)
    three = Play("", 2)
    own = three.client(1, Ask(inserted("{_id: 2}"), done(1, 3, seconds=0)))
    three.settled(own)
    other = stored + [entry(at(3), inserted("{_id: 2}"), 1, router=1, life=3)]
    created = [create_record("d.c", at(1))]
    return script_calls("three scripts of two routers on the same files: an insert by one router is sent again by the other; each router has three lives",
        (one, [created, stored] + lives(2), 0), (two, [created, stored] + lives(2, 2), 0), (three, [created, other] + lives(2, 3), 0))


def nothing():
    row = [(Play("", 3), [[], []] + lives(3, number), 0) for number in (1, 2, 3)]
    return script_calls("three scripts of three routers without a line: three lives each", *row)


def lost():
    session = bytes(range(16))
    created, table = [create_record("d.c", at(1))], table_record("d.c", at(1))
    stored = [table, entry(at(2), inserted(ONE), 1, number=(session, 1))]
    one = Play("")
    one.client(0, script_insert())
    one.play("settle except WriteDone")
    two = Play("")
    two.play("settle")
    asked = two.client(0, script_insert())
    two.settled(asked)
    lines = script_calls("the answer of a write is not delivered when the script ends, and no later one delivers it; the insert is sent again",
        (one, [created, stored] + lives(1), 0), (two, [created, stored] + lives(1, 2), 0))
    one = Play("")
    one.client(0, script_insert())
    one.play("settle except WriteAsk")
    two = Play("")
    two.play("settle")
    early = two.client(0, find(AFTER % (0, 1), refused(72, "InvalidOptions", "{greatest: Timestamp(0, 0)}")))
    two.settled(early)
    asked = two.client(0, script_insert(), 2)
    two.settled(asked)
    return lines + script_calls("a write that did not reach the shard when the script ended is not done later: what its creation left is there",
        (one, [created, []] + lives(1), 0), (two, [created, stored] + lives(1, 2), 0))


def refused_line():
    session = bytes(range(16))
    created = [create_record("d.c", at(1))]
    stored = [table_record("d.c", at(1)), entry(at(2), inserted(ONE), 1, number=(session, 1))]
    one = Play("")
    asked = one.client(0, script_insert())
    one.settled(asked)
    one.play("next WriteDone")
    two = Play("")
    again_ = two.client(0, script_insert())
    two.settled(again_)
    return script_calls("a line that is refused ends a script; the next one goes on from its files",
        (one, [created, stored] + lives(1), 9), (two, [created, stored] + lives(1, 2), 0))


def mixed():
    """A script, a connection and a script, each of one router."""
    one = Play("")
    asked = one.client(0, Ask(inserted(ONE), done(1, 2, seconds=0)))
    one.settled(asked)
    created, stored = [create_record("d.c", at(1))], [table_record("d.c", at(1)), entry(at(2), inserted(ONE), 1)]
    lines = ["# a script, a connection and a script on the same files"] + one.rows([created, stored] + lives(1))[1:-1]
    cluster = Cluster()
    Connection((), cluster).ask(Ask(inserted(ONE)).bytes(1), 0)
    row = Calls("", cluster)
    row.end = "0 0"
    row.call("a connection", find("sort: {_id: 1}", first(ONE, 0)), Ask(inserted("{_id: 2}"), done(1, 1)))
    three = Play("")
    last = three.client(0, find(f"sort: {{_id: 1}}, {AFTER % (1000, 1)}", first(TWO, 1)))
    three.settled(last)
    journals = cluster.journals[:ROUTER] + lives(1, 3)
    return lines + row.lines + ["then 0 0"] + three.rows(journals)[1:]


def scripts():
    return two_routers() + nothing() + lost() + refused_line() + mixed()
