"""Rows of servers: several connections at once."""
from bson import DOCUMENT, shown
from chunks import changed, split
from cluster import Cluster, refusal
from commands import Refused
from cursors import SORTED, listed, more, next_, not_found
from form import SHOWN, Ask, check
from reads import find, first, inserted, refused
from records import file_of
from retries import done, errors, insert, update
from wire import CLOCK, Request, pieces, reply_bytes, shown_request

PING = '{ping: 1, $db: "d"}'
AHEAD = "readConcern: {afterClusterTime: Timestamp(1000, 5)}"
GREATEST = "{greatest: Timestamp(1000, 4)}"
TIME = b"\x11operationTime\0"


class Links:
    """Connections to one new cluster, each with the number of its last reply."""

    def __init__(self, links, shards=1):
        self.cluster, self.replies = Cluster(shards), [0] * links
        self.cluster.rise(CLOCK)

    def ask(self, link, bytes_, number):
        """The request, and the fields and bytes of its reply, or nothing. `number`: how many requests its router took up to it."""
        request = Request(bytes_)
        self.cluster.requests = number
        try:
            fields = self.cluster.take(request.command(), request.is_silent)
        except Refused as refused:
            fields = refusal(refused)
        if request.is_silent:
            return request, None, b""
        self.replies[link] += 1
        return request, fields, reply_bytes(request, self.replies[link], fields)


class Said:
    """What a link sends in a row: a request, or bytes that are none."""

    def __init__(self, link, ask=None, raw=None, is_cut=False):
        self.link, self.raw, self.is_cut = link, raw, is_cut
        self.ask = Ask(ask) if isinstance(ask, str) else ask
        self.number = 0

    def bytes(self):
        whole = self.raw or self.ask.bytes(self.number)
        return whole[:-1] if self.is_cut else whole

    def is_request(self):
        return self.raw is None and not self.is_cut


def numbered(turns):
    """The same, each request with its number on its link."""
    numbers = {}
    for said in (said for turn in turns for said in turn):
        numbers[said.link] = said.number = numbers.get(said.link, 0) + 1
    return turns


def said_line(said):
    wants_reply = said.is_request() and not said.ask.is_silent
    note = shown_request(Request(said.bytes())) if said.is_request() else "bytes that are no whole request"
    lines = [f"note link {said.link}: {note}"] if len(note) <= SHOWN else []
    return lines + [f"{'ask' if wants_reply else 'send'} {said.link} {pieces(said.bytes())}"]


def outcome_lines(name, served, order, keeps, open_times, says=None, taken=None):
    """What is got where the requests are stored in this order, and their router took them in the order `taken`, or in the same. `open_times`: the time of each
    reply may be any."""
    got = []
    numbers = {said: number for number, said in enumerate((said for said in taken or order if said.is_request()), 1)}
    for said in (said for said in order if said.is_request()):
        _, fields, reply = served.ask(said.link, said.bytes(), numbers[said])
        check(name, said.ask.source, said.ask.says if says is None else says.get(said), fields)
        if fields is not None:
            got.append((said.link, fields, reply))
    lines = []
    for link, fields, reply in sorted(got, key=lambda it: it[0]):
        note = shown((DOCUMENT, fields))
        lines += [f"note gets {note}"] if len(note) <= SHOWN else []
        lines.append(f"gets {link} {opened(reply) if open_times else pieces(reply)}")
    return lines + [f"keeps {node} {pieces(file_of(served.cluster.journals[node]))}" for node in keeps]


def opened(reply):
    """A reply whose time may be any."""
    at = reply.index(TIME) + len(TIME)
    return f"{reply[:at].hex()} ?8 {reply[at + 8:].hex()}"


def row(name, turns, keeps=(0, 1, 2), more=(), orders=None, open_times=False, routers=1, status=0, shards=1):
    """The lines of a row: turns of what links send at once. `orders`: in which orders the requests may be stored, where the outcome depends on it, each with the
    replies and with the order in which their router took them; `more`: further lines of each outcome."""
    turns = numbered(turns)
    everything = [said for turn in turns for said in turn]
    links = 1 + max(said.link for said in everything)
    lines = [f"# {name}"] + ([f"shards {shards}"] if shards > 1 else []) + ([f"routers {routers}"] if routers > 1 else [])
    for at, turn in enumerate(turns):
        lines += (["turn"] if at else []) + [line for said in turn for line in said_line(said)]
    only = range(len(everything))
    for at, (order, says, taken) in enumerate(orders or [(only, None, only)]):
        wanted = None if says is None else {everything[it]: said for it, said in zip(order, says)}
        stored, took = ([everything[it] for it in them] for them in (order, taken))
        lines += ["or"] if at else []
        lines += outcome_lines(name, Links(links, shards), stored, keeps, open_times, wanted, took) + list(more)
    return lines + [f"ends {status}"]


def at_once():
    one = '{insert: "c", documents: [{_id: 1}], $db: "d"}'
    orders = [((0, 1), (done(1, 2), "{ok: 1}"), (0, 1)), ((1, 0), ("{ok: 1}", done(1, 2)), (1, 0))]
    lines = row("an insert and a ping on two links: the router takes one of them first", [[Said(0, one), Said(1, PING)]], orders=orders)
    # what two threads send to the shard may come there in the other order than that in which the router took the requests
    says = (done(1, 2), done(0, 3, errors((0, 11000))))
    orders = [(stored, says, taken) for taken in ((0, 1), (1, 0)) for stored in ((0, 1), (1, 0))]
    lines += row("one key on two links: one is inserted, one refused, and both are entries", [[Said(0, one), Said(1, one)]], orders=orders)
    again = insert("{_id: 1}", "1L", done(1, 2), identifier=7)
    lines += row("one numbered insert on two links: one entry, and one reply for both", [[Said(0, again), Said(1, again)]])
    add = "{q: {_id: 1}, u: {$inc: {n: 1}}, upsert: true}"
    first_says = done(1, 2, ", nModified: 0, upserted: [{index: 0, _id: 1}]")
    three = [Said(link, update(add, "1L", first_says)) for link in range(3)]
    return lines + row("a numbered increment on three links at once is done once", [three, [Said(0, find("", first("{_id: 1, n: 1}", 2)))]])


def in_turn():
    again = insert("{_id: 1}, {_id: 2}", "1L", done(2, 3))
    refused = errors((0, 225, 2))
    both = find(SORTED, first(listed(1, 2), 3))
    lines = row("sent again on another link: the reply of the first time", [[Said(0, again)], [Said(1, again)], [Said(0, both)]])
    lines += row("an older number on another link", [[Said(0, insert("{_id: 1}", "1L", done(1, 2)))], [Said(1, insert("{_id: 2}", "2L", done(1, 3)))],
        [Said(0, insert("{_id: 1}", "1L", done(0, 3, refused)))]])
    lines += row("a cursor that one link opened goes on on another", [[Said(0, inserted(listed(1, 2, 3)))],
        [Said(0, find(f"{SORTED}, batchSize: 2", first(listed(1, 2), 4, identifier=1)))], [Said(1, more("1L", next_(listed(3), 4)))],
        [Said(0, more("1L", not_found(1)))]])
    lines += row("what one link inserted another finds", [[Said(0, insert("{_id: 1}", None, done(1, 2)))], [Said(1, find("", first("{_id: 1}", 2)))],
        [Said(2, insert("{_id: 1}", None, done(0, 3, errors((0, 11000)))))]])
    asks = [Said(0, insert(f"{{_id: {key}}}", None, done(1, key + 1))) for key in (1, 2, 3)]
    return lines + row("three inserts in one piece of bytes: three replies, in order", [[Said(0, PING)], asks])


def badly():
    one = Ask('{insert: "c", documents: [{_id: 1}], $db: "d"}', done(1, 2))
    text = b"GET / HTTP/1.1\r\n\r\n"
    lines = row("bytes that are no message end their link alone", [[Said(1, PING)], [Said(1, raw=text)], [Said(0, one)]], more=["breaks 1 47"])
    lines += row("half a message is not taken", [[Said(0, '{insert: "c", documents: [{_id: 9}], $db: "d"}', is_cut=True), Said(1, one)]])
    quiet = Ask('{insert: "c", documents: [{_id: 1}], $db: "d"}', is_silent=True)
    return lines + row("an insert without a reply", [[Said(0, quiet), Said(0, PING)]], keeps=())


def with_routers():
    other = insert("{_id: 1}", "1L", done(1, 2))
    lines = row("a numbered insert, again by another router: one entry, and one reply for both", [[Said(0, other)], [Said(1, other)]], keeps=(0, 1), routers=2)
    links = [Said(link, f'{{insert: "c", documents: [{{_id: {link}}}], $db: "d"}}') for link in range(8)]
    length = len(file_of(outcome_journal(links)))
    return lines + row("eight links to four routers insert each a key", [links], keeps=(), more=[f"size 1 {length}"], open_times=True, routers=4)


def with_shards():
    one = insert("{_id: 1}", None, done(1, 2))
    turns = [[Said(0, one)], [Said(1, split(10, changed(3)))], [Said(0, insert("{_id: 20}", None, done(1, 4)))],
        [Said(1, find(SORTED, first(listed(1, 20), 4)))], [Said(1, find(f"{SORTED}, {AHEAD}", refused(72, "InvalidOptions", GREATEST)))]]
    lines = row("two shards, the first of which has all chunks; a time that neither has", turns, keeps=range(4), shards=2)
    other = insert("{_id: 1}", "1L", done(1, 2))
    turns = [[Said(0, other)], [Said(1, other)]]
    return lines + row("two shards and two routers: a numbered insert, again by the other router", turns, keeps=(0, 1, 2), routers=2, shards=2)


def outcome_journal(order):
    served = Links(8)
    for number, said in enumerate(order, 1):
        served.ask(said.link, said.bytes(), number)
    return served.cluster.journals[1]


def lost():
    one = '{insert: "c", documents: [{_id: 1}], $db: "d"}'
    lines = ["# the shard's disk fails: the link ends without a reply, and the server with 5"]
    return lines + said_line(numbered([[Said(0, one)]])[0][0]) + ["fail 1 10", "loses 0", "ends 5"]


def unaccepted():
    """The port is in use: the disks are as they were. One more link than there is: those before it are served."""
    lines = ["# the port is in use: nothing is served, and the disks are as they were", "sessions 1", "refused"]
    lines += [f"size {disk} 0" for disk in range(3)] + ["ends 8"]
    served = row("a link that can't be accepted: those before it are served", [[Said(0, PING)], [Said(1, PING)]], status=8)
    return lines + served[:1] + ["sessions 3"] + served[1:]


def links_rows():
    return at_once() + in_turn()


def ends_rows():
    return badly() + with_routers() + lost() + unaccepted() + with_shards()
