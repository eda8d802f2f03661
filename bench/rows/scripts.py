"""Rows of scripts: numbered writes and finds whose messages come late, twice and in reverse.

What the shard does first decides; which message is which follows from the rows of the nodes and is told beside each line that delivers it.
"""
from bson import DOCUMENT, shown
from form import Ask, check
from reads import find, first, inserted
from records import file_of
from retries import delete, done, errors, insert, sequence, update
from wire import Connection, pieces, reply_bytes


class Script:
    """Lines, and the replies of the requests in them by their numbers on the link, from 1 on."""

    def __init__(self, name):
        self.name, self.lines, self.requests, self.printed = name, [], [], []
        self.connection = Connection()

    def client(self, ask):
        bytes_ = ask.bytes(len(self.requests) + 1)
        self.requests.append((ask, bytes_))
        self.lines.append(f"client 0 {bytes_.hex()}")

    def deliver(self, *messages):
        self.lines += [f"deliver {message}" for message in messages]

    def settle(self):
        self.lines.append("settle")

    def serve(self, *numbers):
        """Does the requests in that order, as the shard does. Gives of each the line that is printed and the reply in the notation."""
        return [self.reply(number) for number in numbers]

    def reply(self, number):
        ask, bytes_ = self.requests[number - 1]
        self.connection.cluster.requests = number - 1
        request, fields, _ = self.connection.ask(bytes_, 0)
        check(self.name, ask.source, ask.says, fields)
        return f"reply 0 {reply_bytes(request, number, fields).hex()}", shown((DOCUMENT, fields))

    def rows(self, printed):
        """The lines of the row; `printed`: what was told, in the order in which it is printed."""
        lines = [f"# {self.name}", "sim --shards 1"] + [f"note {ask.source}" for ask, _ in self.requests]
        lines += [f"note {' / '.join(line if not line.startswith('client') else 'client' for line in self.lines)}"]
        lines.append(f"ask {spelled(self.lines)}")
        lines += [f"gets {spelled([line for line, _ in printed])}"] + [f"note gets {note}" for _, note in printed]
        journals = self.connection.cluster.journals
        return lines + [f"keeps {node} {pieces(file_of(journals[node]))}" for node in range(3)] + ["ends 0 0"]


def spelled(lines):
    return "".join(f"{line}\n" for line in lines).encode().hex()


def both_open():
    script = Script("three numbered inserts, and the same bytes again before the first are answered: messages of both twice and in reverse")
    script.client(sequence("1L", done(3, 4, seconds=0)))
    script.client(sequence("1L", done(3, 4, seconds=0), identifier=1))
    # the catalogue is asked by both requests, and answers four times; the router learns by the last answer, and asks the shard for both
    script.deliver("0 1", "0 1", "0 0", "0 0", "2 3", "2 2", "2 1", "2 0")
    # the second's ask waits, then the first's; the shard asks for the table, is answered twice, and tries the second's
    script.deliver("1 1", "1 1", "1 0", "1 0", "0 2", "0 2", "1 3", "1 2", "1 4", "1 4")
    # the first's ask once more, and again: its statements were seen; then what was told, in reverse
    script.deliver("1 0", "1 0", "2 7", "2 6", "2 5", "2 4")
    script.settle()
    told = script.serve(2, 1)
    return script.rows([told[1], told[0]])


def late_number():
    script = Script("an older number whose ask comes behind a newer one: the statement is refused, whatever comes twice")
    script.client(insert("{_id: 9}", None, done(1, 2, seconds=0)))
    script.settle()
    script.client(insert("{_id: 1}", "1L", done(0, 3, errors((0, 225, 2)), 0)))
    script.client(insert("{_id: 2}", "2L", done(1, 3, seconds=0)))
    # the asks stand behind the first request's three messages to the shard, and what is told behind its two to the router
    script.deliver("1 4", "1 4", "1 3", "1 3", "2 5", "2 3", "2 4", "2 2")
    script.settle()
    told = script.serve(1, 3, 2)
    return script.rows([told[0], told[2], told[1]])


def old_ask():
    script = Script("an ask that was answered comes once more behind a newer number; then its request is sent again")
    script.client(insert("{_id: 1}", "1L", done(1, 2, seconds=0)))
    script.settle()
    script.client(insert("{_id: 2}", "2L", done(1, 3, seconds=0)))
    script.settle()
    script.deliver("1 0", "1 0", "1 3", "1 3")
    script.settle()
    script.client(insert("{_id: 1}", "1L", done(0, 3, errors((0, 225, 2)), 0), identifier=1))
    script.settle()
    script.client(insert("{_id: 2}", "2L", done(1, 3, seconds=0), identifier=2))
    script.settle()
    return script.rows(script.serve(1, 2, 3, 4))


def other_operation():
    script = Script("an upsert and an insert under one number, the insert's ask first: the upsert is told what the insert was")
    script.client(insert("{_id: 9}", None, done(1, 2, seconds=0)))
    script.settle()
    script.client(update("{q: {_id: 1}, u: {$set: {x: 1}}, upsert: true}", "3L", done(1, 3, ", nModified: 0", 0)))
    script.client(insert("{_id: 2}", "3L", done(1, 3, seconds=0)))
    script.deliver("1 4", "1 3", "1 3", "1 4", "2 3", "2 2")
    script.settle()
    script.client(find("sort: {_id: 1}", first("{_id: 2}, {_id: 9}", 3, seconds=0)))
    script.settle()
    told = script.serve(1, 3, 2, 4)
    return script.rows([told[0], told[2], told[1], told[3]])


def error_again():
    script = Script("an error, a delete of what it met, and the same bytes again, with each message twice")
    again = insert("{_id: 1}, {_id: 2}", "2L", done(1, 4, errors((0, 11000)), 0), ", ordered: false", identifier=2)
    script.client(insert("{_id: 1}", "1L", done(1, 2, seconds=0)))
    script.settle()
    script.client(again)
    script.deliver("1 3", "1 3", "2 3", "2 2")
    script.client(delete("{q: {_id: 1}, limit: 1}", None, done(1, 5, seconds=0)))
    script.deliver("1 4", "1 3", "1 4", "2 6", "2 5", "2 4")
    script.client(again)
    script.deliver("1 5", "1 5", "2 8", "2 7")
    script.settle()
    return script.rows(script.serve(1, 2, 3, 4))


def cursors():
    script = Script("finds whose documents are told twice open one cursor each; what was read stays, whatever is written behind")
    script.client(Ask(inserted("{_id: 1}, {_id: 2}, {_id: 3}"), done(3, 4, seconds=0)))
    script.settle()
    script.client(find("sort: {_id: 1}, batchSize: 1", first("{_id: 1}", 4, identifier=1, seconds=0)))
    # the shard reads twice, and its halves are told in reverse; a delete is written before these are done
    script.deliver("1 3", "1 3")
    script.client(delete("{q: {_id: 2}, limit: 1}", None, done(1, 5, seconds=0)))
    script.deliver("1 6", "2 2", "1 5", "1 4", "2 4", "2 3")
    script.client(find("sort: {_id: -1}, batchSize: 1", first("{_id: 3}", 5, identifier=2, seconds=0)))
    script.settle()
    script.client(Ask('{getMore: 1L, collection: "c", $db: "d"}', first("{_id: 2}, {_id: 3}", 4, seconds=0).replace("firstBatch", "nextBatch")))
    script.client(Ask('{getMore: 2L, collection: "c", $db: "d"}', first("{_id: 1}", 5, seconds=0).replace("firstBatch", "nextBatch")))
    script.client(Ask('{count: "c", $db: "d"}', "{n: 2, atClusterTime: Timestamp(0, 5), ok: 1, operationTime: Timestamp(0, 5)}"))
    script.settle()
    told = script.serve(1, 2, 3, 4, 5, 6, 7)
    return script.rows([told[0], told[2], told[1]] + told[3:])


def rows():
    return both_open() + late_number() + old_ask() + other_operation() + error_again() + cursors()
