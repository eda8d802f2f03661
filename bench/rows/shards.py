"""Rows of several shards: connections, scripts, and a start with another number of them. The first shard has all chunks.

Each reply and each record is told by hand, as in `routers`, or is that of one shard (`chunks`, `chunk_scripts`), where the routers' numbers are others.
"""
import itertools

import chunk_scripts
import chunks
from form import Ask
from reads import find, first, inserted, refused
from records import catalogue_ceiling_record
from retries import done
from routers import ONE, Play, at, lives
from starts import AFTER, Calls

THREE = 3
PING = Ask('{ping: 1, $db: "d"}', "{ok: 1}")


def of_two_shards(lines):
    """The rows of `sim --shards 2` where the number of shards is not given: it is 2."""
    return ["sim" if line == "sim --shards 2" else line for line in lines]


def splits():
    """The split is requested twice, and no third time: there is no fourth message to the catalogue."""
    lines = of_two_shards(chunk_scripts.held_answer(2))
    lines += chunk_scripts.held_answer(2, ["deliver 0 2"])
    return lines + chunk_scripts.held_answer(2, ["deliver 0 2", "deliver 0 3"], 9)


class Waiting(Play):
    """A script of three shards: a find waits for the time 3, which each shard is asked for."""

    def __init__(self, name, says):
        super().__init__(name, 1, THREE)
        self.router = 1 + THREE
        self.find = self.client(0, find(AFTER % (3, 0), says))

    def ask(self, *shards):
        """The messages to these shards are delivered."""
        self.play(*[f"deliver {shard} 0" for shard in shards])

    def told(self, *numbers):
        """These answers to the router are delivered."""
        self.play(*[f"deliver {self.router} {number}" for number in numbers])

    def pinged(self):
        """A request that is answered at once: of replies that the row has after its reply, none was given before."""
        self.gets(self.client(0, PING, 2))

    def whole(self, catalogue=(), status=0):
        return self.rows([list(catalogue)] + [[]] * THREE + lives(1), status)


def ahead(seconds):
    return refused(72, "InvalidOptions", f"{{greatest: Timestamp({seconds}, 0)}}")


REACHED = first("", 0, seconds=3)
NONE = [catalogue_ceiling_record(at(0, 3))]


def reached():
    play = Waiting("a find waits for a time; a moment brings the second shard there: the find is at that time", REACHED)
    play.play("moment 2 3000", "settle")
    play.gets(play.find)
    lines = play.whole(NONE)
    play = Waiting("a find waits for a time that no shard has: 72, with the router's time", ahead(0))
    play.settled(play.find)
    lines += play.whole()
    for node in range(1, 1 + THREE):
        play = Waiting(f"shard {node} is asked once", ahead(0))
        play.settled(play.find)
        play.play(f"deliver {node} 0", f"deliver {node} 1")
        lines += play.whole(status=9)
    return lines


def twice():
    play = Waiting("the answer of one shard twice, the others held: no reply", ahead(0))
    play.ask(1)
    play.told(0, 0)
    lines = play.whole()
    play = Waiting("the answer of one shard twice, then that of each other one: 72 after the last", ahead(0))
    play.ask(1, 2, 3)
    play.told(0, 0, 1, 1, 0)
    play.pinged()
    play.told(2)
    play.gets(play.find)
    play.told(2, 0)
    return lines + play.whole()


def orders():
    """The answers of the three shards in each order, none at the time, and with the second there."""
    lines = []
    for order in itertools.permutations(range(THREE)):
        words = ", ".join(str(number + 1) for number in order)
        play = Waiting(f"the answers of the shards {words}, in this order: 72 after the last", ahead(0))
        play.ask(1, 2, 3)
        play.told(*order[:2])
        play.pinged()
        play.told(order[2])
        play.gets(play.find)
        lines += play.whole()
        place = order.index(1)
        play = Waiting(f"the answers of the shards {words}, in this order, and the second is there: the find goes on with its answer", REACHED)
        play.play("moment 2 3000")
        play.ask(1, 2, 3)
        play.told(*order[:place])
        play.pinged()
        play.told(1)
        play.play("deliver 0 0", f"deliver {play.router} 3")
        play.gets(play.find)
        play.told(*order[place + 1 :])
        play.play("settle")
        lines += play.whole(NONE)
    return lines


def asked_again():
    """A moment before the last answer: only the third shard is asked again."""
    lines = []
    for more, status in (((), 0), (("deliver 3 1", "deliver 3 2"), 9), (("deliver 1 0", "deliver 1 1"), 9), (("deliver 2 0", "deliver 2 1"), 9)):
        words = f"; {more[1]} is refused" if more else ""
        play = Waiting(f"a moment before the last answer: just the shard that has not answered is asked again{words}", ahead(1))
        play.ask(1, 2)
        play.told(0, 1)
        play.play("moment 4 1000")
        play.pinged()
        play.settled(play.find)
        play.play(*more)
        lines += play.whole(status=status)
    play = Waiting("a moment that brings the time before the last answer: the find goes on", REACHED)
    play.ask(1)
    play.told(0)
    play.play("moment 4 3000", "settle")
    play.gets(play.find)
    return lines + play.whole(NONE)


def other_number():
    row = Calls("files of one shard, and a start with two: the first router's journal is no shard's")
    row.call("one shard", Ask(inserted(ONE), done(1, 2)))
    row.not_served("two shards", ["pipe --shards 2"] + [f"same {node}" for node in range(3)] + ["keeps 3 00"], 6)
    return row


def rows():
    lines = chunks.examples(2) + chunk_scripts.old_table(2) + splits()
    return lines + reached() + twice() + orders() + asked_again() + other_number().rows()
