#!/usr/bin/env -S python3 -B
"""Plays random calls on the same files, one after another, by the built program, and compares replies and journals with the separate account of rows/.

Each try is some calls of `cluster sim` in one folder, with one to three shards. Each request comes as in `pipe`: all nodes are given a moment, the router
takes the request, and messages are delivered until none is left. The moments of a call begin anywhere, also before those of the calls before. Requests are
inserts, updates and deletes with and without a client's number, some sent again, also those of earlier calls; finds and counts, some at or after times that
were returned; cursors, also of earlier calls; `shardCollection` and `split`. Ends with status 1 where a reply or a journal is another.

    bench/random_calls.py PROGRAM [TRIES] [SEED]
"""
import pathlib
import random
import subprocess
import sys
import tempfile

sys.path.insert(0, str(pathlib.Path(__file__).resolve().parent / "rows"))

from bson import fields_of, read_fields, shown, written
from cluster import Cluster
from records import file_of
from wire import Connection, message

SESSIONS = ["000102030405060708090a0b0c0d0e0f", "101112131415161718191a1b1c1d1e1f"]


class Client:
    """What a client of a try remembers: what it sent under numbers, the times that it got, and the cursors."""

    def __init__(self, chance):
        self.chance, self.numbered, self.times, self.cursors, self.transactions = chance, [], [0], [1, 65], [0, 0]

    def number(self):
        which = self.chance.randrange(2)
        self.transactions[which] += self.chance.choice([0, 1, 1])
        return f', lsid: {{id: UUID("{SESSIONS[which]}")}}, txnNumber: {self.transactions[which]}L'

    def key(self):
        return self.chance.choice(["1", "2", "3L", '"a"', "null"])

    def read(self):
        at = self.chance.choice(self.times)
        time = f"Timestamp({at >> 32}, {at & 0xFFFFFFFF})"
        return self.chance.choice(["", "", f", readConcern: {{afterClusterTime: {time}}}", f', readConcern: {{level: "snapshot", atClusterTime: {time}}}'])

    def write(self):
        number, name = self.chance.choice(["", self.number()]), self.chance.choice("ccb")
        made = self.chance.choice([
            f'{{insert: "{name}", documents: [{{_id: {self.key()}, x: {self.chance.randrange(5)}}}, {{_id: {self.key()}}}], ordered: false',
            f'{{insert: "{name}", documents: [{{_id: {self.key()}}}]',
            f'{{update: "{name}", updates: [{{q: {{_id: {self.key()}}}, u: {{$inc: {{x: 1}}}}, upsert: {self.chance.choice(["true", "false"])}}}]',
            f'{{delete: "{name}", deletes: [{{q: {{_id: {self.key()}}}, limit: 1}}]',
        ]) + number + ', $db: "d"}'
        if number:
            self.numbered.append(made)
        return made

    def request(self):
        name, cursor = self.chance.choice("ccbe"), self.chance.choice(self.cursors)
        return self.chance.choice([
            self.write, self.write, lambda: self.chance.choice(self.numbered) if self.numbered else self.write(),
            lambda: f'{{find: "{name}", sort: {{_id: 1}}, batchSize: {self.chance.choice([1, 1, 101])}{self.read()}, $db: "d"}}',
            lambda: f'{{count: "{name}"{self.read()}, $db: "d"}}',
            lambda: f'{{getMore: {cursor}L, collection: "{name}", batchSize: 1, $db: "d"}}',
            lambda: f'{{killCursors: "{name}", cursors: [{cursor}L], $db: "d"}}',
            lambda: f'{{shardCollection: "d.{name}", key: {{_id: 1}}, $db: "admin"}}',
            lambda: f'{{split: "d.{name}", middle: {{_id: {self.key()}}}, $db: "admin"}}',
        ])()

    def note(self, fields):
        reply = dict(fields)
        if "operationTime" in reply:
            self.times.append(reply["operationTime"][1])
        if "cursor" in reply and dict(reply["cursor"][1])["id"][1]:
            self.cursors.append(dict(reply["cursor"][1])["id"][1])


def call(program, folder, cluster, client):
    """A call of some requests. Gives what is wrong, or nothing."""
    connection, lines, wanted, sources = Connection((), cluster), [], [], []
    moment = client.chance.randrange(5) * 1000
    for number in range(1, client.chance.randrange(8) + 1):
        source = client.request()
        bytes_ = message(number, source)
        moment += client.chance.choice([0, 0, 1000])
        lines += [f"moment {node} {moment}" for node in range(cluster.router + 1)] + [f"client 0 {bytes_.hex()}", "settle"]
        _, fields, reply = connection.ask(bytes_, moment)
        client.note(fields)
        wanted.append(f"reply 0 {reply.hex()}")
        sources.append(source)
    script = "".join(f"{line}\n" for line in lines)
    ran = subprocess.run([program, "sim", "--shards", str(cluster.router - 1)], cwd=folder, input=script.encode(), capture_output=True)
    got = ran.stdout.decode().split("\n")[:-1]
    if ran.returncode != 0 or len(got) != len(wanted):
        return f"status {ran.returncode}, {len(got)} replies of {len(wanted)}"
    for source, one, other in zip(sources, wanted, got):
        if one != other:
            return f"{source}\n  wanted {reply_in(one)}\n  got    {reply_in(other)}"
    files = [(pathlib.Path(folder) / f"node{node:02}.journal").read_bytes() for node in range(cluster.router + 1)]
    return next((f"node {node}'s journal is another" for node in range(cluster.router + 1) if files[node] != file_of(cluster.journals[node])), None)


def reply_in(line):
    return shown((3, read_fields(bytes.fromhex(line.split(" ")[2]), 21)[0]))


def main():
    program, tries = str(pathlib.Path(sys.argv[1]).resolve()), int(sys.argv[2]) if len(sys.argv) > 2 else 100
    seed = int(sys.argv[3]) if len(sys.argv) > 3 else random.randrange(10**6)
    calls = 0
    for number in range(tries):
        client, cluster = Client(random.Random(seed + number)), Cluster(1 + number % 3)
        with tempfile.TemporaryDirectory() as folder:
            for place in range(client.chance.randrange(2, 6)):
                if place:
                    cluster.begin_life()
                wrong = call(program, folder, cluster, client)
                calls += 1
                if wrong:
                    sys.exit(f"random_calls: seed {seed + number}, call {place + 1}: {wrong}")
    print(f"random_calls: {tries} tries from seed {seed}, {calls} calls, each as the account has it")


main()
