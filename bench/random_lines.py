"""The lines of the random scripts of `random_scripts.py`, and what their requests are."""
from bson import STRING
from commands import CHUNKS
from wire import Request, message

KINDS = ["TableAsk", "TableTold", "WriteAsk", "ReadAsk", "TimeAsk", "HalfAsk", "WriteDone", "ReadRows", "TimeTold", "Refused", "Batch",
    "SplitAsk", "SplitDone"]


class Asked:
    """A request: the router, its node and the link that it came on, its number among the router's requests, and the time that it had returned before."""

    def __init__(self, router, node, link, count, bytes_, known):
        self.router, self.node, self.link, self.count, self.known = router, node, link, count, known
        self.request = Request(bytes_)
        self.reply = None


class Script:
    """A random script, and what its requests are."""

    def __init__(self, rng):
        self.rng, self.shards, self.routers = rng, rng.choice([1, 1, 2, 3]), rng.choice([1, 1, 2, 3, 4])
        self.first_router = 1 + self.shards
        self.lines, self.requests, self.moment = [], [], [0] * (self.first_router + self.routers)
        self.links, self.counts, self.numbered, self.settled = [0] * self.routers, [0] * self.routers, [], 0
        self.transactions = {}

    def number(self):
        """A session and a transaction of it, mostly the next one."""
        session = self.rng.randrange(3)
        step = self.rng.choice([0, 1, 1, 1, 2])
        self.transactions[session] = max(1, self.transactions.get(session, 0) + step)
        return f', lsid: {{id: UUID("{session:032x}")}}, txnNumber: {self.transactions[session]}L'

    def key(self):
        return self.rng.randrange(6)

    def write(self):
        kind, rng = self.rng.choice(["insert", "update", "delete"]), self.rng
        ordered = rng.choice(["", ", ordered: false", ", ordered: true"])
        count, end = rng.choice([1, 1, 2, 3]), ordered + (self.number() if rng.random() < 0.6 else "")
        if kind == "insert":
            listed = ", ".join(f"{{_id: {self.key()}, x: {rng.randrange(5)}}}" for _ in range(count))
            return f'{{insert: "c", documents: [{listed}], $db: "d"{end}}}'
        if kind == "delete":
            listed = ", ".join(f"{{q: {{_id: {self.key()}}}, limit: 1}}" for _ in range(count))
            return f'{{delete: "c", deletes: [{listed}], $db: "d"{end}}}'
        changes = ["{$inc: {x: 1}}", "{$set: {y: 7}}", "{x: 9}", "{$unset: {x: 1}}"]
        listed = ", ".join(f"{{q: {{_id: {self.key()}}}, u: {rng.choice(changes)}, upsert: {rng.choice(['true', 'false'])}}}" for _ in range(count))
        return f'{{update: "c", updates: [{listed}], $db: "d"{end}}}'

    def read(self):
        key, after = self.key(), f"readConcern: {{afterClusterTime: Timestamp({self.rng.randrange(8)}, 0)}}"
        return self.rng.choice([
            '{find: "c", $db: "d"}', '{find: "c", sort: {x: 1, _id: -1}, $db: "d"}', f'{{find: "c", filter: {{_id: {key}}}, $db: "d"}}',
            f'{{find: "c", filter: {{_id: {{$in: [{key}, {self.key()}]}}}}, $db: "d"}}', f'{{find: "c", filter: {{_id: {{$gte: {key}}}}}, limit: 2, $db: "d"}}',
            '{count: "c", $db: "d"}', f'{{count: "c", {after}, $db: "d"}}', f'{{find: "c", {after}, sort: {{_id: 1}}, $db: "d"}}',
            f'{{count: "c", query: {{x: {{$gt: 1}}}}, $db: "d"}}', '{find: "none", $db: "d"}',
            '{aggregate: "c", pipeline: [{$group: {_id: null, total: {$sum: "$x"}}}], cursor: {}, $db: "d"}',
        ])

    def change(self):
        name = self.rng.choice(["c", "c", "c", "e"])
        if self.rng.random() < 0.3:
            return f'{{shardCollection: "d.{name}", key: {{_id: 1}}, $db: "admin"}}'
        key = self.rng.choice([f"{self.key()}", f"{self.key()}L", f"{self.key()}", "null", '"k"'])
        return f'{{split: "d.{name}", middle: {{_id: {key}}}, $db: "admin"}}'

    def client(self, router, source):
        self.counts[router] += 1
        bytes_ = message(len(self.requests) + 1, source)
        self.lines.append((f"client {router} {bytes_.hex()}", Asked(router, self.first_router + router, self.links[router], self.counts[router], bytes_, None)))
        self.requests.append(self.lines[-1][1])
        if "txnNumber" in source:
            self.numbered.append(source)

    def ask(self):
        router, rng = self.rng.randrange(self.routers), self.rng
        if self.numbered and rng.random() < 0.25:
            return self.client(router, rng.choice(self.numbered))
        choice = rng.random()
        self.client(router, self.write() if choice < 0.5 else self.read() if choice < 0.8 else self.change())

    def line(self):
        choice, rng = self.rng.random(), self.rng
        if choice < 0.5:
            self.ask()
        elif choice < 0.6:
            node = rng.randrange(self.first_router + self.routers)
            self.moment[node] += rng.choice([0, 1, 999, 1000, 5000])
            self.add(f"moment {node} {self.moment[node]}")
        elif choice < 0.75:
            self.add("settle")
            # so many requests at least sent the shard a message
            self.settled = sum(body[0][0] not in CHUNKS and body[0] != ("find", (STRING, "none")) for body in (asked.request.body for asked in self.requests))
        elif choice < 0.9:
            self.add(f"settle except {rng.choice(KINDS)}")
        elif choice < 0.94 and self.settled:
            self.add(f"deliver 1 {rng.randrange(self.settled)}")
        elif choice < 0.97 and self.settled:
            # the answer of a write is held back, and comes by itself
            self.client(0, self.write())
            self.add("settle")
            self.client(0, self.write())
            self.add("settle except WriteDone")
            self.add("next WriteDone")
        else:
            router = rng.randrange(self.routers)
            self.add(f"client {router} {'00' * 16}")
            self.links[router] += 1

    def add(self, line):
        self.lines.append((line, None))

    def whole(self, length):
        self.client(0, '{insert: "c", documents: [{_id: 0, x: 1}], $db: "d"}')
        self.add("settle")
        self.settled = 1
        for _ in range(length):
            self.line()
        for moment in (10**6, 2 * 10**6):
            self.add("settle")
            for node in range(self.first_router + self.routers):
                self.add(f"moment {node} {moment}")
        self.add("settle")
        return self
