#!/usr/bin/python3
"""An ordinary pymongo application, a shop with its stock and its sales. It prints what it does.

    app.py [URI]      without an argument mongodb://127.0.0.1:27017, where examples/tcp.py serves

It wants pymongo (Debian: python3-pymongo) and a server whose database `shop` is empty.
"""
import sys

from bson import Int64
from pymongo import ASCENDING, DESCENDING, MongoClient
from pymongo.errors import BulkWriteError, DuplicateKeyError, OperationFailure

GOODS = [
    {"_id": "nail", "count": 500, "tags": ["iron", "small"]},
    {"_id": "saw", "count": 4, "tags": ["iron"]},
    {"_id": "rope", "count": 20, "tags": ["hemp"]},
    {"_id": "glue", "count": 12, "tags": []},
]
SALES = [
    {"_id": 1, "item": "nail", "pieces": 100, "cents": 300},
    {"_id": 2, "item": "saw", "pieces": 1, "cents": 2500},
    {"_id": 3, "item": "nail", "pieces": 50, "cents": 160},
    {"_id": 4, "item": "rope", "pieces": 2, "cents": 1400},
    {"_id": 5, "item": "saw", "pieces": 2, "cents": 4700},
    {"_id": 6, "item": "glue", "pieces": 1, "cents": 350},
    {"_id": 7, "item": "nail", "pieces": 10, "cents": 40},
]


def insert_and_find(db):
    print("inserted:", db.stock.insert_many(GOODS).inserted_ids)
    print("inserted:", len(db.sales.insert_many(SALES).inserted_ids), "sales")
    print("one:", db.stock.find_one({"_id": "saw"}))
    print("of iron:", list(db.stock.find({"tags": "iron"}, {"count": 1}).sort("_id", ASCENDING)))
    few = db.stock.find({"count": {"$lt": 50}, "tags": {"$ne": "hemp"}}).sort("count", DESCENDING)
    print("few left:", [goods["_id"] for goods in few])
    print("second and third:", [goods["_id"] for goods in db.stock.find().sort("count", DESCENDING).skip(1).limit(2)])


def page(db):
    """Reads seven documents in batches of three: a find and two getMores."""
    cursor = db.sales.find({}, {"cents": 1}).sort("_id", ASCENDING).batch_size(3)
    print("cents:", [sale["cents"] for sale in cursor])


def change(db):
    done = db.stock.update_one({"_id": "nail"}, {"$inc": {"count": -100}, "$set": {"shelf": 7}})
    print("updated:", done.matched_count, done.modified_count, db.stock.find_one({"_id": "nail"}))
    done = db.stock.update_one({"_id": "paint"}, {"$set": {"count": 9}}, upsert=True)
    print("upserted:", done.upserted_id, db.stock.find_one({"_id": "paint"}))
    print("replaced:", db.stock.replace_one({"_id": "saw"}, {"count": 3, "tags": ["steel"]}).modified_count)
    print("deleted:", db.stock.delete_one({"_id": "glue"}).deleted_count, db.stock.delete_one({"_id": "glue"}).deleted_count)


def total(db):
    stages = [
        {"$match": {"pieces": {"$gte": 2}}},
        {"$group": {"_id": "$item", "sales": {"$sum": 1}, "pieces": {"$sum": "$pieces"}, "best": {"$max": "$cents"}}},
        {"$sort": {"pieces": -1, "_id": 1}},
    ]
    for row in db.sales.aggregate(stages):
        print("total:", row)
    print("counted:", db.sales.count_documents({"item": "nail"}), db.sales.estimated_document_count())


def retry(uri):
    """Sends one numbered update twice, as a driver does that lost the first reply. Its client is its own, since the driver numbers the others."""
    update = {"update": "stock", "updates": [{"q": {"_id": "rope"}, "u": {"$inc": {"count": -5}}}], "txnNumber": Int64(1)}
    with MongoClient(uri) as client, client.start_session() as session:
        first, second = (client.shop.command(update, session=session) for _ in range(2))
        print("sent twice:", first["nModified"], second["nModified"], "and applied once:", client.shop.stock.find_one({"_id": "rope"})["count"])


def read_the_past(db):
    """Reads at the time of an earlier reply, after the document has changed."""
    time = db.command("count", "stock")["operationTime"]
    db.stock.update_one({"_id": "nail"}, {"$set": {"count": 0}})
    concern = {"level": "snapshot", "atClusterTime": time}
    past = db.command("find", "stock", filter={"_id": "nail"}, readConcern=concern)["cursor"]["firstBatch"]
    print("now and then:", db.stock.find_one({"_id": "nail"})["count"], past[0]["count"])


def be_refused(db):
    try:
        db.stock.insert_one({"_id": "nail"})
    except DuplicateKeyError as error:
        print("DuplicateKeyError:", error.code)
    try:
        db.sales.insert_many([{"_id": 7}, {"_id": 8}, {"_id": 1}, {"_id": 9}], ordered=False)
    except BulkWriteError as error:
        print("BulkWriteError:", error.details["nInserted"], "inserted, refused:", [it["index"] for it in error.details["writeErrors"]])
    refused = {
        "an update without _id": lambda: db.stock.update_one({"count": 3}, {"$set": {"count": 4}}),
        "a floating point number": lambda: db.stock.insert_one({"_id": "half", "count": 0.5}),
        "an index": lambda: db.stock.create_index("count"),
    }
    for what, call in refused.items():
        try:
            call()
        except OperationFailure as error:
            print("refused:", what, error.code, error.details["codeName"])


def main():
    uri = sys.argv[1] if len(sys.argv) > 1 else "mongodb://127.0.0.1:27017"
    with MongoClient(uri, retryWrites=True) as client:
        insert_and_find(client.shop)
        page(client.shop)
        change(client.shop)
        total(client.shop)
        retry(uri)
        read_the_past(client.shop)
        be_refused(client.shop)


main()
