"""An ordinary pymongo application: a shop with its stock and its sales. Usage: shop.py URI"""
import sys

from pymongo import ASCENDING, DESCENDING, MongoClient
from pymongo.errors import DuplicateKeyError


def main():
    with MongoClient(sys.argv[1]) as client:
        stock, sales = client.shop.stock, client.shop.sales
        goods = [
            {"_id": "nail", "count": 500, "tags": ["iron", "small"]},
            {"_id": "saw", "count": 4, "tags": ["iron"]},
            {"_id": "rope", "count": 20, "tags": ["hemp"]},
            {"_id": "glue", "count": 12, "tags": []},
        ]
        print("inserted", len(stock.insert_many(goods).inserted_ids))
        sold = [("nail", 100, 300), ("saw", 1, 2500), ("nail", 50, 160), ("rope", 2, 1400), ("saw", 2, 4700), ("glue", 1, 350), ("nail", 10, 40)]
        for number, (item, pieces, cents) in enumerate(sold):
            sales.insert_one({"_id": number + 1, "item": item, "pieces": pieces, "cents": cents})
        print("one", stock.find_one({"_id": "saw"})["count"])
        print("iron", *[it["_id"] for it in stock.find({"tags": "iron"}).sort("_id", ASCENDING)])
        print("few", *[it["_id"] for it in stock.find({"count": {"$lt": 50}, "tags": {"$ne": "hemp"}}).sort("count", DESCENDING)])
        print("cents", *[it["cents"] for it in sales.find({}, {"cents": 1}).sort("_id", ASCENDING).batch_size(3)])
        done = stock.update_one({"_id": "nail"}, {"$inc": {"count": -100}, "$set": {"shelf": 7}})
        print("updated", done.matched_count, done.modified_count, stock.find_one({"_id": "nail"})["count"])
        print("upserted", stock.update_one({"_id": "paint"}, {"$set": {"count": 9}}, upsert=True).upserted_id)
        print("replaced", stock.replace_one({"_id": "saw"}, {"count": 3, "tags": ["steel"]}).modified_count)
        print("deleted", stock.delete_one({"_id": "glue"}).deleted_count, stock.delete_one({"_id": "glue"}).deleted_count)
        stages = [
            {"$match": {"pieces": {"$gte": 2}}},
            {"$group": {"_id": "$item", "sales": {"$sum": 1}, "pieces": {"$sum": "$pieces"}}},
            {"$sort": {"pieces": -1, "_id": 1}},
        ]
        for row in sales.aggregate(stages):
            print("total", row["_id"], row["sales"], row["pieces"])
        print("counted", sales.count_documents({"item": "nail"}))
        try:
            stock.insert_one({"_id": "nail"})
        except DuplicateKeyError as error:
            print("duplicate", error.code)


main()
