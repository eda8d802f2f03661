// An ordinary application of the driver for Go: a shop with its stock and its sales. Usage: shop URI
package main

import (
	"context"
	"fmt"
	"log"
	"os"
	"strings"

	"go.mongodb.org/mongo-driver/bson"
	"go.mongodb.org/mongo-driver/mongo"
	"go.mongodb.org/mongo-driver/mongo/options"
)

var ctx = context.Background()

func check(err error) {
	if err != nil {
		log.Fatal(err)
	}
}

// shown reads all documents of a cursor and prints one field of each.
func shown(word, field string, cursor *mongo.Cursor, err error) {
	check(err)
	var rows []bson.M
	check(cursor.All(ctx, &rows))
	words := []string{word}
	for _, row := range rows {
		words = append(words, fmt.Sprint(row[field]))
	}
	fmt.Println(strings.Join(words, " "))
}

func count(stock *mongo.Collection, id string) interface{} {
	var one bson.M
	check(stock.FindOne(ctx, bson.M{"_id": id}).Decode(&one))
	return one["count"]
}

func insert(stock, sales *mongo.Collection) {
	goods := []interface{}{
		bson.M{"_id": "nail", "count": 500, "tags": bson.A{"iron", "small"}},
		bson.M{"_id": "saw", "count": 4, "tags": bson.A{"iron"}},
		bson.M{"_id": "rope", "count": 20, "tags": bson.A{"hemp"}},
		bson.M{"_id": "glue", "count": 12, "tags": bson.A{}},
	}
	done, err := stock.InsertMany(ctx, goods)
	check(err)
	fmt.Println("inserted", len(done.InsertedIDs))
	items := []string{"nail", "saw", "nail", "rope", "saw", "glue", "nail"}
	pieces := []int{100, 1, 50, 2, 2, 1, 10}
	cents := []int{300, 2500, 160, 1400, 4700, 350, 40}
	for at, item := range items {
		_, err := sales.InsertOne(ctx, bson.M{"_id": at + 1, "item": item, "pieces": pieces[at], "cents": cents[at]})
		check(err)
	}
}

func change(stock *mongo.Collection) {
	done, err := stock.UpdateOne(ctx, bson.M{"_id": "nail"}, bson.M{"$inc": bson.M{"count": -100}, "$set": bson.M{"shelf": 7}})
	check(err)
	fmt.Println("updated", done.MatchedCount, done.ModifiedCount, count(stock, "nail"))
	done, err = stock.UpdateOne(ctx, bson.M{"_id": "paint"}, bson.M{"$set": bson.M{"count": 9}}, options.Update().SetUpsert(true))
	check(err)
	fmt.Println("upserted", done.UpsertedID)
	done, err = stock.ReplaceOne(ctx, bson.M{"_id": "saw"}, bson.M{"count": 3, "tags": bson.A{"steel"}})
	check(err)
	fmt.Println("replaced", done.ModifiedCount)
	first, err := stock.DeleteOne(ctx, bson.M{"_id": "glue"})
	check(err)
	second, err := stock.DeleteOne(ctx, bson.M{"_id": "glue"})
	check(err)
	fmt.Println("deleted", first.DeletedCount, second.DeletedCount)
}

func main() {
	client, err := mongo.Connect(ctx, options.Client().ApplyURI(os.Args[1]))
	check(err)
	stock, sales := client.Database("shop").Collection("stock"), client.Database("shop").Collection("sales")
	insert(stock, sales)
	fmt.Println("one", count(stock, "saw"))
	cursor, err := stock.Find(ctx, bson.M{"tags": "iron"}, options.Find().SetSort(bson.M{"_id": 1}))
	shown("iron", "_id", cursor, err)
	few := bson.M{"count": bson.M{"$lt": 50}, "tags": bson.M{"$ne": "hemp"}}
	cursor, err = stock.Find(ctx, few, options.Find().SetSort(bson.M{"count": -1}))
	shown("few", "_id", cursor, err)
	paged := options.Find().SetProjection(bson.M{"cents": 1}).SetSort(bson.M{"_id": 1}).SetBatchSize(3)
	cursor, err = sales.Find(ctx, bson.M{}, paged)
	shown("cents", "cents", cursor, err)
	change(stock)
	stages := mongo.Pipeline{
		{{"$match", bson.M{"pieces": bson.M{"$gte": 2}}}},
		{{"$group", bson.D{{"_id", "$item"}, {"sales", bson.M{"$sum": 1}}, {"pieces", bson.M{"$sum": "$pieces"}}}}},
		{{"$sort", bson.D{{"pieces", -1}, {"_id", 1}}}},
	}
	cursor, err = sales.Aggregate(ctx, stages)
	check(err)
	var rows []bson.M
	check(cursor.All(ctx, &rows))
	for _, row := range rows {
		fmt.Println("total", row["_id"], row["sales"], row["pieces"])
	}
	counted, err := sales.CountDocuments(ctx, bson.M{"item": "nail"})
	check(err)
	fmt.Println("counted", counted)
	_, err = stock.InsertOne(ctx, bson.M{"_id": "nail"})
	if mongo.IsDuplicateKeyError(err) {
		fmt.Println("duplicate 11000")
	}
	check(client.Disconnect(ctx))
}
