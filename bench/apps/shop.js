// An ordinary application of the driver for Node: a shop with its stock and its sales. Usage: shop.js URI
const { MongoClient } = require("mongodb");

const goods = [
  { _id: "nail", count: 500, tags: ["iron", "small"] },
  { _id: "saw", count: 4, tags: ["iron"] },
  { _id: "rope", count: 20, tags: ["hemp"] },
  { _id: "glue", count: 12, tags: [] },
];
const sold = [["nail", 100, 300], ["saw", 1, 2500], ["nail", 50, 160], ["rope", 2, 1400], ["saw", 2, 4700], ["glue", 1, 350], ["nail", 10, 40]];
const stages = [
  { $match: { pieces: { $gte: 2 } } },
  { $group: { _id: "$item", sales: { $sum: 1 }, pieces: { $sum: "$pieces" } } },
  { $sort: { pieces: -1, _id: 1 } },
];

async function main() {
  const client = await MongoClient.connect(process.argv[2], { useUnifiedTopology: true });
  const stock = client.db("shop").collection("stock");
  const sales = client.db("shop").collection("sales");
  const names = async (cursor, field = "_id") => (await cursor.toArray()).map((it) => it[field]).join(" ");
  console.log("inserted", (await stock.insertMany(goods)).insertedCount);
  for (const [at, [item, pieces, cents]] of sold.entries()) {
    await sales.insertOne({ _id: at + 1, item, pieces, cents });
  }
  console.log("one", (await stock.findOne({ _id: "saw" })).count);
  console.log("iron", await names(stock.find({ tags: "iron" }).sort({ _id: 1 })));
  console.log("few", await names(stock.find({ count: { $lt: 50 }, tags: { $ne: "hemp" } }).sort({ count: -1 })));
  console.log("cents", await names(sales.find({}).project({ cents: 1 }).sort({ _id: 1 }).batchSize(3), "cents"));
  const done = await stock.updateOne({ _id: "nail" }, { $inc: { count: -100 }, $set: { shelf: 7 } });
  console.log("updated", done.matchedCount, done.modifiedCount, (await stock.findOne({ _id: "nail" })).count);
  console.log("upserted", (await stock.updateOne({ _id: "paint" }, { $set: { count: 9 } }, { upsert: true })).upsertedId._id);
  console.log("replaced", (await stock.replaceOne({ _id: "saw" }, { count: 3, tags: ["steel"] })).modifiedCount);
  const first = (await stock.deleteOne({ _id: "glue" })).deletedCount;
  console.log("deleted", first, (await stock.deleteOne({ _id: "glue" })).deletedCount);
  for (const row of await sales.aggregate(stages).toArray()) {
    console.log("total", row._id, row.sales, row.pieces);
  }
  console.log("counted", await sales.countDocuments({ item: "nail" }));
  await stock.insertOne({ _id: "nail" }).catch((error) => console.log("duplicate", error.code));
  await client.close();
}

main();
