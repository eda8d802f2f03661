# An ordinary application of the driver for Ruby: a shop with its stock and its sales. Usage: shop.rb URI
require "mongo"

Mongo::Logger.logger.level = Logger::WARN
client = Mongo::Client.new(ARGV[0].split("?")[0], database: "shop", retry_writes: true)
stock, sales = client[:stock], client[:sales]
goods = [
  { _id: "nail", count: 500, tags: ["iron", "small"] },
  { _id: "saw", count: 4, tags: ["iron"] },
  { _id: "rope", count: 20, tags: ["hemp"] },
  { _id: "glue", count: 12, tags: [] },
]
puts "inserted #{stock.insert_many(goods).inserted_count}"
sold = [["nail", 100, 300], ["saw", 1, 2500], ["nail", 50, 160], ["rope", 2, 1400], ["saw", 2, 4700], ["glue", 1, 350], ["nail", 10, 40]]
sold.each_with_index { |(item, pieces, cents), at| sales.insert_one(_id: at + 1, item: item, pieces: pieces, cents: cents) }
puts "one #{stock.find(_id: "saw").first["count"]}"
puts "iron #{stock.find(tags: "iron").sort(_id: 1).map { |it| it["_id"] }.join(" ")}"
puts "few #{stock.find(count: { "$lt" => 50 }, tags: { "$ne" => "hemp" }).sort(count: -1).map { |it| it["_id"] }.join(" ")}"
puts "cents #{sales.find({}, projection: { cents: 1 }).sort(_id: 1).batch_size(3).map { |it| it["cents"] }.join(" ")}"
done = stock.update_one({ _id: "nail" }, { "$inc" => { count: -100 }, "$set" => { shelf: 7 } })
puts "updated #{done.matched_count} #{done.modified_count} #{stock.find(_id: "nail").first["count"]}"
puts "upserted #{stock.update_one({ _id: "paint" }, { "$set" => { count: 9 } }, upsert: true).upserted_id}"
puts "replaced #{stock.replace_one({ _id: "saw" }, { count: 3, tags: ["steel"] }).modified_count}"
puts "deleted #{stock.delete_one(_id: "glue").deleted_count} #{stock.delete_one(_id: "glue").deleted_count}"
stages = [
  { "$match" => { pieces: { "$gte" => 2 } } },
  { "$group" => { _id: "$item", sales: { "$sum" => 1 }, pieces: { "$sum" => "$pieces" } } },
  { "$sort" => { pieces: -1, _id: 1 } },
]
sales.aggregate(stages).each { |row| puts "total #{row["_id"]} #{row["sales"]} #{row["pieces"]}" }
puts "counted #{sales.find(item: "nail").count}"
begin
  stock.insert_one(_id: "nail")
rescue Mongo::Error::OperationFailure => error
  puts "duplicate #{error.message[/11000/] || error.message}"
end
client.close
