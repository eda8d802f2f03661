<?php
// An ordinary application of the driver for PHP: a shop with its stock and its sales. Usage: shop.php URI
use MongoDB\Driver\BulkWrite;
use MongoDB\Driver\Command;
use MongoDB\Driver\Exception\BulkWriteException;
use MongoDB\Driver\Manager;
use MongoDB\Driver\Query;

$manager = new Manager($argv[1]);

function write(string $collection, callable $fill) {
    global $manager;
    $bulk = new BulkWrite();
    $fill($bulk);
    return $manager->executeBulkWrite("shop.$collection", $bulk);
}

function found(string $collection, array $filter, array $options = []): array {
    global $manager;
    return $manager->executeQuery("shop.$collection", new Query($filter, $options))->toArray();
}

function names(array $documents, string $field = "_id"): string {
    return implode(" ", array_map(fn($it) => $it->$field, $documents));
}

$goods = [
    ["_id" => "nail", "count" => 500, "tags" => ["iron", "small"]],
    ["_id" => "saw", "count" => 4, "tags" => ["iron"]],
    ["_id" => "rope", "count" => 20, "tags" => ["hemp"]],
    ["_id" => "glue", "count" => 12, "tags" => []],
];
$done = write("stock", function ($bulk) use ($goods) { foreach ($goods as $it) { $bulk->insert($it); } });
echo "inserted ", $done->getInsertedCount(), "\n";
$sold = [["nail", 100, 300], ["saw", 1, 2500], ["nail", 50, 160], ["rope", 2, 1400], ["saw", 2, 4700], ["glue", 1, 350], ["nail", 10, 40]];
foreach ($sold as $at => [$item, $pieces, $cents]) {
    write("sales", fn($bulk) => $bulk->insert(["_id" => $at + 1, "item" => $item, "pieces" => $pieces, "cents" => $cents]));
}
echo "one ", found("stock", ["_id" => "saw"])[0]->count, "\n";
echo "iron ", names(found("stock", ["tags" => "iron"], ["sort" => ["_id" => 1]])), "\n";
echo "few ", names(found("stock", ["count" => ['$lt' => 50], "tags" => ['$ne' => "hemp"]], ["sort" => ["count" => -1]])), "\n";
echo "cents ", names(found("sales", [], ["projection" => ["cents" => 1], "sort" => ["_id" => 1], "batchSize" => 3]), "cents"), "\n";
$done = write("stock", fn($bulk) => $bulk->update(["_id" => "nail"], ['$inc' => ["count" => -100], '$set' => ["shelf" => 7]]));
echo "updated ", $done->getMatchedCount(), " ", $done->getModifiedCount(), " ", found("stock", ["_id" => "nail"])[0]->count, "\n";
$done = write("stock", fn($bulk) => $bulk->update(["_id" => "paint"], ['$set' => ["count" => 9]], ["upsert" => true]));
echo "upserted ", $done->getUpsertedIds()[0], "\n";
$done = write("stock", fn($bulk) => $bulk->update(["_id" => "saw"], ["count" => 3, "tags" => ["steel"]]));
echo "replaced ", $done->getModifiedCount(), "\n";
$deleted = array_map(fn() => write("stock", fn($bulk) => $bulk->delete(["_id" => "glue"], ["limit" => 1]))->getDeletedCount(), [1, 2]);
echo "deleted ", implode(" ", $deleted), "\n";
$stages = [
    ['$match' => ["pieces" => ['$gte' => 2]]],
    ['$group' => ["_id" => '$item', "sales" => ['$sum' => 1], "pieces" => ['$sum' => '$pieces']]],
    ['$sort' => ["pieces" => -1, "_id" => 1]],
];
$command = new Command(["aggregate" => "sales", "pipeline" => $stages, "cursor" => new stdClass()]);
foreach ($manager->executeCommand("shop", $command) as $row) {
    echo "total $row->_id $row->sales $row->pieces\n";
}
$count = new Command(["count" => "sales", "query" => ["item" => "nail"]]);
echo "counted ", $manager->executeCommand("shop", $count)->toArray()[0]->n, "\n";
try {
    write("stock", fn($bulk) => $bulk->insert(["_id" => "nail"]));
} catch (BulkWriteException $error) {
    echo "duplicate ", $error->getWriteResult()->getWriteErrors()[0]->getCode(), "\n";
}
