-- The table on several computers: two shards here, each with two replicas, to which several collectors may write.
-- On each server remote_servers has the cluster `journals`, whose shards have internal_replication true, macros has
-- {shard} and {replica}, and zookeeper says where ZooKeeper or keeper runs. The first statement goes to each server,
-- the second one to those that are written to and asked.
-- 1. The table as `journal-collect-forward --schema` prints it, under the name @table@_here, with another engine:
--    ENGINE = ReplicatedReplacingMergeTree('/clickhouse/tables/{shard}/@table@_here', '{replica}')
--    Without replicas it stays ReplacingMergeTree.
-- 2. What is sent twice has to come to the same shard, so the key says which one it is:
CREATE TABLE IF NOT EXISTS @table@ AS @table@_here
ENGINE = Distributed(journals, currentDatabase(), @table@_here, sipHash64(sequence, number));
