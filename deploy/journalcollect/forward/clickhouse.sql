-- What journal-collect-forward needs in ClickHouse, and views for the usual questions.
-- A time is in microseconds since 1970. An empty column stands for no field: an empty value, further values of a field
-- and all other fields are in names and values, one behind the other.
CREATE TABLE IF NOT EXISTS @table@
(
    day Date,
    realtime UInt64,
    sequence String,
    number UInt64,
    content UInt64,
    monotonic UInt64,
    boot String,
    machine String,
    host String,
    unit String,
    user_unit String,
    slice String,
    cgroup String,
    invocation String,
    transport String,
    runtime_scope String,
    priority String,
    facility String,
    identifier String,
    syslog_pid String,
    syslog_timestamp String,
    message String,
    message_id String,
    pid String,
    uid String,
    gid String,
    command String,
    program String,
    command_line String,
    capabilities String,
    context String,
    source_realtime String,
    code_file String,
    code_line String,
    code_function String,
    about_unit String,
    object_unit String,
    about_invocation String,
    job String,
    session String,
    login_uid String,
    systemd_session String,
    owner_uid String,
    names Array(String),
    values Array(String)
)
ENGINE = ReplacingMergeTree
PARTITION BY day
ORDER BY (realtime, sequence, number, content);

-- Entries as people read them. A time that DateTime can't have is shown wrong; realtime is right.
CREATE VIEW IF NOT EXISTS @table@_lines AS
SELECT toDateTime(intDiv(realtime, 1000000)) AS time, host, unit, identifier, pid, priority, message,
       day, realtime, sequence, number, content
FROM @table@;

-- What went wrong: entries of priority 0 to 3.
CREATE VIEW IF NOT EXISTS @table@_errors AS
SELECT toDateTime(intDiv(realtime, 1000000)) AS time, host, unit, identifier, pid, priority, message,
       day, realtime, sequence, number, content
FROM @table@
WHERE priority IN ('0', '1', '2', '3');

-- How much each unit of each machine logs in an hour.
CREATE VIEW IF NOT EXISTS @table@_hours AS
SELECT day, intDiv(realtime, 3600000000) * 3600 AS hour, host, unit, uniqExact(sequence, number, content) AS entries,
       sum(length(message)) AS bytes
FROM @table@
GROUP BY day, hour, host, unit;
