-- sqlite3 -cmd ".parameter set :crate serde_json" DATABASE <examples/fleet/questions.sql
-- A snapshot is compared with the last one before it of its label, options and version of binfarce.
CREATE TEMP VIEW last AS SELECT * FROM snapshots ORDER BY number DESC LIMIT 1;
CREATE TEMP VIEW before AS SELECT max(snapshots.number) AS number FROM snapshots, last
    WHERE snapshots.number < last.number AND snapshots.label = last.label AND snapshots.options = last.options
        AND snapshots.version = last.version;
CREATE TEMP VIEW latest AS SELECT * FROM sums WHERE snapshot = (SELECT number FROM last);
CREATE TEMP VIEW earlier AS SELECT * FROM sums WHERE snapshot = (SELECT number FROM before);
.print The largest crates over all programs: bytes, programs, crate
SELECT sum(size) AS bytes, count(*), name FROM latest WHERE error IS NULL GROUP BY name ORDER BY bytes DESC, name LIMIT 20;
.print Programs that contain :crate: bytes, program, machine
SELECT size, file, host FROM latest WHERE name = :crate ORDER BY size DESC, file, host;
.print Compared with: snapshot, taken
SELECT number, taken FROM snapshots WHERE number = (SELECT number FROM before);
.print What grew since the snapshot before: bytes more, bytes, crate, program, machine
SELECT size - ifnull(old, 0) AS more, size, name, file, host
    FROM (SELECT *, (SELECT size FROM earlier WHERE earlier.host = latest.host AND earlier.file = latest.file
        AND earlier.name = latest.name) AS old FROM latest)
    WHERE more > 0 AND EXISTS (SELECT 1 FROM earlier) ORDER BY more DESC, name, file, host LIMIT 20;
.print Refused: programs, reason
SELECT count(*) AS programs, error FROM latest WHERE error IS NOT NULL GROUP BY error ORDER BY programs DESC, error;
