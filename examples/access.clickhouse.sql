-- What access.sql asks, for ClickHouse. Not run here: ClickHouse was not at hand.
--
-- usage: clickhouse local --multiquery < access.clickhouse.sql
--
-- The same files stand in the folder: q1.json, q2.json, owners.tsv.
create table records engine = Memory as
    select 1 as quarter, json as object from file('q1.json', 'JSONAsString') union all select 2, json from file('q2.json', 'JSONAsString');
select throwIf(uniqExact(quarter) != 2, 'a list was cut off') from records where JSONExtractString(object, 'what') = 'total' format Null;
-- Each line of a file that holds a key. A text that is null becomes empty here, and a moment that is null 0.
create table lines engine = Memory as
    select quarter, JSONExtractString(object, 'file') as file, JSONExtractUInt(object, 'line') as line, JSONExtractString(object, 'what') as what,
        JSONExtractString(object, 'key') as key, JSONExtractString(object, 'comment') as comment, JSONExtractString(object, 'rights') as rights,
        JSONExtractString(object, 'options') as options, JSONExtractInt(object, 'expires') as expires, JSONExtractBool(object, 'lets_in') as lets_in
    from records where JSONExtractString(object, 'key') != '';
create table files engine = Memory as
    select quarter, JSONExtractString(object, 'file') as file, JSONExtractString(object, 'sha256') as sha256, JSONExtractString(object, 'fault') as fault
    from records where JSONExtractString(object, 'what') = 'end';
create table findings engine = Memory as
    select quarter, JSONExtractString(object, 'file') as file, JSONExtractUInt(object, 'line') as line, JSONExtractString(found, 'code') as code,
        JSONExtractString(found, 'detail') as detail
    from records array join JSONExtractArrayRaw(object, 'findings') as found where JSONHas(object, 'line');
create table owners engine = Memory as select c1 as key, c2 as owner from file('owners.tsv', 'TSV', 'c1 String, c2 String');
-- The lines that let in: not those that never decide, have expired, or whose from= or principals= permits nobody.
create view access as
    select quarter, file, line, what, key, comment, rights, options, expires from lines where lets_in;
create view gone as
    select file, what, key, rights, options, comment from access where quarter = 1
    except distinct select file, what, key, rights, options, comment from access where quarter = 2;
create view new as
    select file, what, key, rights, options, comment from access where quarter = 2
    except distinct select file, what, key, rights, options, comment from access where quarter = 1;
select quarter, file, fault from files where fault != '' order by quarter, file;
select * from gone order by file, what, key, options;
select * from new order by file, what, key, options;
select distinct key, file from access where quarter = 2 and key not in (select key from owners) order by key, file;
select code, countIf(quarter = 1) as first, countIf(quarter = 2) as second from findings group by code order by toUInt32(substring(code, 2));
