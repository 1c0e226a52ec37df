-- What access.sql asks, for DuckDB. Not run here: DuckDB was not at hand.
--
-- usage: duckdb fleet.duckdb < access.duckdb.sql
--
-- The same files stand in the folder: q1.json, q2.json, owners.tsv.
create table records as
    select 1 as quarter, json as object from read_ndjson_objects('q1.json') union all select 2, json from read_ndjson_objects('q2.json');
select case when count(distinct quarter) <> 2 then error('a list was cut off') end from records where object ->> '$.what' = 'total';
-- Each line of a file that holds a key.
create table lines as
    select quarter, object ->> '$.file' as file, cast(object ->> '$.line' as bigint) as line, object ->> '$.what' as what,
        object ->> '$.key' as key, object ->> '$.comment' as comment, coalesce(object ->> '$.rights', '-') as rights,
        coalesce(object ->> '$.options', '-') as options, cast(object ->> '$.expires' as bigint) as expires,
        object ->> '$.lets_in' = 'true' as lets_in
    from records where object ->> '$.key' is not null;
create table files as
    select quarter, object ->> '$.file' as file, object ->> '$.sha256' as sha256, object ->> '$.fault' as fault
    from records where object ->> '$.what' = 'end';
create table findings as
    select quarter, file, line, found ->> '$.code' as code, found ->> '$.detail' as detail
    from (select quarter, object ->> '$.file' as file, cast(object ->> '$.line' as bigint) as line,
            unnest(from_json(object -> '$.findings', '["JSON"]')) as found
        from records where object ->> '$.line' is not null);
create table owners as
    select * from read_csv('owners.tsv', delim = '\t', header = false, quote = '', columns = {'key': 'varchar', 'owner': 'varchar'});
-- The lines that let in: not those that never decide, have expired, or whose from= or principals= permits nobody.
create view access as
    select quarter, file, line, what, key, comment, rights, options, expires from lines where lets_in;
create view gone as
    select file, what, key, rights, options, comment from access where quarter = 1
    except select file, what, key, rights, options, comment from access where quarter = 2;
create view new as
    select file, what, key, rights, options, comment from access where quarter = 2
    except select file, what, key, rights, options, comment from access where quarter = 1;
select quarter, file, fault from files where fault is not null order by quarter, file;
select * from gone order by file, what, key, options;
select * from new order by file, what, key, options;
select distinct key, file from access left join owners using (key) where quarter = 2 and owner is null order by key, file;
select code, count(*) filter (quarter = 1) as first, count(*) filter (quarter = 2) as second
    from findings group by code order by cast(substr(code, 2) as integer);
