-- What changed in the access of a fleet between two quarters; the files that could not be read, keys of nobody, and what had
-- to be fixed in each quarter.
--
-- usage: sqlite3 fleet.db < access.sql
--
-- In the folder stand q1.json and q2.json, lists of `ssh_audit review --kind auth --form json` without --findings, and
-- owners.tsv: a fingerprint, a tab and an owner on each line. fleet.db is new, and keeps tables and views for more
-- questions. A list that was cut off ends it with status 1. Needs sqlite3 3.38 (2022) or later.
.bail on
.mode ascii
.separator "\037" "\n"
create table first (object text);
create table second (object text);
.import q1.json first
.import q2.json second
create table records as select 1 as quarter, object from first union all select 2, object from second;
drop table first;
drop table second;
create temp table whole (lists integer check (lists = 2));
insert into whole select count(distinct quarter) from records where object ->> '$.what' = 'total';
-- Each line of a file that holds a key.
create table lines as
    select quarter, object ->> '$.file' as file, object ->> '$.line' as line, object ->> '$.what' as what,
        object ->> '$.key' as key, object ->> '$.comment' as comment, coalesce(object ->> '$.rights', '-') as rights,
        coalesce(object ->> '$.options', '-') as options, object ->> '$.expires' as expires, object ->> '$.lets_in' as lets_in
    from records where object ->> '$.key' is not null;
create table files as
    select quarter, object ->> '$.file' as file, object ->> '$.sha256' as sha256, object ->> '$.fault' as fault
    from records where object ->> '$.what' = 'end';
create table findings as
    select quarter, object ->> '$.file' as file, object ->> '$.line' as line, value ->> '$.code' as code,
        value ->> '$.detail' as detail
    from records, json_each(object -> '$.findings') where object ->> '$.line' is not null;
drop table records;
create table owners (key text primary key, owner text);
.separator "\t" "\n"
.import owners.tsv owners
create index lines_by_key on lines (key);
-- The lines that let in: not those that never decide, have expired, or whose from= or principals= permits nobody.
create view access as
    select quarter, file, line, what, key, comment, rights, options, expires from lines where lets_in;
create view gone as
    select file, what, key, rights, options, comment from access where quarter = 1
    except select file, what, key, rights, options, comment from access where quarter = 2;
create view new as
    select file, what, key, rights, options, comment from access where quarter = 2
    except select file, what, key, rights, options, comment from access where quarter = 1;
.mode tabs
.print not read:
select quarter, file, fault from files where fault is not null order by quarter, file;
.print gone or changed:
select * from gone order by file, what, key, options;
.print new or changed:
select * from new order by file, what, key, options;
.print of nobody:
select distinct key, file from access left join owners using (key) where quarter = 2 and owner is null order by key, file;
.print findings of both quarters:
select code, sum(quarter = 1), sum(quarter = 2) from findings group by code order by cast(substr(code, 2) as integer);
