"""What is asked of the log, in the part of SQL that PostgreSQL and SQLite share. `:name` stands for a value."""
import pathlib

SCHEMA = (pathlib.Path(__file__).parent / "schema.sql").read_text(encoding="utf-8")

# SQLite 3.40 answers `state is not null` wrongly behind `returning`.
ROW = "number, epoch, id, lines, replies, version, coalesce(length(state), -1) >= 0 as is_kept"
NAMES = "number, epoch, id, lines, replies, version, is_kept"

# The rows that somebody at a row hasn't had: those after it, or all of the last epoch, if that row isn't in the log.
# They are so many that those before the last of them have fewer bytes than a page.
BEHIND = f"""with behind as (select {ROW}, length(lines) + length(replies) as size from entry
    where document = :document
    and number >= (select epoch from entry where document = :document order by number desc limit 1)
    and number > coalesce((select number from entry where document = :document and number = :number and id = :id), 0)
    order by number limit :page)
    select {NAMES} from (select *, sum(size) over (order by number) - size as before from behind) as summed
    where before < :bytes order by number"""

# The request, if it was done. It is a write, so it waits until the row is wherever a commit has to be: a database that
# was started again shows rows that its standby may not have.
DONE = f"update entry set id = id where document = :document and request = :request returning {ROW}"

# The next row, if the one before is still what the process has done last.
APPEND = """insert into entry (document, number, id, epoch, request, author, lines, replies, version, written)
    select :document, cast(:number as bigint) + 1, :next, :epoch, :request, :author, :lines, :replies, :version, :written
    where :number = 0 or exists (select 1 from entry where document = :document and number = :number and id = :id)
    returning id"""

IS_THERE = "select 1 from entry where document = :document and number = :number and id = :id"

# What a table of this version has.
FIT = "select document, number, id, epoch, request, author, lines, replies, version, state, written from entry limit 0"

LAST = "select id from entry where document = :document order by number desc limit 1"

# The state after a row, in the place of those after earlier ones.
KEEP = """update entry set state = case when number = :number then :state end
    where document = :document and (number = :number and id = :id or number < :number and state is not null)
    and exists (select 1 from entry where document = :document and number = :number and id = :id)
    returning number"""

KEPT = """select number, id, state from entry where document = :document and epoch = :epoch and state is not null
    order by number desc limit 1"""

# Rows that nobody can be asking for any more. The last epoch stays, however old it is.
FORGET = """delete from entry where (document, number) in (select document, number from entry where written < :before
    and number < (select epoch from entry as last where last.document = entry.document order by number desc limit 1)
    limit :page) returning number"""
