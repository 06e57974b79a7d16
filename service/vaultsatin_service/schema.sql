-- The log of all documents, in the part of SQL that PostgreSQL and SQLite share. A request is one row, so it is done
-- wholly or not at all.
--
-- The primary key is the judge of order: if two workers append at the same number, one of them is refused. Numbers go on
-- through epochs. Were the epoch in the key, a worker that hasn't heard of a new one could still append to the old one.
--
-- An epoch is a run of the program, and has the number of its first row. The first row of all has the rules, the
-- listeners and the document that a client sent. That of a later epoch has those that were there at the end of the one
-- before. Replies follow from the lines of the epoch up to their row, and from nothing else.

create table if not exists entry (
    document text   not null check (length(document) between 1 and 63),
    number   bigint not null check (number > 0),
    id       text   not null check (length(id) = 32), -- which row it is: a standby that took over may lack the last ones
    epoch    bigint not null check (epoch between 1 and number),
    request  text   check (length(request) between 1 and 64), -- a client's name for it; null where a worker began an epoch
    author   text,            -- the user's name, as the proxy gave it
    lines    bytea  not null, -- each ends with a newline, as does each reply
    replies  bytea  not null,
    version  text   check (version is null or epoch = number), -- of the program that began the epoch
    state    bytea,           -- the document after the row, for a program of another version
    written  bigint not null, -- when, in seconds from 1970 by the worker's clock
    primary key (document, number),
    unique (document, request) -- what is sent twice is done once
);

create index if not exists entry_written on entry (written);
