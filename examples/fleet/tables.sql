-- Tables for the rows of many stations: the columns that `fc export` prints, behind the station's name. Two of them are
-- words of SQL, and so are quoted.
create table sales (
    station text, ended bigint, cleared bigint, point bigint, "transaction" bigint, product bigint, price bigint,
    volume bigint, amount bigint, till bigint, moment bigint, off bigint
);
create table decisions (
    station text, entry bigint, moment bigint, till bigint, point bigint, kind text, asked bigint, slot bigint,
    version bigint, r0 numeric(20), answer text, granted bigint, context_till bigint, context_point bigint,
    context_kind bigint, context_state bigint, context_nozzle bigint, context_product bigint, context_asked bigint,
    context_moment bigint, context_price bigint, context_busy_points bigint, context_unpaid bigint, context_slot bigint,
    context_cleared bigint, context_clears bigint, context_open_points bigint
);
create table events (
    station text, entry bigint, pass bigint, moment bigint, sender text, till bigint, point bigint, verb text,
    product bigint, nozzle bigint, "transaction" bigint, amount numeric(20), volume numeric(20), slot bigint, mask bigint,
    layout bigint, reply text, granted bigint, version bigint, "order" text, refusal bigint, detail bigint
);
