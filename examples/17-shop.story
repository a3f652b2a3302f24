opened 1 0
ready
defined 1 create table stock (id int key, name text, left int, check (left >= 0))
defined 2 create table orders (id int key, item int, customer text, pieces int)
defined 3 program buy(o int, i int, who text, n int) var seen int base part { ensure (:n > 0); update stock set left = (left - :n) where key = :i; select left into :seen from stock where key = :i } part { insert into orders values (:o, :i, :who, :n) } then end on failure go 3 part { update stock set left = (left + :n) where key = :i } on failure end end
u1.1 began @1
u1.1 did insert into stock values (1, 'lamp', 5) -> count 1
u1.1 committed 4
u1.2 began @1
u1.2 did insert into orders values (100, 1, 'Eve', 1) -> count 1
u1.2 committed 5
u1.3 began @1 b1.1 part 1 of buy(101, 1, 'Ada', 1)
u1.3 did ensure (:n > 0) -> true
u1.4 began @2 b1.2 part 1 of buy(102, 1, 'Bob', 2)
u1.4 did ensure (:n > 0) -> true
u1.5 began @3 b1.3 part 1 of buy(100, 1, 'Cyd', 1)
u1.5 did ensure (:n > 0) -> true
u1.6 began @4 b1.4 part 1 of buy(104, 1, 'Dot', 3)
u1.6 did ensure (:n > 0) -> true
u1.3 did update stock set left = (left - :n) where key = :i -> count 1
u1.4 waits u1.3
u1.5 waits u1.3
u1.6 waits u1.3
u1.3 did select left into :seen from stock where key = :i -> stored 4
u1.3 committed 6
b1.1 accepted
u1.4 did update stock set left = (left - :n) where key = :i -> count 1
u1.4 did select left into :seen from stock where key = :i -> stored 2
u1.4 committed 7
b1.2 accepted
u1.5 did update stock set left = (left - :n) where key = :i -> count 1
u1.5 did select left into :seen from stock where key = :i -> stored 1
u1.5 committed 8
b1.3 accepted
u1.6 did update stock set left = (left - :n) where key = :i -> failed check
u1.6 failed check
u1.7 began @5
u1.7 waits b1.1 b1.2 b1.3
u1.8 began b1.1 part 2
u1.8 did insert into orders values (:o, :i, :who, :n) -> count 1
u1.8 committed 9
b1.1 finished
released b1.1
u1.9 began b1.2 part 2
u1.9 did insert into orders values (:o, :i, :who, :n) -> count 1
u1.9 committed 10
b1.2 finished
released b1.2
u1.10 began b1.3 part 2
u1.10 did insert into orders values (:o, :i, :who, :n) -> failed duplicate
u1.10 branched 11 duplicate
u1.11 began b1.3 part 3
u1.11 did update stock set left = (left + :n) where key = :i -> count 1
u1.11 committed 12
b1.3 finished
released b1.3
u1.7 did select sum(left) from stock -> value 2
u1.7 did select sum(pieces) from orders -> value 4
u1.7 committed 13
