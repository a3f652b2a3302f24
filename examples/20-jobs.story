opened 1 0
ready
defined 1 create table queue (id int key, head int, tail int, check (head <= tail))
defined 2 create table job (id int key, what text, worker int null)
defined 3 create table late (id int key, worker int)
defined 4 program bring(what text) var j int base part { update queue set tail = (tail + 1) where key = 1; select tail into :j from queue where key = 1 } part { insert into job values (:j, :what, null) } on failure end end
defined 5 program work(w int) var j int, what text base part { update queue set head = (head + 1) where key = 1; select head into :j from queue where key = 1 } part { update job set worker = :w where key = :j; select what into :what from job where key = :j } then end on failure retry 1 then go 3 part { insert into late values (:j, :w) } on failure end end
u1.1 began @1
u1.1 did insert into queue values (1, 0, 2) -> count 1
u1.1 committed 6
u1.2 began @1
u1.2 did insert into job values (1, 'print', null) -> count 1
u1.2 committed 7
u1.3 began @1
u1.3 did insert into job values (2, 'mail', null) -> count 1
u1.3 committed 8
u1.4 began @1 b1.1 part 1 of work(1)
u1.4 did update queue set head = (head + 1) where key = 1 -> count 1
u1.5 began @2 b1.2 part 1 of work(2)
u1.5 waits u1.4
u1.6 began @3 b1.3 part 1 of bring('fax')
u1.6 waits u1.4
u1.7 began @4 b1.4 part 1 of work(4)
u1.7 waits u1.4
u1.4 did select head into :j from queue where key = 1 -> stored 1
u1.4 committed 9
b1.1 accepted
u1.5 did update queue set head = (head + 1) where key = 1 -> count 1
u1.5 did select head into :j from queue where key = 1 -> stored 2
u1.5 committed 10
b1.2 accepted
u1.6 did update queue set tail = (tail + 1) where key = 1 -> count 1
u1.6 did select tail into :j from queue where key = 1 -> stored 3
u1.6 committed 11
b1.3 accepted
u1.7 did update queue set head = (head + 1) where key = 1 -> count 1
u1.7 did select head into :j from queue where key = 1 -> stored 3
u1.7 committed 12
b1.4 accepted
u1.8 began b1.1 part 2
u1.8 did update job set worker = :w where key = :j -> count 1
u1.9 began b1.2 part 2
u1.9 did update job set worker = :w where key = :j -> count 1
u1.10 began b1.4 part 2
u1.10 did update job set worker = :w where key = :j -> count 0
u1.8 did select what into :what from job where key = :j -> stored 'print'
u1.8 committed 13
b1.1 finished
released b1.1
u1.9 did select what into :what from job where key = :j -> stored 'mail'
u1.9 committed 14
b1.2 finished
released b1.2
u1.10 did select what into :what from job where key = :j -> failed missing
u1.10 branched 15 missing
u1.11 began b1.3 part 2
u1.11 did insert into job values (:j, :what, null) -> count 1
u1.11 committed 16
b1.3 finished
released b1.3
u1.12 began b1.4 part 2
u1.12 did update job set worker = :w where key = :j -> count 1
u1.12 did select what into :what from job where key = :j -> stored 'fax'
u1.12 committed 17
b1.4 finished
released b1.4
u1.13 began @5 b1.5 part 1 of work(5)
u1.13 did update queue set head = (head + 1) where key = 1 -> failed check
u1.13 failed check
u1.14 began @5
u1.14 did select * from job -> rows (1, 'print', 1) (2, 'mail', 2) (3, 'fax', 4)
u1.14 committed 18
u1.15 began @5
u1.15 did select * from late -> rows
u1.15 committed 19
