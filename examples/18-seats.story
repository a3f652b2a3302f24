opened 1 0
ready
defined 1 create table hall (id int key, free int, check (free >= 0))
defined 2 create table taken (seat int key, who text)
defined 3 create table bill (id int key, who text, seat int, euros int)
defined 4 program book(b int, s int, name text) var seen int base part { update hall set free = (free - 1) where key = 1; select free into :seen from hall where key = 1 } part { insert into taken values (:s, :name); insert into bill values (:b, :name, :s, 20) } then end on failure go 3 part { update hall set free = (free + 1) where key = 1 } on failure end end
u1.1 began @1
u1.1 did insert into hall values (1, 2) -> count 1
u1.1 committed 5
u1.2 began @1 b1.1 part 1 of book(1, 12, 'Ada')
u1.2 did update hall set free = (free - 1) where key = 1 -> count 1
u1.3 began @2 b1.2 part 1 of book(2, 12, 'Bob')
u1.3 waits u1.2
u1.4 began @3 b1.3 part 1 of book(3, 13, 'Cyd')
u1.4 waits u1.2
u1.2 did select free into :seen from hall where key = 1 -> stored 1
u1.2 committed 6
b1.1 accepted
u1.3 did update hall set free = (free - 1) where key = 1 -> count 1
u1.3 did select free into :seen from hall where key = 1 -> stored 0
u1.3 committed 7
b1.2 accepted
u1.4 did update hall set free = (free - 1) where key = 1 -> failed check
u1.4 failed check
u1.5 began b1.1 part 2
u1.5 did insert into taken values (:s, :name) -> count 1
u1.6 began b1.2 part 2
u1.6 waits u1.5
u1.5 did insert into bill values (:b, :name, :s, 20) -> count 1
u1.5 committed 8
b1.1 finished
released b1.1
u1.6 did insert into taken values (:s, :name) -> failed duplicate
u1.6 branched 9 duplicate
u1.7 began b1.2 part 3
u1.7 did update hall set free = (free + 1) where key = 1 -> count 1
u1.7 committed 10
b1.2 finished
released b1.2
u1.8 began @4
u1.8 did select free from hall where key = 1 -> rows (1)
u1.8 committed 11
u1.9 began @4
u1.9 did select * from taken -> rows (12, 'Ada')
u1.9 committed 12
u1.10 began @4
u1.10 did select * from bill -> rows (1, 'Ada', 12, 20)
u1.10 committed 13
