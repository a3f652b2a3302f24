opened 1 0
ready
defined 1 create table stock (id int key, left int, check (left >= 0))
defined 2 program take(a int, b int) var seen int base part { update stock set left = (left - 1) where key = :a; select left into :seen from stock where key = :a } part { update stock set left = (left - 1) where key = :b; select left into :seen from stock where key = :b } then end on failure go 3 part { update stock set left = (left + 1) where key = :a } on failure end end
u1.1 began @1
u1.1 did insert into stock values (1, 10) -> count 1
u1.1 committed 3
u1.2 began @1
u1.2 did insert into stock values (2, 10) -> count 1
u1.2 committed 4
u1.3 began @1 b1.1 part 1 of take(1, 2)
u1.3 did update stock set left = (left - 1) where key = :a -> count 1
u1.3 did select left into :seen from stock where key = :a -> stored 9
u1.3 committed 5
b1.1 accepted
u1.4 began @2 b1.2 part 1 of take(2, 1)
u1.4 did update stock set left = (left - 1) where key = :a -> count 1
u1.4 did select left into :seen from stock where key = :a -> stored 9
u1.4 committed 6
b1.2 accepted
u1.5 began b1.1 part 2
u1.5 did update stock set left = (left - 1) where key = :b -> count 1
u1.5 did select left into :seen from stock where key = :b -> stored 8
u1.5 committed 7
b1.1 finished
u1.6 began @3
u1.6 waits b1.1 b1.2
base b1.1 take finished
base b1.2 take next 2
shown 2
u1.7 began b1.2 part 2
u1.7 did update stock set left = (left - 1) where key = :b -> count 1
u1.7 did select left into :seen from stock where key = :b -> stored 8
u1.7 committed 8
b1.2 finished
released b1.1 b1.2
u1.6 did select * from stock -> rows (1, 8) (2, 8)
u1.6 committed 9
