opened 1 0
ready
defined 1 create table account (id int key, balance int)
defined 2 program move(a int, b int) base part { update account set balance = (balance - 1) where key = :a } part { update account set balance = (balance + 1) where key = :b } on failure end end
u1.1 began @1
u1.1 did insert into account values (1, 100) -> count 1
u1.1 committed 3
u1.2 began @1
u1.2 did insert into account values (2, 50) -> count 1
u1.2 committed 4
u1.3 began @1
u1.3 did update account set balance = 7 where key = 1 -> count 1
u1.4 began @2
u1.4 waits u1.3
armed 1 0
u1.5 began @3
u1.5 did insert into account values (3, 0) -> count 1
down stopped
opened 2 4
u1.3 cut
u1.4 cut
u1.5 cut
ready
refused 9 state
u2.1 began @1
u2.1 did select * from account -> rows (1, 100) (2, 50)
u2.1 committed 5
u2.2 began @1 b2.1 part 1 of move(1, 2)
u2.2 did update account set balance = (balance - 1) where key = :a -> count 1
u2.2 committed 6
b2.1 accepted
armed 3 1 2 0
u2.3 began b2.1 part 2
u2.3 did update account set balance = (balance + 1) where key = :b -> count 1
down stopped
down stopped
opened 3 6
u2.3 cut
u3.1 began b2.1 part 2
u3.1 did update account set balance = (balance + 1) where key = :b -> count 1
u3.1 committed 7
b2.1 finished
ready
u3.2 began @1
u3.2 did select * from account -> rows (1, 99) (2, 51)
u3.2 committed 8
shown 0
