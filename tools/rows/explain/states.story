opened 1 0
ready
defined 1 create table account (id int key, balance int)
defined 2 program pay(a int, b int, n int) acid { update account set balance = (balance - :n) where key = :a; update account set balance = (balance + :n) where key = :b } end
defined 3 program move(a int, b int) base part { update account set balance = (balance - 1) where key = :a } part { update account set balance = (balance + 1) where key = :b } on failure end end
u1.1 began @1
u1.1 did insert into account values (1, 100) -> count 1
u1.1 committed 4
u1.2 began @1
u1.2 did insert into account values (2, 50) -> count 1
u1.2 committed 5
refused 9 state
refused 9 state
refused 9 state
u1.3 began @1 call pay(1, 2, 30)
u1.3 did update account set balance = (balance - :n) where key = :a -> count 1
refused 9 state
refused 9 state
refused 9 state
u1.4 began @2
refused 9 state
refused 9 state
u1.4 waits u1.3
refused 9 state
refused 9 state
refused 10 busy
u1.3 did update account set balance = (balance + :n) where key = :b -> count 1
u1.3 committed 6
u1.4 did select * from account where key = 1 -> rows (1, 70)
refused 9 state
u1.4 committed 7
u1.5 began @1 b1.1 part 1 of move(1, 2)
u1.5 did update account set balance = (balance - 1) where key = :a -> count 1
u1.5 committed 8
b1.1 accepted
refused 10 busy
u1.6 began @2
u1.6 did update account set balance = 0 where key = 2 -> count 1
u1.7 began b1.1 part 2
u1.7 waits u1.6
refused 9 state
refused 5 unknown b1.2
u1.6 rolled back
u1.7 did update account set balance = (balance + 1) where key = :b -> count 1
u1.7 committed 9
b1.1 finished
released b1.1
refused 5 unknown b1.1
defined 10 create table other (id int key)
