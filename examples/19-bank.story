opened 1 0
ready
defined 1 create table account (id int key, owner text, balance int, check (balance >= 0))
defined 2 program pay(a int, b int, n int) var seen int base part { ensure (:n > 0); update account set balance = ((balance - :n) - 1) where key = :a; select balance into :seen from account where key = :a } part { update account set balance = (balance + :n) where key = :b; select balance into :seen from account where key = :b } on failure go 4 part { update account set balance = (balance + 1) where key = 900; select balance into :seen from account where key = 900 } then end on failure go 5 part { update account set balance = (balance + :n) where key = :a } on failure go 5 part { update account set balance = (balance + 1) where key = :a } on failure end end
u1.1 began @1
u1.1 did insert into account values (1, 'Ada', 100) -> count 1
u1.1 committed 3
u1.2 began @1
u1.2 did insert into account values (2, 'Bob', 100) -> count 1
u1.2 committed 4
u1.3 began @1
u1.3 did insert into account values (3, 'Cyd', 50) -> count 1
u1.3 committed 5
u1.4 began @1
u1.4 did insert into account values (4, 'Dot', 0) -> count 1
u1.4 committed 6
u1.5 began @1
u1.5 did insert into account values (5, 'Eve', 20) -> count 1
u1.5 committed 7
u1.6 began @1
u1.6 did insert into account values (900, 'fees', 0) -> count 1
u1.6 committed 8
u1.7 began @1 b1.1 part 1 of pay(1, 2, 10)
u1.7 did ensure (:n > 0) -> true
u1.8 began @2 b1.2 part 1 of pay(3, 4, 10)
u1.8 did ensure (:n > 0) -> true
u1.9 began @3 b1.3 part 1 of pay(5, 44, 10)
u1.9 did ensure (:n > 0) -> true
u1.7 did update account set balance = ((balance - :n) - 1) where key = :a -> count 1
u1.8 did update account set balance = ((balance - :n) - 1) where key = :a -> count 1
u1.9 did update account set balance = ((balance - :n) - 1) where key = :a -> count 1
u1.7 did select balance into :seen from account where key = :a -> stored 89
u1.7 committed 9
b1.1 accepted
u1.8 did select balance into :seen from account where key = :a -> stored 39
u1.8 committed 10
b1.2 accepted
u1.9 did select balance into :seen from account where key = :a -> stored 9
u1.9 committed 11
b1.3 accepted
u1.10 began @4
u1.10 waits b1.1 b1.2 b1.3
u1.11 began b1.1 part 2
u1.11 did update account set balance = (balance + :n) where key = :b -> count 1
u1.12 began b1.2 part 2
u1.12 did update account set balance = (balance + :n) where key = :b -> count 1
u1.13 began b1.3 part 2
u1.13 did update account set balance = (balance + :n) where key = :b -> count 0
u1.11 did select balance into :seen from account where key = :b -> stored 110
u1.11 committed 12
u1.12 did select balance into :seen from account where key = :b -> stored 10
u1.12 committed 13
u1.13 did select balance into :seen from account where key = :b -> failed missing
u1.13 branched 14 missing
u1.14 began b1.1 part 3
u1.14 did update account set balance = (balance + 1) where key = 900 -> count 1
u1.15 began b1.2 part 3
u1.15 waits u1.14
u1.16 began b1.3 part 4
u1.16 did update account set balance = (balance + :n) where key = :a -> count 1
u1.16 committed 15
u1.14 did select balance into :seen from account where key = 900 -> stored 1
u1.14 committed 16
b1.1 finished
released b1.1
u1.15 did update account set balance = (balance + 1) where key = 900 -> count 1
u1.15 did select balance into :seen from account where key = 900 -> stored 2
u1.15 committed 17
b1.2 finished
released b1.2
u1.17 began b1.3 part 5
u1.17 did update account set balance = (balance + 1) where key = :a -> count 1
u1.17 committed 18
b1.3 finished
released b1.3
u1.10 did select sum(balance) from account -> value 270
u1.10 committed 19
u1.18 began @4
u1.18 did select * from account -> rows (1, 'Ada', 89) (2, 'Bob', 110) (3, 'Cyd', 39) (4, 'Dot', 10) (5, 'Eve', 20) (900, 'fees', 2)
u1.18 committed 20
