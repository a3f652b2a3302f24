opened 1 0
ready
defined 1 create table account (id int key, balance int, check (balance >= 0))
defined 2 program transfer(a int, b int, amount int) var seen int base part { ensure (:amount > 0); update account set balance = (balance - :amount) where key = :a; select balance into :seen from account where key = :a } part { update account set balance = (balance + :amount) where key = :b; select balance into :seen from account where key = :b } then end on failure go 3 part { update account set balance = (balance + :amount) where key = :a } on failure end end
defined 3 program close(a int) base part { delete from account where key = :a and (balance = 0) } end
u1.1 began @1
u1.1 did insert into account values (1, 100) -> count 1
u1.1 committed 4
u1.2 began @1
u1.2 did insert into account values (2, 50) -> count 1
u1.2 committed 5
u1.3 began @1 b1.1 part 1 of transfer(1, 9, 100)
u1.3 did ensure (:amount > 0) -> true
u1.3 did update account set balance = (balance - :amount) where key = :a -> count 1
u1.3 did select balance into :seen from account where key = :a -> stored 0
u1.3 committed 6
b1.1 accepted
u1.4 began @2 b1.2 part 1 of close(1)
u1.4 did delete from account where key = :a and (balance = 0) -> count 1
u1.4 committed 7
b1.2 accepted
b1.2 finished
u1.5 began b1.1 part 2
u1.5 did update account set balance = (balance + :amount) where key = :b -> count 0
u1.5 did select balance into :seen from account where key = :b -> failed missing
u1.5 branched 8 missing
u1.6 began b1.1 part 3
u1.6 did update account set balance = (balance + :amount) where key = :a -> count 0
u1.6 committed 9
b1.1 finished
released b1.1 b1.2
u1.7 began @1
u1.7 did select * from account -> rows (2, 50)
u1.7 committed 10
