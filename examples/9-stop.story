opened 1 0
ready
defined 1 create table account (id int key, balance int, check (balance >= 0))
defined 2 program transfer(a int, b int, amount int) var seen int base part { ensure (:amount > 0); update account set balance = (balance - :amount) where key = :a; select balance into :seen from account where key = :a } part { update account set balance = (balance + :amount) where key = :b; select balance into :seen from account where key = :b } then end on failure go 3 part { update account set balance = (balance + :amount) where key = :a } on failure end end
u1.1 began @1
u1.1 did insert into account values (1, 100) -> count 1
u1.1 committed 3
u1.2 began @1
u1.2 did insert into account values (2, 50) -> count 1
u1.2 committed 4
u1.3 began @1 b1.1 part 1 of transfer(1, 2, 30)
u1.3 did ensure (:amount > 0) -> true
u1.3 did update account set balance = (balance - :amount) where key = :a -> count 1
u1.3 did select balance into :seen from account where key = :a -> stored 70
u1.3 committed 5
b1.1 accepted
u1.4 began @2
u1.4 did insert into account values (3, 10) -> count 1
armed 7 1 3 0
down stopped
down stopped
opened 2 6
u1.4 committed 6
u2.1 began b1.1 part 2
u2.1 did update account set balance = (balance + :amount) where key = :b -> count 1
u2.1 did select balance into :seen from account where key = :b -> stored 80
u2.1 committed 7
b1.1 finished
ready
u2.2 began @1
u2.2 did select * from account -> rows (1, 70) (2, 80) (3, 10)
u2.2 committed 8
