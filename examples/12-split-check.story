opened 1 0
ready
defined 1 create table account (id int key, balance int, check (balance >= 0))
defined 2 program transfer(a int, b int, amount int) var seen int base part { ensure (:amount > 0); select balance into :seen from account where key = :b; ensure ((:seen + :amount) <= 100); update account set balance = (balance - :amount) where key = :a; select balance into :seen from account where key = :a } part { update account set balance = (balance + :amount) where key = :b; select balance into :seen from account where key = :b; ensure (:seen <= 100) } then end on failure go 3 part { update account set balance = (balance + :amount) where key = :a } on failure end end
u1.1 began @1
u1.1 did insert into account values (1, 100) -> count 1
u1.1 committed 3
u1.2 began @1
u1.2 did insert into account values (2, 50) -> count 1
u1.2 committed 4
u1.3 began @1
u1.3 did insert into account values (3, 100) -> count 1
u1.3 committed 5
u1.4 began @1 b1.1 part 1 of transfer(1, 2, 30)
u1.4 did ensure (:amount > 0) -> true
u1.4 did select balance into :seen from account where key = :b -> stored 50
u1.4 did ensure ((:seen + :amount) <= 100) -> true
u1.4 did update account set balance = (balance - :amount) where key = :a -> count 1
u1.4 did select balance into :seen from account where key = :a -> stored 70
u1.4 committed 6
b1.1 accepted
u1.5 began @2 b1.2 part 1 of transfer(3, 2, 30)
u1.5 did ensure (:amount > 0) -> true
u1.5 did select balance into :seen from account where key = :b -> stored 50
u1.5 did ensure ((:seen + :amount) <= 100) -> true
u1.5 did update account set balance = (balance - :amount) where key = :a -> count 1
u1.5 did select balance into :seen from account where key = :a -> stored 70
u1.5 committed 7
b1.2 accepted
u1.6 began b1.1 part 2
u1.6 did update account set balance = (balance + :amount) where key = :b -> count 1
u1.6 did select balance into :seen from account where key = :b -> stored 80
u1.6 did ensure (:seen <= 100) -> true
u1.6 committed 8
b1.1 finished
released b1.1
u1.7 began b1.2 part 2
u1.7 did update account set balance = (balance + :amount) where key = :b -> count 1
u1.7 did select balance into :seen from account where key = :b -> stored 110
u1.7 did ensure (:seen <= 100) -> failed ensure
u1.7 branched 9 ensure
u1.8 began b1.2 part 3
u1.8 did update account set balance = (balance + :amount) where key = :a -> count 1
u1.8 committed 10
b1.2 finished
released b1.2
u1.9 began @1
u1.9 did select * from account -> rows (1, 70) (2, 80) (3, 100)
u1.9 committed 11
