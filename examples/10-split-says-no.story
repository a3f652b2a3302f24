opened 1 0
ready
defined 1 create table account (id int key, balance int, check (balance >= 0))
defined 2 program transfer(a int, b int, amount int) var seen int base part { ensure (:amount > 0); update account set balance = (balance - :amount) where key = :a; select balance into :seen from account where key = :a } part { update account set balance = (balance + :amount) where key = :b; select balance into :seen from account where key = :b } then end on failure go 3 part { update account set balance = (balance + :amount) where key = :a } on failure end end
u1.1 began @1
u1.1 did insert into account values (1, 100) -> count 1
u1.1 committed 3
u1.2 began @1
u1.2 did insert into account values (2, 50) -> count 1
u1.2 committed 4
u1.3 began @1 b1.1 part 1 of transfer(1, 2, -30)
u1.3 did ensure (:amount > 0) -> failed ensure
u1.3 failed ensure
u1.4 began @1 b1.2 part 1 of transfer(1, 2, 500)
u1.4 did ensure (:amount > 0) -> true
u1.4 did update account set balance = (balance - :amount) where key = :a -> failed check
u1.4 failed check
u1.5 began @1 b1.3 part 1 of transfer(8, 2, 30)
u1.5 did ensure (:amount > 0) -> true
u1.5 did update account set balance = (balance - :amount) where key = :a -> count 0
u1.5 did select balance into :seen from account where key = :a -> failed missing
u1.5 failed missing
u1.6 began @1 b1.4 part 1 of transfer(1, 9, 30)
u1.6 did ensure (:amount > 0) -> true
u1.6 did update account set balance = (balance - :amount) where key = :a -> count 1
u1.6 did select balance into :seen from account where key = :a -> stored 70
u1.6 committed 5
b1.4 accepted
u1.7 began b1.4 part 2
u1.7 did update account set balance = (balance + :amount) where key = :b -> count 0
u1.7 did select balance into :seen from account where key = :b -> failed missing
u1.7 branched 6 missing
u1.8 began b1.4 part 3
u1.8 did update account set balance = (balance + :amount) where key = :a -> count 1
u1.8 committed 7
b1.4 finished
released b1.4
u1.9 began @1
u1.9 did select * from account -> rows (1, 100) (2, 50)
u1.9 committed 8
