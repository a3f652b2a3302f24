opened 1 0
ready
defined 1 create table account (id int key, balance int, held int, check (balance >= 0), check (held >= 0), check ((balance + held) <= 100))
defined 2 program transfer(a int, b int, amount int) var seen int base part { ensure (:amount > 0); update account set balance = (balance - :amount), held = (held + :amount) where key = :a; select balance into :seen from account where key = :a } part { update account set balance = (balance + :amount) where key = :b; select balance into :seen from account where key = :b } then go 4 on failure go 3 part { update account set balance = (balance + :amount), held = (held - :amount) where key = :a } then end on failure end part { update account set held = (held - :amount) where key = :a } on failure end end
u1.1 began @1
u1.1 did insert into account values (1, 100, 0) -> count 1
u1.1 committed 3
u1.2 began @1
u1.2 did insert into account values (2, 90, 0) -> count 1
u1.2 committed 4
u1.3 began @1
u1.3 did insert into account values (3, 50, 0) -> count 1
u1.3 committed 5
u1.4 began @1 b1.1 part 1 of transfer(1, 2, 30)
u1.4 did ensure (:amount > 0) -> true
u1.4 did update account set balance = (balance - :amount), held = (held + :amount) where key = :a -> count 1
u1.4 did select balance into :seen from account where key = :a -> stored 70
u1.4 committed 6
b1.1 accepted
u1.5 began @2 b1.2 part 1 of transfer(3, 1, 30)
u1.5 did ensure (:amount > 0) -> true
u1.5 did update account set balance = (balance - :amount), held = (held + :amount) where key = :a -> count 1
u1.5 did select balance into :seen from account where key = :a -> stored 20
u1.5 committed 7
b1.2 accepted
u1.6 began b1.2 part 2
u1.6 did update account set balance = (balance + :amount) where key = :b -> failed check
u1.6 branched 8 check
u1.7 began b1.2 part 3
u1.7 did update account set balance = (balance + :amount), held = (held - :amount) where key = :a -> count 1
u1.7 committed 9
b1.2 finished
u1.8 began b1.1 part 2
u1.8 did update account set balance = (balance + :amount) where key = :b -> failed check
u1.8 branched 10 check
u1.9 began b1.1 part 3
u1.9 did update account set balance = (balance + :amount), held = (held - :amount) where key = :a -> count 1
u1.9 committed 11
b1.1 finished
released b1.1 b1.2
u1.10 began @1
u1.10 did select * from account -> rows (1, 100, 0) (2, 90, 0) (3, 50, 0)
u1.10 committed 12
u1.11 began @1 b1.3 part 1 of transfer(1, 3, 30)
u1.11 did ensure (:amount > 0) -> true
u1.11 did update account set balance = (balance - :amount), held = (held + :amount) where key = :a -> count 1
u1.11 did select balance into :seen from account where key = :a -> stored 70
u1.11 committed 13
b1.3 accepted
u1.12 began b1.3 part 2
u1.12 did update account set balance = (balance + :amount) where key = :b -> count 1
u1.12 did select balance into :seen from account where key = :b -> stored 80
u1.12 committed 14
u1.13 began b1.3 part 4
u1.13 did update account set held = (held - :amount) where key = :a -> count 1
u1.13 committed 15
b1.3 finished
released b1.3
u1.14 began @1
u1.14 did select * from account -> rows (1, 70, 0) (2, 90, 0) (3, 80, 0)
u1.14 committed 16
