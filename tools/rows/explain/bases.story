opened 1 0
ready
defined 1 create table account (id int key, balance int, check (balance >= 0))
defined 2 program transfer(a int, b int, amount int) var seen int base part { update account set balance = (balance - :amount) where key = :a; select balance into :seen from account where key = :a } part { update account set balance = (balance + :amount) where key = :b; select balance into :seen from account where key = :b } then end on failure retry 1 then go 3 part { update account set balance = (balance + :amount) where key = :a } on failure end end
u1.1 began @1
u1.1 did insert into account values (1, 100) -> count 1
u1.1 committed 3
u1.2 began @1
u1.2 did insert into account values (2, 50) -> count 1
u1.2 committed 4
u1.3 began @1 b1.1 part 1 of transfer(1, 2, 30)
u1.3 did update account set balance = (balance - :amount) where key = :a -> count 1
u1.4 began @2 b1.2 part 1 of transfer(1, 9, 20)
u1.4 waits u1.3
u1.5 began @3
u1.5 waits u1.3
u1.3 did select balance into :seen from account where key = :a -> stored 70
u1.3 committed 5
b1.1 accepted
u1.4 did update account set balance = (balance - :amount) where key = :a -> count 1
u1.4 did select balance into :seen from account where key = :a -> stored 50
u1.4 committed 6
b1.2 accepted
u1.6 began @4
u1.6 did select balance from account where key = 2 -> rows (50)
u1.7 began b1.1 part 2
u1.7 waits u1.6
u1.8 began b1.2 part 2
u1.8 did update account set balance = (balance + :amount) where key = :b -> count 0
u1.6 committed 7
u1.7 did update account set balance = (balance + :amount) where key = :b -> count 1
u1.7 did select balance into :seen from account where key = :b -> stored 80
u1.7 committed 8
b1.1 finished
released b1.1
u1.8 did select balance into :seen from account where key = :b -> failed missing
u1.8 branched 9 missing
u1.9 began b1.2 part 2
u1.9 did update account set balance = (balance + :amount) where key = :b -> count 0
u1.9 did select balance into :seen from account where key = :b -> failed missing
u1.9 branched 10 missing
u1.10 began b1.2 part 3
u1.10 did update account set balance = (balance + :amount) where key = :a -> count 1
u1.10 committed 11
b1.2 finished
released b1.2
u1.5 did select balance from account where key = 1 -> rows (70)
u1.5 committed 12
u1.11 began @1 b1.3 part 1 of transfer(2, 1, 10)
u1.11 did update account set balance = (balance - :amount) where key = :a -> count 1
u1.11 did select balance into :seen from account where key = :a -> stored 70
u1.11 committed 13
b1.3 accepted
base b1.3 transfer next 2
shown 1
u1.12 began @5
u1.12 waits b1.3
u1.13 began @6
u1.13 did select count(*) from account where key = 1 -> value 1
