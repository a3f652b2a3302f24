opened 1 0
ready
defined 1 create table account (id int key, balance int, check (balance >= 0))
defined 2 program transfer(a int, b int, amount int) var seen int base part { ensure (:amount > 0); update account set balance = (balance - :amount) where key = :a; select balance into :seen from account where key = :a } part { update account set balance = (balance + :amount) where key = :b; select balance into :seen from account where key = :b } then end on failure go 3 part { update account set balance = (balance + :amount) where key = :a } on failure end end
u1.1 began @1
u1.1 did insert into account values (1, 100) -> count 1
u1.1 committed 3
u1.2 began @1
u1.2 did insert into account values (2, 0) -> count 1
u1.2 committed 4
u1.3 began @1 b1.1 part 1 of transfer(1, 2, 100)
u1.3 did ensure (:amount > 0) -> true
u1.3 did update account set balance = (balance - :amount) where key = :a -> count 1
u1.3 did select balance into :seen from account where key = :a -> stored 0
u1.3 committed 5
b1.1 accepted
lock b1.1 saline write account 1..1
lock b1.1 saline read account 1..1
shown 2
u1.4 began @2
u1.4 did delete from account where key = 2 and (balance = 0) -> count 1
u1.4 committed 6
u1.5 began @3
u1.5 waits b1.1
u1.6 began b1.1 part 2
u1.6 did update account set balance = (balance + :amount) where key = :b -> count 0
u1.6 did select balance into :seen from account where key = :b -> failed missing
u1.6 branched 7 missing
u1.7 began b1.1 part 3
u1.7 did update account set balance = (balance + :amount) where key = :a -> count 1
u1.7 committed 8
b1.1 finished
released b1.1
u1.5 did delete from account where key = 1 and (balance = 0) -> count 0
u1.5 committed 9
u1.8 began @1
u1.8 did select * from account -> rows (1, 100)
u1.8 committed 10
