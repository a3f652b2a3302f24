opened 1 0
ready
defined 1 create table account (id int key, balance int, check (balance >= 0))
u1.1 began @1
u1.1 did insert into account values (1, 100) -> count 1
u1.1 committed 2
u1.2 began @1
u1.2 did insert into account values (2, 50) -> count 1
u1.2 committed 3
defined 4 program transfer(a int, b int, amount int) var seen int acid { update account set balance = (balance - :amount) where key = :a; select balance into :seen from account where key = :a; update account set balance = (balance + :amount) where key = :b; select balance into :seen from account where key = :b } end
u1.3 began @1 call transfer(1, 2, 30)
u1.3 did update account set balance = (balance - :amount) where key = :a -> count 1
u1.3 did select balance into :seen from account where key = :a -> stored 70
u1.3 did update account set balance = (balance + :amount) where key = :b -> count 1
u1.3 did select balance into :seen from account where key = :b -> stored 80
u1.3 committed 5
u1.4 began @2 call transfer(1, 2, 500)
u1.4 did update account set balance = (balance - :amount) where key = :a -> failed check
u1.4 failed check
u1.5 began @2 call transfer(1, 9, 30)
u1.5 did update account set balance = (balance - :amount) where key = :a -> count 1
u1.5 did select balance into :seen from account where key = :a -> stored 40
u1.5 did update account set balance = (balance + :amount) where key = :b -> count 0
u1.5 did select balance into :seen from account where key = :b -> failed missing
u1.5 failed missing
u1.6 began @3
u1.6 did select * from account -> rows (1, 70) (2, 80)
u1.6 committed 6
