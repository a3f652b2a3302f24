opened 1 0
ready
defined 1 create table account (id int key, balance int, check (balance >= 0))
defined 2 create table visit (day int key, people int)
defined 3 program transfer(a int, b int, amount int) base part { update account set balance = (balance - :amount) where key = :a } part { update account set balance = (balance + :amount) where key = :b } then end on failure go 3 part { update account set balance = (balance + :amount) where key = :a } on failure end end
u1.1 began @1
u1.1 did insert into account values (1, 100) -> count 1
u1.1 committed 4
u1.2 began @1
u1.2 did insert into account values (2, 50) -> count 1
u1.2 committed 5
u1.3 began @1 b1.1 part 1 of transfer(1, 2, 30)
u1.3 did update account set balance = (balance - :amount) where key = :a -> count 1
u1.3 committed 6
b1.1 accepted
u1.4 began @1 b1.2 part 1 of transfer(1, 2, 20)
u1.4 did update account set balance = (balance - :amount) where key = :a -> count 1
u1.4 committed 7
b1.2 accepted
armed 1 0
u1.5 began @2
u1.5 did insert into visit values (1, 7) -> count 1
down stopped
opened 2 7
u1.5 cut
early b1.1 b1.2
u2.1 began @3
u2.1 waits b1.1
u2.2 began b1.1 part 2
u2.2 did update account set balance = (balance + :amount) where key = :b -> count 1
u2.2 committed 8
b1.1 finished
u2.3 began @2
u2.3 did insert into visit values (1, 9) -> count 1
u2.3 committed 9
u2.4 began b1.2 part 2
u2.4 did update account set balance = (balance + :amount) where key = :b -> count 1
u2.4 committed 10
b1.2 finished
released b1.1 b1.2
u2.1 did select sum(balance) from account -> value 150
u2.1 committed 11
u2.5 began @1 b2.1 part 1 of transfer(2, 1, 5)
u2.5 did update account set balance = (balance - :amount) where key = :a -> count 1
u2.5 committed 12
b2.1 accepted
lock b2.1 saline write account 2..2
shown 1
