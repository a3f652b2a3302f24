opened 1 0
ready
defined 1 create table account (id int key, balance int)
u1.1 began @1
u1.1 did insert into account values (1, 100) -> count 1
u1.1 committed 2
u1.2 began @1
u1.2 did insert into account values (2, 50) -> count 1
u1.2 committed 3
armed 2 0 1 1
u1.3 began @1
u1.3 did update account set balance = (balance - 30) where key = 1 -> count 1
u1.3 did update account set balance = (balance + 30) where key = 2 -> count 1
u1.3 committed 4
armed 1 2
u1.4 began @2
u1.4 did insert into account values (3, 0) -> count 1
u1.4 committed 5
u1.5 began @2
u1.5 did select sum(balance) from account -> value 150
u1.5 committed 6
armed 1 0 9 0
armed 3 0
u1.6 began @1
u1.6 did update account set balance = (balance + 1) where key = 1 -> count 1
down stopped
opened 2 6
u1.6 cut
ready
u2.1 began @1
u2.1 did select * from account where key = 1 -> rows (1, 70)
u2.1 committed 7
