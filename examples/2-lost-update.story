opened 1 0
ready
defined 1 create table account (id int key, balance int)
u1.1 began @1
u1.1 did insert into account values (1, 100) -> count 1
u1.1 committed 2
u1.2 began @1
u1.2 did select balance from account where key = 1 -> rows (100)
u1.3 began @2
u1.3 waits u1.2
u1.2 did update account set balance = (balance + 10) where key = 1 -> count 1
u1.2 committed 3
u1.3 did update account set balance = (balance + 20) where key = 1 -> count 1
u1.3 committed 4
u1.4 began @3
u1.4 did select balance from account where key = 1 -> rows (130)
u1.4 committed 5
