opened 1 0
ready
defined 1 create table account (id int key, owner text, balance int, check (balance >= 0))
u1.1 began @1
u1.1 committed 2
u1.2 began @1
u1.2 did insert into account values (1, 'Bob', 5) -> failed duplicate
u1.2 failed duplicate
u1.3 began @1
u1.3 did insert into account values (2, 'Bob', -5) -> failed check
u1.3 failed check
