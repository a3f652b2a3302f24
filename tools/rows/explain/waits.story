opened 1 0
ready
defined 1 create table account (id int key, owner text, balance int)
defined 2 create table city (name text key, people int)
u1.1 began @1
u1.1 did insert into account values (1, 'Ada', 100) -> count 1
u1.1 committed 3
u1.2 began @1
u1.2 did insert into account values (2, 'Bob', 50) -> count 1
u1.2 committed 4
u1.3 began @1
u1.3 did insert into account values (3, 'Cyd', 0) -> count 1
u1.3 committed 5
u1.4 began @1
u1.4 did insert into city values ('Bonn', 300) -> count 1
u1.4 committed 6
u1.5 began @1
u1.5 did update account set balance = (balance + 1) where key between 1 and (1 + 1) -> count 2
u1.6 began @2
u1.6 did update city set people = (people + 1) where key = ('Bo' || 'nn') -> count 1
u1.7 began @3
u1.7 waits u1.5
u1.8 began @4
u1.8 waits u1.5
u1.6 waits u1.5
u1.5 waits u1.6
u1.6 victim
u1.5 did select people from city where key between 'A' and 'C' -> rows (300)
u1.5 committed 7
u1.7 did select * from account where key between 2 and 3 and (balance > 10) -> rows (2, 'Bob', 51)
u1.7 committed 8
u1.8 did select sum(balance) from account -> value 152
u1.8 committed 9
u1.9 began @5
u1.9 did delete from account where key = 3 -> count 1
u1.10 began @6
u1.10 waits u1.9
u1.11 began @7
u1.11 waits u1.9
u1.10 rolled back
u1.9 rolled back
u1.11 did update account set balance = 2 where key = 3 -> count 1
u1.11 committed 10
u1.12 began @8
u1.12 did insert into account values (4, 'Dot', 4) -> count 1
u1.13 began @9
u1.13 waits u1.12
