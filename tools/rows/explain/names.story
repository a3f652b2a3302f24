opened 1 0
ready
refused 5 unknown pay
defined 1 create table account (id int key, owner text null, balance int)
refused 6 exists account
refused 6 exists v
refused 5 unknown balance
refused 5 unknown balanse
refused 5 unknown Ada
refused 5 unknown balance
refused 7 type
refused 7 type
refused 7 type
u1.1 began @1
u1.1 did insert into account values (1, null, 100) -> count 1
u1.1 committed 2
refused 7 type
refused 5 unknown id
refused 5 unknown n
refused 6 exists balance
refused 5 unknown n
refused 6 exists a
refused 5 unknown seen
refused 8 branch 1
refused 8 branch 2
refused 8 branch 2
defined 3 program pay(a int, n int) acid { update account set balance = (balance - :n) where key = :a } end
refused 6 exists pay
refused 5 unknown pey
refused 7 type
refused 7 type
refused 5 unknown b1.1
refused 4 limit session
refused 4 limit number
refused 2 byte
refused 4 limit crash
refused 9 state
refused 3 syntax
refused 5 unknown people
refused 5 unknown city
refused 5 unknown visit
refused 3 syntax
