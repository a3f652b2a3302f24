opened 1 0
ready
defined 1 create table t (id int key, v int)
u1.1 began @1
u1.1 did insert into t values (1, 1) -> count 1
u1.1 committed 2
refused 9 state
refused 3 syntax
u1.2 began @1
u1.2 did select * from t -> rows (1, 1)
u1.2 committed 3
