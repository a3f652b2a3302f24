opened 1 0
ready
defined 1 create table t (id int key, v text)
u1.1 began @1
u1.1 did insert into t values (1, 'a''b; -> c') -> count 1
u1.1 committed 2
u1.2 began @1
u1.2 did select * from t -> rows (1, 'a''b; -> c')
u1.2 committed 3
refused 3 syntax
refused 3 syntax
u1.3 began @1
u1.3 did delete from t -> count 1
u1.3 committed 4
