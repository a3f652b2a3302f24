opened 1 0
ready
defined 1 create table t (id int key, v int, w text)
defined 2 program p(a int) acid { update t set v = (v + 1) where key = :a; update t set v = (v + 1) where key = (:a + 1) } end
refused 3 syntax
refused 3 syntax
refused 3 syntax
refused 3 syntax
refused 3 syntax
refused 5 unknown a
refused 3 syntax
refused 3 syntax
refused 3 syntax
refused 3 syntax
refused 3 syntax
refused 3 syntax
u1.1 began @1 call p(1)
u1.1 did update t set v = (v + 1) where key = :a -> count 0
refused 9 state
refused 10 busy
u1.1 did update t set v = (v + 1) where key = (:a + 1) -> count 0
u1.1 committed 3
defined 4 create table u (id int key)
u1.2 began @1
u1.2 did select * from t where key between 2 and 99 -> rows
u1.2 committed 5
u1.3 began @1
u1.3 did select * from t where (id > 1) -> rows
u1.3 committed 6
