opened 1 0
ready
defined 1 create table t (id int key, v int)
defined 2 program two(a int) base part { update t set v = (v + 1) where key = :a } part { insert into t values (:a, 1) } then end on failure retry 1 then go 3 part { delete from t where key = :a } on failure end end
u1.1 began @1
u1.1 did insert into t values (1, 1) -> count 1
u1.1 committed 3
u1.2 began @1
u1.2 did insert into t values (1, 2) -> failed duplicate
u1.2 failed duplicate
u1.3 began @3 b1.1 part 1 of two(1)
u1.3 did update t set v = (v + 1) where key = :a -> count 1
u1.3 committed 4
b1.1 accepted
u1.4 began @1
u1.4 did insert into t values (2, 2) -> count 1
u1.5 began @2
u1.5 waits u1.4
u1.5 rolled back
refused 9 state
refused 3 syntax
refused 3 syntax
u1.6 began @2
armed 1 0
down stopped
opened 2 4
u1.4 cut
u1.6 cut
u2.1 began b1.1 part 2
u2.1 did insert into t values (:a, 1) -> failed duplicate
u2.1 branched 5 duplicate
u2.2 began b1.1 part 2
u2.2 did insert into t values (:a, 1) -> failed duplicate
u2.2 branched 6 duplicate
u2.3 began b1.1 part 3
u2.3 did delete from t where key = :a -> count 1
u2.3 committed 7
b1.1 finished
ready
u2.4 began @2
u2.4 did select * from t where key = 7 -> rows
armed 1 0
u2.5 began @4
u2.5 did insert into t values (2, 2) -> count 1
down stopped
opened 3 7
u2.4 cut
u2.5 cut
ready
u3.1 began @7 b3.1 part 1 of two(1)
u3.1 did update t set v = (v + 1) where key = :a -> count 0
u3.1 committed 8
b3.1 accepted
u3.2 began b3.1 part 2
u3.2 did insert into t values (:a, 1) -> count 1
u3.2 committed 9
b3.1 finished
released b3.1
shown 0
u3.3 began @3
u3.3 did update t set v = 1 where key = 1 -> count 1
u3.4 began @5
u3.4 waits u3.3
