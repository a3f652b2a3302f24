opened 1 0
ready
defined 1 create table page (id int key, url text, visits int)
defined 2 create table site (id int key, visits int)
defined 3 create table day (id int key, visits int)
defined 4 program visit(p int, d int) var seen int base part { update page set visits = (visits + 1) where key = :p; select visits into :seen from page where key = :p } part { update site set visits = (visits + 1) where key = 1; select visits into :seen from site where key = 1 } on failure go 5 part { update day set visits = (visits + 1) where key = :d; select visits into :seen from day where key = :d } then end on failure go 4 part { update site set visits = (visits - 1) where key = 1 } on failure go 5 part { update page set visits = (visits - 1) where key = :p } on failure end end
u1.1 began @1
u1.1 did insert into page values (1, '/', 0) -> count 1
u1.1 committed 5
u1.2 began @1
u1.2 did insert into site values (1, 0) -> count 1
u1.2 committed 6
u1.3 began @1
u1.3 did insert into day values (7, 0) -> count 1
u1.3 committed 7
u1.4 began @1 b1.1 part 1 of visit(1, 7)
u1.4 did update page set visits = (visits + 1) where key = :p -> count 1
u1.5 began @2 b1.2 part 1 of visit(1, 7)
u1.5 waits u1.4
u1.6 began @3 b1.3 part 1 of visit(1, 7)
u1.6 waits u1.4
u1.7 began @4 b1.4 part 1 of visit(1, 8)
u1.7 waits u1.4
u1.4 did select visits into :seen from page where key = :p -> stored 1
u1.4 committed 8
b1.1 accepted
u1.5 did update page set visits = (visits + 1) where key = :p -> count 1
u1.5 did select visits into :seen from page where key = :p -> stored 2
u1.5 committed 9
b1.2 accepted
u1.6 did update page set visits = (visits + 1) where key = :p -> count 1
u1.6 did select visits into :seen from page where key = :p -> stored 3
u1.6 committed 10
b1.3 accepted
u1.7 did update page set visits = (visits + 1) where key = :p -> count 1
u1.7 did select visits into :seen from page where key = :p -> stored 4
u1.7 committed 11
b1.4 accepted
u1.8 began @5
u1.8 waits b1.1 b1.2 b1.3 b1.4
u1.9 began b1.1 part 2
u1.9 did update site set visits = (visits + 1) where key = 1 -> count 1
u1.10 began b1.2 part 2
u1.10 waits u1.9
u1.11 began b1.3 part 2
u1.11 waits u1.9
u1.12 began b1.4 part 2
u1.12 waits u1.9
u1.9 did select visits into :seen from site where key = 1 -> stored 1
u1.9 committed 12
u1.10 did update site set visits = (visits + 1) where key = 1 -> count 1
u1.10 did select visits into :seen from site where key = 1 -> stored 2
u1.10 committed 13
u1.11 did update site set visits = (visits + 1) where key = 1 -> count 1
u1.11 did select visits into :seen from site where key = 1 -> stored 3
u1.11 committed 14
u1.12 did update site set visits = (visits + 1) where key = 1 -> count 1
u1.12 did select visits into :seen from site where key = 1 -> stored 4
u1.12 committed 15
u1.13 began b1.1 part 3
u1.13 did update day set visits = (visits + 1) where key = :d -> count 1
u1.14 began b1.2 part 3
u1.14 waits u1.13
u1.15 began b1.3 part 3
u1.15 waits u1.13
u1.16 began b1.4 part 3
u1.16 did update day set visits = (visits + 1) where key = :d -> count 0
u1.13 did select visits into :seen from day where key = :d -> stored 1
u1.13 committed 16
b1.1 finished
released b1.1
u1.14 did update day set visits = (visits + 1) where key = :d -> count 1
u1.14 did select visits into :seen from day where key = :d -> stored 2
u1.14 committed 17
b1.2 finished
released b1.2
u1.15 did update day set visits = (visits + 1) where key = :d -> count 1
u1.15 did select visits into :seen from day where key = :d -> stored 3
u1.15 committed 18
b1.3 finished
released b1.3
u1.16 did select visits into :seen from day where key = :d -> failed missing
u1.16 branched 19 missing
u1.17 began b1.4 part 4
u1.17 did update site set visits = (visits - 1) where key = 1 -> count 1
u1.17 committed 20
u1.18 began b1.4 part 5
u1.18 did update page set visits = (visits - 1) where key = :p -> count 1
u1.18 committed 21
b1.4 finished
released b1.4
u1.8 did select sum(visits) from page -> value 3
u1.8 did select visits from site -> rows (3)
u1.8 committed 22
