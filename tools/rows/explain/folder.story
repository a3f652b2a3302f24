opened 2 6
u2.1 began b1.1 part 2
u2.1 did update account set balance = (balance + :amount) where key = :b -> count 1
u2.1 did select balance into :seen from account where key = :b -> stored 80
u2.1 committed 7
b1.1 finished
ready
u2.2 began @1 call pay(1, 2, 30)
u2.2 did update account set balance = (balance - :n) where key = :a -> count 1
u2.3 began @2
u2.3 waits u2.2
u2.2 did update account set balance = (balance + :n) where key = :b -> count 1
u2.2 committed 8
u2.3 did select balance from account where key = 1 -> rows (40)
u2.3 committed 9
u2.4 began @1 b2.1 part 1 of transfer(1, 2, 30)
u2.4 did update account set balance = (balance - :amount) where key = :a -> count 1
u2.4 did select balance into :seen from account where key = :a -> stored 10
u2.4 committed 10
b2.1 accepted
u2.5 began @2
u2.5 did select balance from account where key = 2 -> rows (110)
u2.5 committed 11
u2.6 began b2.1 part 2
u2.6 did update account set balance = (balance + :amount) where key = :b -> count 1
u2.6 did select balance into :seen from account where key = :b -> stored 140
u2.6 committed 12
b2.1 finished
released b2.1
