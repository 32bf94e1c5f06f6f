CREATE TABLE T(A INT, B INTEGER NOT NULL);
CREATE TABLE t(C INT);            -- a name that is taken, folded to upper case
CREATE TABLE U(A INT, a INT);     -- a column twice
INSERT INTO T VALUES (1);         -- too few values
INSERT INTO T VALUES (1, 2, 3);   -- too many values
INSERT INTO T VALUES (1, 2147483648);
INSERT INTO T VALUES (-2147483649, 1);
INSERT INTO T VALUES (1, NULL), (2);   -- the number of values stands before NULL
INSERT INTO U VALUES (9999999999);     -- a missing table stands before the range
INSERT INTO T VALUES (-2147483648, 2147483647), (+0, -0);
SELECT * FROM T;
