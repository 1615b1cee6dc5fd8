* The least x + 2y with x = 3 and x + y at least 5.
NAME          SMALL
ROWS
 N COST
 E C1
 G C2
COLUMNS
 x COST 1 C1 1
 x C2 1
 y COST 2 C2 1
RHS
 RHS C1 3 C2 5
ENDATA
