* A diet at least cost: servings of five foods that together give enough energy and
* protein and not too much salt. One food is given (a bowl of soup has been cooked),
* and a rule for one food alone stands as a row.
NAME          DIET
ROWS
 N cost
 G energy
 G protein
 L salt
 L most_fish
COLUMNS
 bread cost 0.35 energy 250
 bread protein 8 salt 0.45
 milk cost 0.60 energy 130
 milk protein 7 salt 0.1
 beans cost 0.80 energy 180
 beans protein 12 salt 0.02
 fish cost 2.40 energy 200
 fish protein 22 salt 0.3
 fish most_fish 2
 soup cost 0.90 energy 90
 soup protein 4 salt 0.9
RHS
 need energy 2000 protein 60
 need salt 5 most_fish 3
BOUNDS
 UP given bread 6
 UP given milk 4
 FX given soup 1
ENDATA
