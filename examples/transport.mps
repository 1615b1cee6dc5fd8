* Two mills send paper to three towns. What a mill can make and what a town wants are rows;
* the north mill serves the port alone by contract, 20 tons.
NAME          TRANSPORT
ROWS
 N cost
 L north
 L south
 G city
 G port
 G hill
 E contract
COLUMNS
 north_city cost 4.5 north 1
 north_city city 1
 north_port cost 3 north 1
 north_port port 1 contract 1
 north_hill cost 7.25 north 1
 north_hill hill 1
 south_city cost 5 south 1
 south_city city 1
 south_port cost 6.5 south 1
 south_port port 1
 south_hill cost 2.75 south 1
 south_hill hill 1
RHS
 tons north 80 south 95
 tons city 60 port 45
 tons hill 50 contract 20
ENDATA
