* A workshop makes chairs and tables (whole numbers) and sells spare wood by the metre. The greatest profit.
* The saw's hours lie in a range, an old order fixes the desks, and the paint row has lost its last product.
NAME          PRODUCTION
OBJSENSE
 MAX
ROWS
 N profit
 L wood
 L saw
 L chairs_only
 G paint
COLUMNS
 MARKER 'MARKER' 'INTORG'
 chairs profit 45 wood 5.5
 chairs saw 1.5 chairs_only 1
 tables profit 80 wood 20
 tables saw 3
 desks profit 120 wood 30
 desks saw 4.25
 MARKER 'MARKER' 'INTEND'
 spare profit 1.2 wood 1
RHS
 limit wood 400 saw 60
 limit chairs_only 25 paint -1
RANGES
 limit saw 40
BOUNDS
 UP plan tables 12
 FX plan desks 2
 UP plan spare 150.5
ENDATA
