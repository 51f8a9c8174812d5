"""A crossing of four pads: three columns are factored, the fourth pad is added, the loads solved for and ranked, the file written, a refusal explained."""
import wejdarox

# how each of three pads moves the four readings, a row a reading; the fourth pad; the readings
three_pads = [[4, 1, 0], [1, 3, 1], [0, 1, 2], [1, 0, 1]]
fourth_pad = [0, 1, 1, 5]
readings = [6, -3, 5, 2]

crossing = wejdarox.factor(three_pads)
crossing.add_column(fourth_pad)
loads = crossing.solve(readings)
for pad in wejdarox.rank(loads):
    print("pad %d: load %g" % (pad, loads[pad - 1]))

matrix = [row + [last] for row, last in zip(three_pads, fourth_pad)]
file = wejdarox.write_panel(matrix, readings)
print("%d bytes; first to lift: pad %d" % (len(file), wejdarox.pad_order(file).pads[0].number))

# with the third pad's column for the fourth the matrix is singular
singular = wejdarox.write_panel([row + [row[2]] for row in three_pads], readings)
try:
    wejdarox.pad_order(singular)
except wejdarox.Refused as refusal:
    print(refusal)
    print(wejdarox.why(singular), end="")
