;!knitout-2
;;Machine: SWG091N2
;;Carriers: 1 2 3 4 5 6
; A swatch that is bound off to the left and taken off by its last loop.
inhook 5
tuck - f8 5
tuck - f6 5
tuck - f4 5
tuck - f2 5
tuck + f1 5
tuck + f3 5
tuck + f5 5
tuck + f7 5
knit - f8 5
knit - f7 5
knit - f6 5
knit - f5 5
knit - f4 5
knit - f3 5
knit - f2 5
knit - f1 5
knit + f1 5
knit + f2 5
knit + f3 5
knit + f4 5
knit + f5 5
knit + f6 5
knit + f7 5
knit + f8 5
releasehook 5
knit - f8 5
knit - f7 5
knit - f6 5
knit - f5 5
knit - f4 5
knit - f3 5
knit - f2 5
knit - f1 5
knit + f1 5
knit + f2 5
knit + f3 5
knit + f4 5
knit + f5 5
knit + f6 5
knit + f7 5
knit + f8 5
knit - f8 5
knit - f7 5
knit - f6 5
knit - f5 5
knit - f4 5
knit - f3 5
knit - f2 5
knit - f1 5
knit + f1 5
knit + f2 5
knit + f3 5
knit + f4 5
knit + f5 5
knit + f6 5
knit + f7 5
knit + f8 5
; bind off, from the right
knit - f8 5
xfer f8 b8
rack -1
xfer b8 f7
rack 0
knit - f7 5
xfer f7 b7
rack -1
xfer b7 f6
rack 0
knit - f6 5
xfer f6 b6
rack -1
xfer b6 f5
rack 0
knit - f5 5
xfer f5 b5
rack -1
xfer b5 f4
rack 0
knit - f4 5
xfer f4 b4
rack -1
xfer b4 f3
rack 0
knit - f3 5
xfer f3 b3
rack -1
xfer b3 f2
rack 0
knit - f2 5
xfer f2 b2
rack -1
xfer b2 f1
rack 0
knit - f1 5
outhook 5
drop f1
