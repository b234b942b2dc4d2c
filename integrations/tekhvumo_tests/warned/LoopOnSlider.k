;!knitout-2
;;Machine: SWG091N2
;;Carriers: 1 2 3 4 5 6
; A loop stays on a slider.
inhook 6
tuck - f8 6
tuck - f6 6
tuck - f4 6
tuck - f2 6
tuck + f1 6
tuck + f3 6
tuck + f5 6
tuck + f7 6
knit - f8 6
knit - f7 6
knit - f6 6
knit - f5 6
knit - f4 6
knit - f3 6
knit - f2 6
knit - f1 6
knit + f1 6
knit + f2 6
knit + f3 6
knit + f4 6
knit + f5 6
knit + f6 6
knit + f7 6
knit + f8 6
releasehook 6
xfer f3 bs3
xfer f4 bs4
rack 1
xfer bs3 f4
rack -1
xfer bs4 f3
rack 0
knit - f8 6
knit - f7 6
knit - f6 6
knit - f5 6
knit - f4 6
knit - f3 6
knit - f2 6
knit - f1 6
knit + f1 6
knit + f2 6
knit + f3 6
knit + f4 6
knit + f5 6
knit + f6 6
knit + f7 6
knit + f8 6
xfer f3 bs3
xfer f4 bs4
rack 1
xfer bs3 f4
rack -1
rack 0
knit - f8 6
knit - f7 6
knit - f6 6
knit - f5 6
knit - f4 6
knit - f3 6
knit - f2 6
knit - f1 6
knit + f1 6
knit + f2 6
knit + f3 6
knit + f4 6
knit + f5 6
knit + f6 6
knit + f7 6
knit + f8 6
outhook 6
drop f1
drop f2
drop f3
drop f4
drop f5
drop f6
drop f7
drop f8
