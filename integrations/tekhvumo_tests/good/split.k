;!knitout-2
;;Machine: SWG091N2
;;Carriers: 1 2 3 4 5 6
; Increases by split: the new loop stays in front, the old one goes to the back and then beside.
inhook 2
tuck - f6 2
tuck - f4 2
tuck - f2 2
tuck + f1 2
tuck + f3 2
tuck + f5 2
knit - f6 2
knit - f5 2
knit - f4 2
knit - f3 2
knit - f2 2
knit - f1 2
knit + f1 2
knit + f2 2
knit + f3 2
knit + f4 2
knit + f5 2
knit + f6 2
releasehook 2
knit - f6 2
knit - f5 2
knit - f4 2
knit - f3 2
knit - f2 2
knit - f1 2
knit + f1 2
knit + f2 2
knit + f3 2
knit + f4 2
knit + f5 2
split + f6 b6 2
rack 1
xfer b6 f7
rack 0
knit - f7 2
knit - f6 2
knit - f5 2
knit - f4 2
knit - f3 2
knit - f2 2
knit - f1 2
knit + f1 2
knit + f2 2
knit + f3 2
knit + f4 2
knit + f5 2
knit + f6 2
split + f7 b7 2
rack 1
xfer b7 f8
rack 0
knit - f8 2
knit - f7 2
knit - f6 2
knit - f5 2
knit - f4 2
knit - f3 2
knit - f2 2
knit - f1 2
knit + f1 2
knit + f2 2
knit + f3 2
knit + f4 2
knit + f5 2
knit + f6 2
knit + f7 2
split + f8 b8 2
rack 1
xfer b8 f9
rack 0
knit - f9 2
knit - f8 2
knit - f7 2
knit - f6 2
knit - f5 2
knit - f4 2
knit - f3 2
knit - f2 2
knit - f1 2
knit + f1 2
knit + f2 2
knit + f3 2
knit + f4 2
knit + f5 2
knit + f6 2
knit + f7 2
knit + f8 2
knit + f9 2
outhook 2
drop f1
drop f2
drop f3
drop f4
drop f5
drop f6
drop f7
drop f8
drop f9
