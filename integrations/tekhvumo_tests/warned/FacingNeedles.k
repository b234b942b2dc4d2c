;!knitout-2
;;Machine: SWG091N2
;;Carriers: 1 2 3 4 5 6
; A full-gauge rib at rack 0.
inhook 2
tuck - f8 2
tuck - b7 2
tuck - f6 2
tuck - b5 2
tuck - f4 2
tuck - b3 2
tuck - f2 2
tuck - b1 2
tuck + f1 2
tuck + b2 2
tuck + f3 2
tuck + b4 2
tuck + f5 2
tuck + b6 2
tuck + f7 2
tuck + b8 2
knit - b8 2
knit - f8 2
knit - b7 2
knit - f7 2
knit - b6 2
knit - f6 2
knit - b5 2
knit - f5 2
knit - b4 2
knit - f4 2
knit - b3 2
knit - f3 2
knit - b2 2
knit - f2 2
knit - b1 2
knit - f1 2
knit + f1 2
knit + b1 2
knit + f2 2
knit + b2 2
knit + f3 2
knit + b3 2
knit + f4 2
knit + b4 2
knit + f5 2
knit + b5 2
knit + f6 2
knit + b6 2
knit + f7 2
knit + b7 2
knit + f8 2
knit + b8 2
releasehook 2
knit - b8 2
knit - f8 2
knit - b7 2
knit - f7 2
knit - b6 2
knit - f6 2
knit - b5 2
knit - f5 2
knit - b4 2
knit - f4 2
knit - b3 2
knit - f3 2
knit - b2 2
knit - f2 2
knit - b1 2
knit - f1 2
knit + f1 2
knit + b1 2
knit + f2 2
knit + b2 2
knit + f3 2
knit + b3 2
knit + f4 2
knit + b4 2
knit + f5 2
knit + b5 2
knit + f6 2
knit + b6 2
knit + f7 2
knit + b7 2
knit + f8 2
knit + b8 2
knit - b8 2
knit - f8 2
knit - b7 2
knit - f7 2
knit - b6 2
knit - f6 2
knit - b5 2
knit - f5 2
knit - b4 2
knit - f4 2
knit - b3 2
knit - f3 2
knit - b2 2
knit - f2 2
knit - b1 2
knit - f1 2
knit + f1 2
knit + b1 2
knit + f2 2
knit + b2 2
knit + f3 2
knit + b3 2
knit + f4 2
knit + b4 2
knit + f5 2
knit + b5 2
knit + f6 2
knit + b6 2
knit + f7 2
knit + b7 2
knit + f8 2
knit + b8 2
outhook 2
rack 0
drop f1
drop f2
drop f3
drop f4
drop f5
drop f6
drop f7
drop f8
drop b1
drop b2
drop b3
drop b4
drop b5
drop b6
drop b7
drop b8
