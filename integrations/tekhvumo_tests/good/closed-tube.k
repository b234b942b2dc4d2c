;!knitout-2
;;Machine: SWG091N2
;;Carriers: 1 2 3 4 5 6
; A bag: both beds are cast on in one row at rack 0.25, so the bottom is closed.
rack 0.25
inhook 4
tuck - f8 4
tuck - b7 4
tuck - f6 4
tuck - b5 4
tuck - f4 4
tuck - b3 4
tuck - f2 4
tuck - b1 4
tuck + f1 4
tuck + b2 4
tuck + f3 4
tuck + b4 4
tuck + f5 4
tuck + b6 4
tuck + f7 4
tuck + b8 4
rack 0
knit - f8 4
knit - f7 4
knit - f6 4
knit - f5 4
knit - f4 4
knit - f3 4
knit - f2 4
knit - f1 4
knit + b1 4
knit + b2 4
knit + b3 4
knit + b4 4
knit + b5 4
knit + b6 4
knit + b7 4
knit + b8 4
knit - f8 4
knit - f7 4
knit - f6 4
knit - f5 4
knit - f4 4
knit - f3 4
knit - f2 4
knit - f1 4
knit + b1 4
knit + b2 4
knit + b3 4
knit + b4 4
knit + b5 4
knit + b6 4
knit + b7 4
knit + b8 4
releasehook 4
knit - f8 4
knit - f7 4
knit - f6 4
knit - f5 4
knit - f4 4
knit - f3 4
knit - f2 4
knit - f1 4
knit + b1 4
knit + b2 4
knit + b3 4
knit + b4 4
knit + b5 4
knit + b6 4
knit + b7 4
knit + b8 4
knit - f8 4
knit - f7 4
knit - f6 4
knit - f5 4
knit - f4 4
knit - f3 4
knit - f2 4
knit - f1 4
knit + b1 4
knit + b2 4
knit + b3 4
knit + b4 4
knit + b5 4
knit + b6 4
knit + b7 4
knit + b8 4
outhook 4
drop f1
drop f2
drop f3
drop f4
drop f5
drop f6
drop f7
drop f8
drop b1
drop b2
drop b3
drop b4
drop b5
drop b6
drop b7
drop b8
