;!knitout-2
;;Machine: SWG091N2
;;Carriers: 1 2 3 4 5 6
; A tube in the round, front to the left and back to the right.
inhook 5
tuck - f8 5
tuck - f6 5
tuck - f4 5
tuck - f2 5
tuck + b1 5
tuck + b3 5
tuck + b5 5
tuck + b7 5
tuck - f7 5
tuck - f5 5
tuck - f3 5
tuck - f1 5
tuck + b2 5
tuck + b4 5
tuck + b6 5
tuck + b8 5
; round 1
knit - f8 5
knit - f7 5
knit - f6 5
knit - f5 5
knit - f4 5
knit - f3 5
knit - f2 5
knit - f1 5
knit + b1 5
knit + b2 5
knit + b3 5
knit + b4 5
knit + b5 5
knit + b6 5
knit + b7 5
knit + b8 5
; round 2
knit - f8 5
knit - f7 5
knit - f6 5
knit - f5 5
knit - f4 5
knit - f3 5
knit - f2 5
knit - f1 5
knit + b1 5
knit + b2 5
knit + b3 5
knit + b4 5
knit + b5 5
knit + b6 5
knit + b7 5
knit + b8 5
releasehook 5
# round 3
knit - f8 5
knit - f7 5
knit - f6 5
knit - f5 5
knit - f4 5
knit - f3 5
knit - f2 5
knit - f1 5
knit + b1 5
knit + b2 5
knit + b3 5
knit + b4 5
knit + b5 5
knit + b6 5
knit + b7 5
knit + b8 5
; round 4
knit - f8 5
knit - f7 5
knit - f6 5
knit - f5 5
knit - f4 5
knit - f3 5
knit - f2 5
knit - f1 5
knit + b1 5
knit + b2 5
knit + b3 5
knit + b4 5
knit + b5 5
knit + b6 5
knit + b7 5
knit + b8 5
; round 5
knit - f8 5
knit - f7 5
knit - f6 5
knit - f5 5
knit - f4 5
knit - f3 5
knit - f2 5
knit - f1 5
knit + b1 5
knit + b2 5
knit + b3 5
knit + b4 5
knit + b5 5
knit + b6 5
knit + b7 5
knit + b8 5
; round 6
knit - f8 5
knit - f7 5
knit - f6 5
knit - f5 5
knit - f4 5
knit - f3 5
knit - f2 5
knit - f1 5
knit + b1 5
knit + b2 5
knit + b3 5
knit + b4 5
knit + b5 5
knit + b6 5
knit + b7 5
knit + b8 5
outhook 5
drop f1
drop f2
drop f3
drop f4
drop f5
drop f6
drop f7
drop f8
drop b1
drop b2
drop b3
drop b4
drop b5
drop b6
drop b7
drop b8
