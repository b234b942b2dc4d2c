;!knitout-2
;;Machine: SWG091N2
;;Carriers: 1 2 3 4 5 6
; Jacquard with a bird's eye back, two yarns.
rack 0.25
inhook 1
tuck - b8 1
tuck - f7 1
tuck - b6 1
tuck - f5 1
tuck - b4 1
tuck - f3 1
tuck - b2 1
tuck - f1 1
tuck + b1 1
tuck + f2 1
tuck + b3 1
tuck + f4 1
tuck + b5 1
tuck + f6 1
tuck + b7 1
tuck + f8 1
knit - b8 1
knit - f8 1
knit - b7 1
knit - f7 1
knit - b6 1
knit - f6 1
knit - b5 1
knit - f5 1
knit - b4 1
knit - f4 1
knit - b3 1
knit - f3 1
knit - b2 1
knit - f2 1
knit - b1 1
knit - f1 1
knit + f1 1
knit + b1 1
knit + f2 1
knit + b2 1
knit + f3 1
knit + b3 1
knit + f4 1
knit + b4 1
knit + f5 1
knit + b5 1
knit + f6 1
knit + b6 1
knit + f7 1
knit + b7 1
knit + f8 1
knit + b8 1
inhook 2
knit - b8 1
knit - b6 1
knit - f6 1
knit - f5 1
knit - b4 1
knit - b2 1
knit - f2 1
knit - f1 1
knit - f8 2
knit - b7 2
knit - f7 2
knit - b5 2
knit - f4 2
knit - b3 2
knit - f3 2
knit - b1 2
knit + f1 1
knit + b1 1
knit + b3 1
knit + f4 1
knit + f5 1
knit + b5 1
knit + b7 1
knit + f8 1
knit + f2 2
knit + b2 2
knit + f3 2
knit + b4 2
knit + f6 2
knit + b6 2
knit + f7 2
knit + b8 2
releasehook 2
knit - b8 1
knit - f8 1
knit - f7 1
knit - b6 1
knit - b4 1
knit - f4 1
knit - f3 1
knit - b2 1
knit - b7 2
knit - f6 2
knit - b5 2
knit - f5 2
knit - b3 2
knit - f2 2
knit - b1 2
knit - f1 2
knit + b1 1
knit + f2 1
knit + f3 1
knit + b3 1
knit + b5 1
knit + f6 1
knit + f7 1
knit + b7 1
knit + f1 2
knit + b2 2
knit + f4 2
knit + b4 2
knit + f5 2
knit + b6 2
knit + f8 2
knit + b8 2
outhook 2
outhook 1
rack 0
drop f1
drop f2
drop f3
drop f4
drop f5
drop f6
drop f7
drop f8
drop b1
drop b2
drop b3
drop b4
drop b5
drop b6
drop b7
drop b8
