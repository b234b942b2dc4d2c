;!knitout-2
;;Machine: SWG091N2
;;Carriers: 1 2 3 4 5 6
; Each loop of two yarns.
inhook 1 2
tuck - f8 1 2
tuck - f6 1 2
tuck - f4 1 2
tuck - f2 1 2
tuck + f1 1 2
tuck + f3 1 2
tuck + f5 1 2
tuck + f7 1 2
knit - f8 1 2
knit - f7 1 2
knit - f6 1 2
knit - f5 1 2
knit - f4 1 2
knit - f3 1 2
knit - f2 1 2
knit - f1 1 2
knit + f1 1 2
knit + f2 1 2
knit + f3 1 2
knit + f4 1 2
knit + f5 1 2
knit + f6 1 2
knit + f7 1 2
knit + f8 1 2
releasehook 1 2
knit - f8 1 2
knit - f7 1 2
knit - f6 1 2
knit - f5 1 2
knit - f4 1 1
knit - f3 1 2
knit - f2 1 2
knit - f1 1 2
knit + f1 1 2
knit + f2 1 2
knit + f3 1 2
knit + f4 1 2
knit + f5 1 2
knit + f6 1 2
knit + f7 1 2
knit + f8 1 2
knit - f8 1 2
knit - f7 1 2
knit - f6 1 2
knit - f5 1 2
knit - f4 1 2
knit - f3 1 2
knit - f2 1 2
knit - f1 1 2
knit + f1 1 2
knit + f2 1 2
knit + f3 1 2
knit + f4 1 2
knit + f5 1 2
knit + f6 1 2
knit + f7 1 2
knit + f8 1 2
outhook 1
outhook 2
drop f1
drop f2
drop f3
drop f4
drop f5
drop f6
drop f7
drop f8
