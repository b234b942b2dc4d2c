;!knitout-2
;;Machine: SWG091N2
;;Carriers: 1 2 3 4 5 6
; A swatch about needle 0.
inhook 3
tuck - f4 3
tuck - f2 3
tuck - f0 3
tuck - f-2 3
tuck - f-4 3
tuck + f-5 3
tuck + f-3 3
tuck + f-1 3
tuck + f1 3
tuck + f3 3
knit - f4 3
knit - f3 3
knit - f2 3
knit - f1 3
knit - f0 3
knit - f-1 3
knit - f-2 3
knit - f-3 3
knit - f-4 3
knit - f-5 3
knit + f-5 3
knit + f-4 3
knit + f-3 3
knit + f-2 3
knit + f-1 3
knit + f0 3
knit + f1 3
knit + f2 3
knit + f3 3
knit + f4 3
releasehook 3
knit - f4 3
knit - f3 3
knit - f2 3
knit - f1 3
knit - f0 3
knit - f-1 3
knit - f-2 3
knit - f-3 3
knit - f-4 3
knit - f-5 3
knit + f-5 3
knit + f-4 3
knit + f-3 3
knit + f-2 3
knit + f-1 3
knit + f0 3
knit + f1 3
knit + f2 3
knit + f3 3
knit + f4 3
knit - f4 3
knit - f3 3
knit - f2 3
knit - f1 3
knit - f0 3
knit - f-1 3
knit - f-2 3
knit - f-3 3
knit - f-4 3
knit - f-5 3
knit + f-5 3
knit + f-4 3
knit + f-3 3
knit + f-2 3
knit + f-1 3
knit + f0 3
knit + f1 3
knit + f2 3
knit + f3 3
knit + f4 3
outhook 3
drop f-5
drop f-4
drop f-3
drop f-2
drop f-1
drop f0
drop f1
drop f2
drop f3
drop f4
