;!knitout-2
;;Machine: SWG091N2
;;Carriers: 1 2 3 4 5 6
; A tube on every other needle, so that loops can cross between the beds.
inhook 3
tuck - f9 3
tuck - f5 3
tuck - f1 3
tuck + b2 3
tuck + b6 3
tuck + b10 3
tuck - f7 3
tuck - f3 3
tuck + b4 3
tuck + b8 3
knit - f9 3
knit - f7 3
knit - f5 3
knit - f3 3
knit - f1 3
knit + b2 3
knit + b4 3
knit + b6 3
knit + b8 3
knit + b10 3
knit - f9 3
knit - f7 3
knit - f5 3
knit - f3 3
knit - f1 3
knit + b2 3
knit + b4 3
knit + b6 3
knit + b8 3
knit + b10 3
releasehook 3
knit - f9 3
knit - f7 3
knit - f5 3
knit - f3 3
knit - f1 3
knit + b2 3
knit + b4 3
knit + b6 3
knit + b8 3
knit + b10 3
knit - f9 3
knit - f7 3
knit - f5 3
knit - f3 3
knit - f1 3
knit + b2 3
knit + b4 3
knit + b6 3
knit + b8 3
knit + b10 3
outhook 3
drop f1
drop f3
drop f5
drop f7
drop f9
drop b2
drop b4
drop b6
drop b8
drop b10
