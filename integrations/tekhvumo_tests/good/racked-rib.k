;!knitout-2
;;Machine: SWG091N2
;;Carriers: 1 2 3 4 5 6
; A half-gauge rib whose back bed racks by three and back.
inhook 5
tuck - f9 5
tuck - f7 5
tuck - f5 5
tuck - f3 5
tuck - f1 5
tuck + b2 5
tuck + b4 5
tuck + b6 5
tuck + b8 5
rack 0
knit - f9 5
knit - b8 5
knit - f7 5
knit - b6 5
knit - f5 5
knit - b4 5
knit - f3 5
knit - b2 5
knit - f1 5
rack 2
knit + f1 5
knit + f3 5
knit + b2 5
knit + f5 5
knit + b4 5
knit + f7 5
knit + b6 5
knit + f9 5
knit + b8 5
releasehook 5
rack 0
knit - f9 5
knit - b8 5
knit - f7 5
knit - b6 5
knit - f5 5
knit - b4 5
knit - f3 5
knit - b2 5
knit - f1 5
rack -2
knit + b2 5
knit + f1 5
knit + b4 5
knit + f3 5
knit + b6 5
knit + f5 5
knit + b8 5
knit + f7 5
knit + f9 5
rack 0
knit - f9 5
knit - b8 5
knit - f7 5
knit - b6 5
knit - f5 5
knit - b4 5
knit - f3 5
knit - b2 5
knit - f1 5
rack 0
knit + f1 5
knit + b2 5
knit + f3 5
knit + b4 5
knit + f5 5
knit + b6 5
knit + f7 5
knit + b8 5
knit + f9 5
outhook 5
drop f1
drop f2
drop f3
drop f4
drop f5
drop f6
drop f7
drop f8
drop f9
drop b1
drop b2
drop b3
drop b4
drop b5
drop b6
drop b7
drop b8
drop b9
