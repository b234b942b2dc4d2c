;!knitout-2
;;Machine: SWG091N2
;;Carriers: 1 2 3 4 5 6
; A 2x2 rib, wales 1 2 5 6 on the front bed.
rack 0.25
inhook 3
tuck - f10 3
tuck - b8 3
tuck - f6 3
tuck - b4 3
tuck - f2 3
tuck + f1 3
tuck + b3 3
tuck + f5 3
tuck + b7 3
tuck + f9 3
knit - f10 3
knit - f9 3
knit - b8 3
knit - b7 3
knit - f6 3
knit - f5 3
knit - b4 3
knit - b3 3
knit - f2 3
knit - f1 3
knit + f1 3
knit + f2 3
knit + b3 3
knit + b4 3
knit + f5 3
knit + f6 3
knit + b7 3
knit + b8 3
knit + f9 3
knit + f10 3
releasehook 3
knit - f10 3
knit - f9 3
knit - b8 3
knit - b7 3
knit - f6 3
knit - f5 3
knit - b4 3
knit - b3 3
knit - f2 3
knit - f1 3
knit + f1 3
knit + f2 3
knit + b3 3
knit + b4 3
knit + f5 3
knit + f6 3
knit + b7 3
knit + b8 3
knit + f9 3
knit + f10 3
knit - f10 3
knit - f9 3
knit - b8 3
knit - b7 3
knit - f6 3
knit - f5 3
knit - b4 3
knit - b3 3
knit - f2 3
knit - f1 3
knit + f1 3
knit + f2 3
knit + b3 3
knit + b4 3
knit + f5 3
knit + f6 3
knit + b7 3
knit + b8 3
knit + f9 3
knit + f10 3
outhook 3
rack 0
