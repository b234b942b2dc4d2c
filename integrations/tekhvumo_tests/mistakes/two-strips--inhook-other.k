;!knitout-2
;;Machine: SWG091N2
;;Carriers: 1 2 3 4 5 6
; Two strips side by side, each with its own carrier.
inhook 1
tuck - f6 1
tuck - f4 1
tuck - f2 1
tuck + f1 1
tuck + f3 1
tuck + f5 1
knit - f6 1
knit - f5 1
knit - f4 1
knit - f3 1
knit - f2 1
knit - f1 1
knit + f1 1
knit + f2 1
knit + f3 1
knit + f4 1
knit + f5 1
knit + f6 1
releasehook 1
inhook 3
tuck - f14 2
tuck - f12 2
tuck - f10 2
tuck + f9 2
tuck + f11 2
tuck + f13 2
knit - f14 2
knit - f13 2
knit - f12 2
knit - f11 2
knit - f10 2
knit - f9 2
knit + f9 2
knit + f10 2
knit + f11 2
knit + f12 2
knit + f13 2
knit + f14 2
releasehook 2
knit - f6 1
knit - f5 1
knit - f4 1
knit - f3 1
knit - f2 1
knit - f1 1
knit + f1 1
knit + f2 1
knit + f3 1
knit + f4 1
knit + f5 1
knit + f6 1
knit - f14 2
knit - f13 2
knit - f12 2
knit - f11 2
knit - f10 2
knit - f9 2
knit + f9 2
knit + f10 2
knit + f11 2
knit + f12 2
knit + f13 2
knit + f14 2
knit - f6 1
knit - f5 1
knit - f4 1
knit - f3 1
knit - f2 1
knit - f1 1
knit + f1 1
knit + f2 1
knit + f3 1
knit + f4 1
knit + f5 1
knit + f6 1
knit - f14 2
knit - f13 2
knit - f12 2
knit - f11 2
knit - f10 2
knit - f9 2
knit + f9 2
knit + f10 2
knit + f11 2
knit + f12 2
knit + f13 2
knit + f14 2
outhook 1
outhook 2
drop f1
drop f2
drop f3
drop f4
drop f5
drop f6
drop f9
drop f10
drop f11
drop f12
drop f13
drop f14
