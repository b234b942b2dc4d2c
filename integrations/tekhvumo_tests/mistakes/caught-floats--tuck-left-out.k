;!knitout-2
;;Machine: ShortFloats
;;Carriers: 1 2 3 4 5 6
; Two yarns a course; tucks catch what would float too far.
inhook 1
tuck - f12 1
tuck - f10 1
tuck - f8 1
tuck - f6 1
tuck - f4 1
tuck - f2 1
tuck + f1 1
tuck + f3 1
tuck + f5 1
tuck + f7 1
tuck + f9 1
tuck + f11 1
knit - f12 1
knit - f11 1
knit - f10 1
knit - f9 1
knit - f8 1
knit - f7 1
knit - f6 1
knit - f5 1
knit - f4 1
knit - f3 1
knit - f2 1
knit - f1 1
knit + f1 1
knit + f2 1
knit + f3 1
knit + f4 1
knit + f5 1
knit + f6 1
knit + f7 1
knit + f8 1
knit + f9 1
knit + f10 1
knit + f11 1
knit + f12 1
releasehook 1
inhook 2
knit - f12 1
knit - f11 1
tuck - f8 1
tuck - f5 1
knit - f2 1
knit - f1 1
knit - f10 2
knit - f9 2
knit - f8 2
knit - f7 2
knit - f6 2
knit - f5 2
knit - f4 2
knit - f3 2
knit + f1 1
knit + f2 1
tuck + f5 1
tuck + f8 1
knit + f11 1
knit + f12 1
knit + f3 2
knit + f4 2
knit + f5 2
knit + f6 2
knit + f7 2
knit + f8 2
knit + f9 2
knit + f10 2
releasehook 2
knit - f12 1
knit - f11 1
knit - f10 1
knit - f3 1
knit - f2 1
knit - f1 1
knit - f9 2
knit - f8 2
knit - f7 2
knit - f6 2
knit - f5 2
knit - f4 2
knit + f1 1
knit + f2 1
knit + f3 1
tuck + f6 1
knit + f10 1
knit + f11 1
knit + f12 1
knit + f4 2
knit + f5 2
knit + f6 2
knit + f7 2
knit + f8 2
knit + f9 2
knit - f12 1
knit - f11 1
knit - f10 1
knit - f9 1
knit - f8 1
knit - f7 1
knit - f6 2
knit - f5 2
knit - f4 2
knit - f3 2
knit - f2 2
knit - f1 2
outhook 2
knit + f7 1
knit + f8 1
knit + f9 1
knit + f10 1
knit + f11 1
knit + f12 1
knit - f12 1
knit - f11 1
knit - f10 1
knit - f9 1
knit - f8 1
knit - f7 1
knit - f6 1
knit - f5 1
knit - f4 1
knit - f3 1
knit - f2 1
knit - f1 1
knit + f1 1
knit + f2 1
knit + f3 1
knit + f4 1
knit + f5 1
knit + f6 1
knit + f7 1
knit + f8 1
knit + f9 1
knit + f10 1
knit + f11 1
knit + f12 1
outhook 1
drop f1
drop f2
drop f3
drop f4
drop f5
drop f6
drop f7
drop f8
drop f9
drop f10
drop f11
drop f12
