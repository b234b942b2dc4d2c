;!knitout-2
;;Machine: SWG091N2
;;Carriers: 1 2 3 4 5 6
; A triangle: a stitch less at both edges every second course.
inhook 4
tuck - f14 4
tuck - f12 4
tuck - f10 4
tuck - f8 4
tuck - f6 4
tuck - f4 4
tuck - f2 4
tuck + f1 4
tuck + f3 4
tuck + f5 4
tuck + f7 4
tuck + f9 4
tuck + f11 4
tuck + f13 4
knit - f14 4
knit - f13 4
knit - f12 4
knit - f11 4
knit - f10 4
knit - f9 4
knit - f8 4
knit - f7 4
knit - f6 4
knit - f5 4
knit - f4 4
knit - f3 4
knit - f2 4
knit - f1 4
knit + f1 4
knit + f2 4
knit + f3 4
knit + f4 4
knit + f5 4
knit + f6 4
knit + f7 4
knit + f8 4
knit + f9 4
knit + f10 4
knit + f11 4
knit + f12 4
knit + f13 4
knit + f14 4
releasehook 4
xfer f1 b1
rack 1
xfer b1 f2
rack 0
xfer f14 b14
rack -1
xfer b14 f13
rack 0
knit - f13 4
knit - f12 4
knit - f11 4
knit - f10 4
knit - f9 4
knit - f8 4
knit - f7 4
knit - f6 4
knit - f5 4
knit - f4 4
knit - f3 4
knit - f2 4
knit + f2 4
knit + f3 4
knit + f4 4
knit + f5 4
knit + f6 4
knit + f7 4
knit + f8 4
knit + f9 4
knit + f10 4
knit + f11 4
knit + f12 4
knit + f13 4
xfer f2 b2
rack 1
xfer b2 f3
rack 0
xfer f13 b13
rack -1
xfer b13 f12
rack 0
knit - f12 4
knit - f11 4
knit - f10 4
knit - f9 4
knit - f8 4
knit - f7 4
knit - f6 4
knit - f5 4
knit - f4 4
knit - f3 4
knit + f3 4
knit + f4 4
knit + f5 4
knit + f6 4
knit + f7 4
knit + f8 4
knit + f9 4
knit + f10 4
knit + f11 4
knit + f12 4
xfer f3 b3
rack 1
xfer b3 f4
rack 0
xfer f12 b12
rack -1
xfer b12 f11
rack 0
knit - f11 4
knit - f10 4
knit - f9 4
knit - f8 4
knit - f7 4
knit - f6 4
knit - f5 4
knit - f4 4
knit + f4 4
knit + f5 4
knit + f6 4
knit + f7 4
knit + f8 4
knit + f9 4
knit + f10 4
knit + f11 4
xfer f4 b4
rack 1
xfer b4 f5
rack 0
xfer f11 b11
rack -1
xfer b11 f10
rack 0
knit - f10 4
knit - f9 4
knit - f8 4
knit - f7 4
knit - f6 4
knit - f5 4
knit + f5 4
knit + f6 4
knit + f7 4
knit + f8 4
knit + f9 4
knit + f10 4
outhook 4
drop f5
drop f6
drop f7
drop f8
drop f9
drop f10
