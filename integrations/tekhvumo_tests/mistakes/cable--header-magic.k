;!knitout 2
;;Machine: SWG091N2
;;Carriers: 1 2 3 4 5 6
; Two cables crossed over the back bed every fourth course.
inhook 4
tuck - f12 4
tuck - f10 4
tuck - f8 4
tuck - f6 4
tuck - f4 4
tuck - f2 4
tuck + f1 4
tuck + f3 4
tuck + f5 4
tuck + f7 4
tuck + f9 4
tuck + f11 4
knit - f12 4
knit - f11 4
knit - f10 4
knit - f9 4
knit - f8 4
knit - f7 4
knit - f6 4
knit - f5 4
knit - f4 4
knit - f3 4
knit - f2 4
knit - f1 4
knit + f1 4
knit + f2 4
knit + f3 4
knit + f4 4
knit + f5 4
knit + f6 4
knit + f7 4
knit + f8 4
knit + f9 4
knit + f10 4
knit + f11 4
knit + f12 4
releasehook 4
knit - f12 4
knit - f11 4
knit - f10 4
knit - f9 4
knit - f8 4
knit - f7 4
knit - f6 4
knit - f5 4
knit - f4 4
knit - f3 4
knit - f2 4
knit - f1 4
knit + f1 4
knit + f2 4
knit + f3 4
knit + f4 4
knit + f5 4
knit + f6 4
knit + f7 4
knit + f8 4
knit + f9 4
knit + f10 4
knit + f11 4
knit + f12 4
; cross
xfer f3 b3
xfer f4 b4
rack 1
xfer b3 f4
rack -1
xfer b4 f3
rack 0
xfer f8 b8
xfer f9 b9
rack 1
xfer b8 f9
rack -1
xfer b9 f8
rack 0
knit - f12 4
knit - f11 4
knit - f10 4
knit - f9 4
knit - f8 4
knit - f7 4
knit - f6 4
knit - f5 4
knit - f4 4
knit - f3 4
knit - f2 4
knit - f1 4
knit + f1 4
knit + f2 4
knit + f3 4
knit + f4 4
knit + f5 4
knit + f6 4
knit + f7 4
knit + f8 4
knit + f9 4
knit + f10 4
knit + f11 4
knit + f12 4
; cross
xfer f3 b3
xfer f4 b4
rack 1
xfer b3 f4
rack -1
xfer b4 f3
rack 0
xfer f8 b8
xfer f9 b9
rack 1
xfer b8 f9
rack -1
xfer b9 f8
rack 0
knit - f12 4
knit - f11 4
knit - f10 4
knit - f9 4
knit - f8 4
knit - f7 4
knit - f6 4
knit - f5 4
knit - f4 4
knit - f3 4
knit - f2 4
knit - f1 4
knit + f1 4
knit + f2 4
knit + f3 4
knit + f4 4
knit + f5 4
knit + f6 4
knit + f7 4
knit + f8 4
knit + f9 4
knit + f10 4
knit + f11 4
knit + f12 4
outhook 4
drop f1
drop f2
drop f3
drop f4
drop f5
drop f6
drop f7
drop f8
drop f9
drop f10
drop f11
drop f12
