;!knitout-2
;;Machine: SWG091N2
;;Carriers: 1 2 3 4 5 6
; Seed stitch: front and back change from needle to needle and from course to course.
inhook 2
tuck - f8 2
tuck - f6 2
tuck - f4 2
tuck - f2 2
tuck + f1 2
tuck + f3 2
tuck + f5 2
tuck + f7 2
knit - f8 2
knit - f7 2
knit - f6 2
knit - f5 2
knit - f4 2
knit - f3 2
knit - f2 2
knit - f1 2
knit + f1 2
knit + f2 2
knit + f3 2
knit + f4 2
knit + f5 2
knit + f6 2
knit + f7 2
knit + f8 2
releasehook 2
xfer f1 b1
xfer f3 b3
xfer f5 b5
xfer f7 b7
knit - f8 2
knit - b7 2
knit - f6 2
knit - b5 2
knit - f4 2
knit - b3 2
knit - f2 2
knit - b1 2
xfer b1 f1
xfer f2 b2
xfer b3 f3
xfer f4 b4
xfer b5 f5
xfer f6 b6
xfer b7 f7
xfer f8 b8
knit + f1 2
knit + b2 2
knit + f3 2
knit + b4 2
knit + f5 2
knit + b6 2
knit + f7 2
knit + b8 2
xfer f1 b1
xfer b2 f2
xfer f3 b3
xfer b4 f4
xfer f5 b5
xfer b6 f6
xfer f7 b7
xfer b8 f8
knit - f8 2
knit - b7 2
knit - f6 2
knit - b5 2
knit - f4 2
knit - b3 2
knit - f2 2
knit - b1 2
xfer b1 f1
xfer f2 b2
xfer b3 f3
xfer f4 b4
xfer b5 f5
xfer f6 b6
xfer b7 f7
xfer f8 b8
knit + f1 2
knit + b2 2
knit + f3 2
knit + b4 2
knit + f5 2
knit + b6 2
knit + f7 2
knit + b8 2
outhook 2
drop f1
drop b2
drop f3
drop b4
drop f5
drop b6
drop f7
drop b8
