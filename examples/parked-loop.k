;!knitout-2
;;Machine: SWG091N2
;;Gauge: 15
;;Carriers: 1 2 3 4 5 6 7 8 9 10
;;Position: Center
; A mistake: a loop is formed on a hook whose slider still holds one.
; The stitch of f3 is parked on the slider of the back bed, and b3 is knitted before the loop has come back.

inhook 4
tuck - f6 4
tuck - f5 4
tuck - f4 4
tuck - f3 4
tuck - f2 4
tuck - f1 4
releasehook 4
knit + f1 4
knit + f2 4
knit + f3 4
knit + f4 4
knit + f5 4
knit + f6 4
xfer f3 bs3 ; parked
rack 0.25
knit - b6 4
knit - b5 4
knit - b4 4
knit - b3 4
knit - b2 4
knit - b1 4
rack 0
xfer bs3 f3
outhook 4
