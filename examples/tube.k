;!knitout-2
;;Machine: SWG091N2
;;Gauge: 15
;;Carriers: 1 2 3 4 5 6 7 8 9 10
;;Position: Center
; A tube: each round knits the front bed to the left and the back bed to the right.
; Seen from above the carriage goes round; the front and the back meet only at the sides.

inhook 5
tuck - f6 5
tuck - f4 5
tuck - f2 5
tuck + b1 5
tuck + b3 5
tuck + b5 5
tuck - f5 5
tuck - f3 5
tuck - f1 5
tuck + b2 5
tuck + b4 5
tuck + b6 5
; round 1
knit - f6 5
knit - f5 5
knit - f4 5
knit - f3 5
knit - f2 5
knit - f1 5
knit + b1 5
knit + b2 5
knit + b3 5
knit + b4 5
knit + b5 5
knit + b6 5
releasehook 5
; round 2
knit - f6 5
knit - f5 5
knit - f4 5
knit - f3 5
knit - f2 5
knit - f1 5
knit + b1 5
knit + b2 5
knit + b3 5
knit + b4 5
knit + b5 5
knit + b6 5
; round 3
knit - f6 5
knit - f5 5
knit - f4 5
knit - f3 5
knit - f2 5
knit - f1 5
knit + b1 5
knit + b2 5
knit + b3 5
knit + b4 5
knit + b5 5
knit + b6 5
; round 4
knit - f6 5
knit - f5 5
knit - f4 5
knit - f3 5
knit - f2 5
knit - f1 5
knit + b1 5
knit + b2 5
knit + b3 5
knit + b4 5
knit + b5 5
knit + b6 5
; round 5
knit - f6 5
knit - f5 5
knit - f4 5
knit - f3 5
knit - f2 5
knit - f1 5
knit + b1 5
knit + b2 5
knit + b3 5
knit + b4 5
knit + b5 5
knit + b6 5
outhook 5
