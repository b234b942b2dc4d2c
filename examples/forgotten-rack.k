;!knitout-2
;;Machine: SWG091N2
;;Gauge: 15
;;Carriers: 1 2 3 4 5 6 7 8 9 10
;;Position: Center
; A mistake: an eyelet whose transfer forgets to rack the beds back.
; The loop of f4 goes to the back bed, then to f5 at rack 1. The next eyelet begins while the rack is still 1.

in 2
tuck - f6 2
tuck - f5 2
tuck - f4 2
tuck - f3 2
tuck - f2 2
tuck - f1 2
knit + f1 2
knit + f2 2
knit + f3 2
knit + f4 2
knit + f5 2
knit + f6 2
; first eyelet
xfer f4 b4
rack 1
xfer b4 f5
; second eyelet: `rack 0` is missing here
xfer f2 b2
rack 1
xfer b2 f3
rack 0
out 2
