;!knitout-2
;;Machine: SWG091N2
;;Gauge: 15
;;Carriers: 1 2 3 4 5 6 7 8 9 10
;;Position: Center
; A mistake: a stripe that goes back to a yarn which was taken out.
; Yarn 1 is replaced by yarn 2 for two courses, and then knitted again without being brought in.

in 1
tuck - f6 1
tuck - f5 1
tuck - f4 1
tuck - f3 1
tuck - f2 1
tuck - f1 1
knit + f1 1
knit + f2 1
knit + f3 1
knit + f4 1
knit + f5 1
knit + f6 1
; the stripe
out 1
in 2
knit - f6 2
knit - f5 2
knit - f4 2
knit - f3 2
knit - f2 2
knit - f1 2
knit + f1 2
knit + f2 2
knit + f3 2
knit + f4 2
knit + f5 2
knit + f6 2
out 2
; back to yarn 1: `in 1` is missing here
knit - f6 1
knit - f5 1
knit - f4 1
knit - f3 1
knit - f2 1
knit - f1 1
out 1
