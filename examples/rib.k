;!knitout-2
;;Machine: SWG091N2
;;Gauge: 15
;;Carriers: 1 2 3 4 5 6 7 8 9 10
;;Position: Center
; A 2x2 rib: wales 1, 2, 5, 6 on the front bed, 3, 4, 7, 8 on the back bed.
; The beds stand at rack 0.25 while both knit, so that their needles pass one another; the swatch stays on the needles.

rack 0.25
inhook 3
tuck - b8 3
tuck - f6 3
tuck - b4 3
tuck - f2 3
tuck + f1 3
tuck + b3 3
tuck + f5 3
tuck + b7 3
knit - b8 3
knit - b7 3
knit - f6 3
knit - f5 3
knit - b4 3
knit - b3 3
knit - f2 3
knit - f1 3
releasehook 3
knit + f1 3
knit + f2 3
knit + b3 3
knit + b4 3
knit + f5 3
knit + f6 3
knit + b7 3
knit + b8 3
knit - b8 3
knit - b7 3
knit - f6 3
knit - f5 3
knit - b4 3
knit - b3 3
knit - f2 3
knit - f1 3
knit + f1 3
knit + f2 3
knit + b3 3
knit + b4 3
knit + f5 3
knit + f6 3
knit + b7 3
knit + b8 3
knit - b8 3
knit - b7 3
knit - f6 3
knit - f5 3
knit - b4 3
knit - b3 3
knit - f2 3
knit - f1 3
knit + f1 3
knit + f2 3
knit + b3 3
knit + b4 3
knit + f5 3
knit + f6 3
knit + b7 3
knit + b8 3
outhook 3
rack 0
