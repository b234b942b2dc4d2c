;!knitout-2
;;Machine: SWG091N2
;;Carriers: 1 2 3 4 5 6
; Interlock: odd needles of one bed with even ones of the other, two passes a course.
inhook 6
tuck - b10 6
tuck - f9 6
tuck - b8 6
tuck - f7 6
tuck - b6 6
tuck - f5 6
tuck - b4 6
tuck - f3 6
tuck - b2 6
tuck - f1 6
knit + f1 6
knit + b2 6
knit + f3 6
knit + b4 6
knit + f5 6
knit + b6 6
knit + f7 6
knit + b8 6
knit + f9 6
knit + b10 6
knit - b10 6
knit - f9 6
knit - b8 6
knit - f7 6
knit - b6 6
knit - f5 6
knit - b4 6
knit - f3 6
knit - b2 6
knit - f1 6
releasehook 6
knit + f1 6
knit + b2 6
knit + f3 6
knit + b4 6
knit + f5 6
knit + b6 6
knit + f7 6
knit + b8 6
knit + f9 6
knit + b10 6
knit - b10 6
knit - f9 6
knit - b8 6
knit - f7 6
knit - b6 6
knit - f5 6
knit - b4 6
knit - f3 6
knit - b2 6
knit - f1 6
knit + f1 6
knit + b2 6
knit + f3 6
knit + b4 6
knit + f5 6
knit + b6 6
knit + f7 6
knit + b8 6
knit + f9 6
knit + b10 6
knit - b10 6
knit - f9 6
knit - b8 6
knit - f7 6
knit - b6 6
knit - f5 6
knit - b4 6
knit - f3 6
knit - b2 6
knit - f1 6
outhook 6
