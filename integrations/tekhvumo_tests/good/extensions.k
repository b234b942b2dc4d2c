;!knitout-2
;;Machine: SWG091N2
;;Carriers: 1 2 3 4 5 6
; Extensions of machines, stitch sizes and pauses.
x-stitch-number 60
x-carrier-spacing 2
inhook 1
tuck - f6 1
tuck - f4 1
tuck - f2 1
tuck + f1 1
tuck + f3 1
tuck + f5 1
x-stitch-number 63
knit - f6 1
knit - f5 1
knit - f4 1
knit - f3 1
knit - f2 1
knit - f1 1
knit + f1 1
knit + f2 1
knit + f3 1
knit + f4 1
knit + f5 1
knit + f6 1
releasehook 1
stitch 20 10
pause look at the cast-on
x-speed-number 400
knit - f6 1
knit - f5 1
knit - f4 1
knit - f3 1
knit - f2 1
knit - f1 1
knit + f1 1
knit + f2 1
knit + f3 1
knit + f4 1
knit + f5 1
knit + f6 1
x-roller-advance 300
outhook 1
drop f1
drop f2
drop f3
drop f4
drop f5
drop f6
