;!knitout-2
;;Machine: SWG091N2
;;Gauge: 15
;;Carriers: 1 2 3 4 5 6 7 8 9 10
;;Position: Center
; A stockinette swatch: eight wales, eight courses, on the front bed.
; Yarn 6 comes in on the yarn inserting hook, the cast-on tucks every other needle on the way left and the others on the
; way back, and the last course is dropped off the needles.

x-stitch-number 60
inhook 6
tuck - f8 6 ; cast on, leftward
tuck - f6 6 ; cast on, leftward
tuck - f4 6 ; cast on, leftward
tuck - f2 6 ; cast on, leftward
tuck + f1 6 ; cast on, rightward
tuck + f3 6 ; cast on, rightward
tuck + f5 6 ; cast on, rightward
tuck + f7 6 ; cast on, rightward
; the first course holds the yarn, so the hook can let go
knit - f8 6
knit - f7 6
knit - f6 6
knit - f5 6
knit - f4 6
knit - f3 6
knit - f2 6
knit - f1 6
releasehook 6
; course 2
knit + f1 6
knit + f2 6
knit + f3 6
knit + f4 6
knit + f5 6
knit + f6 6
knit + f7 6
knit + f8 6
; course 3
knit - f8 6
knit - f7 6
knit - f6 6
knit - f5 6
knit - f4 6
knit - f3 6
knit - f2 6
knit - f1 6
; course 4
knit + f1 6
knit + f2 6
knit + f3 6
knit + f4 6
knit + f5 6
knit + f6 6
knit + f7 6
knit + f8 6
; course 5
knit - f8 6
knit - f7 6
knit - f6 6
knit - f5 6
knit - f4 6
knit - f3 6
knit - f2 6
knit - f1 6
; course 6
knit + f1 6
knit + f2 6
knit + f3 6
knit + f4 6
knit + f5 6
knit + f6 6
knit + f7 6
knit + f8 6
; course 7
knit - f8 6
knit - f7 6
knit - f6 6
knit - f5 6
knit - f4 6
knit - f3 6
knit - f2 6
knit - f1 6
; course 8
knit + f1 6
knit + f2 6
knit + f3 6
knit + f4 6
knit + f5 6
knit + f6 6
knit + f7 6
knit + f8 6
outhook 6
; off the needles
drop f1
drop f2
drop f3
drop f4
drop f5
drop f6
drop f7
drop f8
