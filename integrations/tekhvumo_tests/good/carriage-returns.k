;!knitout-2
;;Machine: SWG091N2
;;Carriers: 1 2 3 4 5 6
; Lines end as on Windows, and tabs part some words.
inhook 1
tuck - f6 1
tuck - f4 1
tuck - f2 1
tuck + f1 1
tuck + f3 1
tuck + f5 1
knit	- f6 1
knit	- f5 1
knit	- f4 1
knit	- f3 1
knit	- f2 1
knit	- f1 1
knit + f1 1
knit + f2 1
knit + f3 1
knit + f4 1
knit + f5 1
knit + f6 1
releasehook 1
knit	- f6 1
knit	- f5 1
knit	- f4 1
knit	- f3 1
knit	- f2 1
knit	- f1 1
knit + f1 1
knit + f2 1
knit + f3 1
knit + f4 1
knit + f5 1
knit + f6 1
outhook 1
drop f1
drop f2
drop f3
drop f4
drop f5
drop f6
