;!knitout-2
;;Carriers: A B
; Carriers come in and go out without the hook.
in A
tuck - f7 A
tuck - f5 A
tuck - f3 A
tuck - f1 A
tuck + f2 A
tuck + f4 A
tuck + f6 A
knit - f7 A
knit - f6 A
knit - f5 A
knit - f4 A
knit - f3 A
knit - f2 A
knit - f1 A
knit + f1 A
knit + f2 A
knit + f3 A
knit + f4 A
knit + f5 A
knit + f6 A
knit + f7 A
knit - f7 A
knit - f6 A
knit - f5 A
knit - f4 A
knit - f3 A
knit - f2 A
knit - f1 A
knit + f1 A
knit + f2 A
knit + f3 A
knit + f4 A
knit + f5 A
knit + f6 A
knit + f7 A
in B
knit - f7 B
knit - f6 B
knit - f5 B
knit - f4 B
knit - f3 B
knit - f2 B
knit - f1 B
knit + f1 B
knit + f2 B
knit + f3 B
knit + f4 B
knit + f5 B
knit + f6 B
knit + f7 B
out B
knit - f7 A
knit - f6 A
knit - f5 A
knit - f4 A
knit - f3 A
knit - f2 A
knit - f1 A
knit + f1 A
knit + f2 A
knit + f3 A
knit + f4 A
knit + f5 A
knit + f6 A
knit + f7 A
out A
drop f1
drop f2
drop f3
drop f4
drop f5
drop f6
drop f7
