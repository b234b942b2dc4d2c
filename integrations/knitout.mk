# Rules for knitout files: after `include knitout.mk`, `make knitout` checks all of them that have changed, and
# `make NAME.svg` draws NAME.k. Make can't do with blanks in names.
KNITOUT ?= $(wildcard *.k)
TEKHVUMO ?= tekhvumo

.PHONY: knitout
knitout: $(KNITOUT:=.sound)

# NAME.k.sound is there once NAME.k was found to break no rule.
%.k.sound: %.k
	$(TEKHVUMO) -- '$<'
	@touch '$@'

%.svg: %.k
	$(TEKHVUMO) draw -- '$<' > '$@.new'
	@mv '$@.new' '$@'
