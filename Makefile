# What there is to do here. README.md says what each is for.
.PHONY: help demo lesson test desk install bench plot fuzz clean

help:
	@echo 'make demo    build everything for the desk and show a short day of it, and one at a fair'
	@echo 'make lesson  a tree for those who learn the rules, at a step (STEP=0 to 7)'
	@echo 'make test    every check there is: the gate (rt ci), and then the host tests'
	@echo 'make desk    build/: the library and programs with real Ed25519 (ED25519=sodium or openssl; ANEW=1: from nothing)'
	@echo 'make install puts library, header, programs and man pages under PREFIX (and DESTDIR)'
	@echo 'make bench   race the hash, the calls and the journal against plain C and libsodium alone'
	@echo 'make plot    draw docs/speed.svg from what the last make bench found'
	@echo 'make fuzz    hostile input for long, against the model and coverage-guided (SEED=, SECONDS=600)'
	@echo 'make clean   remove build/ and what rt keeps in crates/*/out/'

desk:
	@host/need gcc binutils libsodium-dev libssl-dev
	@desk/build

# what make desk has built, and it alone
install:
	@[ -x build/journal ] || $(MAKE) desk
	@PREFIX='$(PREFIX)' DESTDIR='$(DESTDIR)' desk/install

demo: desk
	@host/demo

STEP ?= 5
lesson:
	@[ -x build/show_tree ] || $(MAKE) desk
	@build/show_tree '$(STEP)'

test:
	@host/gate

bench: desk
	@host/need gcc libsodium-dev valgrind python3
	@desk/archive blake2b_race build/obj/libblake2b_race.a
	@host/bench/run

plot:
	@python3 host/bench/plot.py build/bench.tsv docs/speed.svg

SECONDS ?= 600
fuzz: desk
	@host/fuzz/run '$(SECONDS)' '$(SEED)'

clean:
	rm -rf build crates/*/out
