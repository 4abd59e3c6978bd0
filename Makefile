# Proves the crates of the program, each once those that it stands on are proved, and as many side by side as memory
# holds; then builds the program, crates/hhh/out/hhh. `./hhh` calls this where the program is missing or a source was
# changed. How a crate is proved is in build/prove.py, which passes over one whose sources are as they were.

export KIT := $(patsubst %/,%,$(dir $(shell rt doc)))
ifeq ($(KIT),)
$(error this needs the toolchain's `rt` on the path)
endif
# A crate takes up to 2.5 GB. More of them than there are processors leave these to the crates that others wait for.
export JOBS := $(shell awk -v most="$$(($$(nproc) * 2))" \
    '/^MemAvailable/ { fit = int($$2 / 2500000); print fit < 1 ? 1 : fit < most ? fit : most }' /proc/meminfo)
MAKEFLAGS += --silent --jobs=$(JOBS)

program: hhh
	build/prove.py --link

# crates.txt has a rule for each crate: what it stands on. The libraries of the toolchain are proved already.
comma := ,
rules := $(shell sed -n 's/^\([a-z][a-z_0-9]*\)[^:]*: */\1:/p' crates.txt | tr ' ' ,)
$(foreach rule,$(rules),$(eval $(subst $(comma), ,$(rule))))
crates := $(foreach rule,$(rules),$(firstword $(subst :, ,$(rule))))
proved := $(basename $(notdir $(wildcard $(KIT)/rlibs/*.rlib)))

$(crates): begun
	build/prove.py $@

# `make check-NAME FLAGS=..` checks a crate while it is written, once those below are proved.
$(foreach rule,$(rules),$(eval check-$(subst $(comma), ,$(rule))))
check-%:
	build/prove.py --check $* $(FLAGS)
$(if $(filter check-%,$(MAKECMDGOALS)),$(eval export CHECKED := 1))

begun:
	build/prove.py --begin

$(proved): ;
.PHONY: program begun $(crates) $(proved)
