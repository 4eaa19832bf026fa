# Each target is a line or two over the toolchain's command `rt`.

PREFIX ?= /usr/local
PROGRAM = crates/agxx_main/out/agxx_main

# `rt try` runs the program in a folder of its own, with copies of the files that it is told: the words of ARGS that name files here.
COPIES = $(foreach word,$(filter-out /%,$(ARGS)),$(if $(wildcard $(word)),--data $(word)=$(abspath $(word))))

.PHONY: all try run check install

# Proves and builds the program. Where it was never built, all that it stands on is proved first, JOBS crates at a time.
all:
	@test -e $(PROGRAM) || echo "Proving everything from nothing takes some 150 processor minutes: about 50 minutes on four processors (with JOBS=4)." >&2
	@test -e $(PROGRAM) || { cd crates/agxx_main && rt all check $(if $(JOBS),--jobs $(JOBS)) >&2; }
	@cd crates/agxx_main && rt run -- exec data/a.cc >/dev/null

# Runs the program without proving it.
try:
	@cd crates/agxx_main && rt try $(COPIES) -- $(ARGS)

# Runs the proved program.
run: all
	@$(PROGRAM) $(ARGS)

# All checks, which are also what CI runs.
check:
	.ci/run

install: all
	install -D $(PROGRAM) $(DESTDIR)$(PREFIX)/bin/agxx
