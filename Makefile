# `make try` plays the stored script, or SCRIPT=FILE, and proves nothing. `make run` proves and runs the script program on the stored one;
# `make serve` proves and starts the server with as many items as its budget allows, `make pool` two servers and a proxy in front of them on
# free ports; `make test` is the merge gate. `make install` proves and builds the three programs, and puts them with their manual pages and
# systemd units below PREFIX. `make deb` makes a Debian package of the three in dist/, and `make release` all files of a release; GATE=FILE
# names a file with what `make test` printed.
# What a program needs is proved side by side (`prove.py`); `rt run` then finds nothing to prove.
.PHONY: try run serve pool install deb release test

SCRIPT = crates/mc_sim/stdin
PREFIX = /usr/local
PROGRAMS = mc_serverd mc_proxyd mc_sim
GATE =

ifeq ($(shell command -v rt 2> /dev/null),)
$(error the Rattle toolchain is missing: its command `rt` is not on the PATH (`rt version` names the toolchain))
endif

try:
	@echo 'not proved yet: make run proves it' >&2
	@cd crates/mc_sim && rt try < '$(abspath $(SCRIPT))'

run:
	@./prove.py mc_sim
	@cd crates/mc_sim && rt run < stdin

serve:
	@./prove.py mc_serverd
	@crates/mc_serverd/out/mc_serverd --items auto --cas-from now

pool:
	@./prove.py mc_serverd mc_proxyd
	@tests/by_hand/pool.py crates/mc_proxyd/out/mc_proxyd crates/mc_serverd/out/mc_serverd

install:
	@./prove.py $(PROGRAMS)
	@install/install.sh $(DESTDIR)$(PREFIX) $(PREFIX) $(PROGRAMS)

deb:
	@./prove.py $(PROGRAMS)
	@install/deb.sh $(PROGRAMS)

release:
	@install/release.sh --unchanged
	@./prove.py $(PROGRAMS)
	@install/release.sh "$(GATE)" $(PROGRAMS)

test:
	@tests/gate.sh
