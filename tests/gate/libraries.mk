# Proves the libraries below a crate side by side. The lines of crates.txt are rules of make, and tests/gate/build puts them
# before these lines.
NAMES := $(shell sed -n 's/^\(\w*\):.*/\1/p' crates.txt)
.DEFAULT_GOAL := $(BELOW)
.PHONY: $(NAMES)
$(filter-out $(BELOW),$(NAMES)):
	@cd crates/$@ && rt lib > ../../out/$@.log 2>&1 || { tail -n 20 ../../out/$@.log; exit 1; }
	@! grep -q '^logic=proved' out/$@.log || echo '  $@ proved'
$(BELOW): ;
.DEFAULT: ;
