.DEFAULT_GOAL := help
.PHONY: help test archive bench mutants edits refusals

help:
	@echo 'make help      print the targets'
	@echo 'make test      run the test gate, .ci/run'
	@echo 'make archive   prove the C face and write crates/panbuckle_c/out/libpanbuckle_c.a'
	@echo 'make bench     time the library beside Boost.Polygon, std::sort and KLayout, some minutes; no part of the gate'
	@echo 'make edits     try the edits of tests/edits/ that have no fresh record, of all crates or of those named after it: half a minute each'
	@echo 'make refusals  write the numbers of the refusals into include/panbuckle.h, and say where else they are missing'
	@echo 'make mutants   have the prover check small edits of the code; it takes some hours, and is no part of the gate'

test:
	@.ci/run

archive:
	@cd crates/panbuckle_c && rt lib

bench:
	@python3 bench/bench.py

mutants:
	@tests/mutants

refusals:
	@python3 tests/refusals.py --write

# The words after `edits` are its crates, and do nothing as goals.
ifeq ($(firstword $(MAKECMDGOALS)),edits)
named := $(filter-out edits,$(MAKECMDGOALS))
.PHONY: $(named)
$(named): ; @:
endif

edits:
	@python3 tests/try_edits.py $(named)
