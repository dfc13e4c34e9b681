# What a developer asks for. Each target calls what is there, and CONTRIBUTING.md says more of it. `make` prints this list.
.PHONY: help prove gate test test-bindings test-python test-cli test-faults test-memory test-sizes wrong uncited fuzz library library-plain bench speed docs release

help:           ## prints this list
	@sed -n 's/^\([a-z-]*\):.*## /\1\t/p' Makefile
prove:          ## proves each crate and its tests, and tries the must-fail edits
	rt ci
gate:           ## all that a merge needs, proofs too
	bash .ci/run
test:           ## plain Rust, and the library made of it from C, C++, Python and JavaScript: without a proof
	rust/test
test-bindings:  ## the proved library from C, C++, Python and JavaScript
	bindings/make
	bindings/test
test-python:    ## Python alone, over the library that is there: make test-python K='-k files'
	cd bindings/python && python3 -m pytest $(K)
test-cli:       ## the program over files: make test-cli K='-k search PROGRAM'
	tests/cli --fast $(K)
test-faults:    ## how programs end if they can't read or write
	tests/faults
test-memory:    ## what each call returns if an allocation fails
	tests/hostile/run refused
test-sizes:     ## that time and memory grow as hostile inputs do
	tests/hostile/run sizes
wrong:          ## tries all planted mistakes
	.ci/wrong --all
uncited:        ## lemmas that nothing cites, and imports that nothing uses
	python3 .ci/uncited.py --imports
fuzz:           ## what plain Rust finds, beside brute force, in a minute
	PROFILE=gate fuzz/run 3000
library:        ## proves and makes the library for C
	bindings/make
library-plain:  ## makes it of plain Rust, by cargo
	rust/zerotrie_c/make
bench:          ## how long calls take, beside the crate, std's maps and others
	benches/data
	benches/run calls
speed:          ## docs/SPEED.md anew
	benches/speed
docs:           ## the reference, and what else is made of the sources; then quotes, links and words
	docs/make
	python3 .ci/documents.py
release:        ## makes a release twice, and tries it
	release/make --again
	release/test
