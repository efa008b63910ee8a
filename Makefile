# The commands to begin with. `make`, `make test` and `make demo` need only a C compiler, and `make vectors` also Python. None of these four
# starts a proof.
#   make         builds the C library and its programs in dist/
#   make demo    runs a short script through the proved library's code
#   make test    runs the stored test cases and every step of FARM-1 (1 to 4 minutes)
#   make vectors writes test vectors for other receivers into the folder vectors, in seconds
#   make clean   removes what these built
#   make prove   proves and builds all programs, with the Rattle kit (25 minutes at first)
#   make ci      runs all proofs and all tests, with the Rattle kit (1 to 1 1/2 hours)
#   make help    prints this list
.PHONY: all demo test vectors clean prove ci help
all:
	$(MAKE) -C dist all programs
demo test:
	$(MAKE) -C dist $@
vectors:
	@$(MAKE) -s -C dist
	@tools/write_vectors $@
clean:
	$(MAKE) -C dist $@
	rm -rf vectors
prove:
	./tcrx --build
ci:
	.ci/run
help:
	@sed -n 's/^#   //p' Makefile
