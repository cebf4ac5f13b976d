.PHONY: demo new run check test edits

# Proves and builds the program, and shows what it answers to two requests of one connection.
demo:
	@tests/demo

# Makes a crate of your own, with a handler, a main and a test (docs/GUIDE.md): make new NAME=shop
new:
	@python3 tools/crate.py new "$(NAME)"

# Runs it on port 8000 without proofs: make run NAME=shop, with PORT=8001, COUNT=10 or SECONDS=60 for others than the usual
# values, or with ARGS="WORD.." for a program that takes other words.
run:
	@python3 tools/crate.py run "$(NAME)" $(if $(ARGS),-- $(ARGS),"$(or $(PORT),8000)" "$(or $(COUNT),1000)" "$(or $(SECONDS),3600)")

# Proves it, proves and runs its tests, and builds crates/NAME/out/NAME: make check NAME=shop
check:
	@python3 tools/crate.py check "$(NAME)"

# The gate: proofs, wrong bodies, tests, the stored run, refused allocations, and the tests from outside (docs/CONTRIBUTING.md). Of the
# wrong bodies it tries those that are due, and a few of the others.
test:
	@tests/run

# Tries every wrong body, whatever the record says; with PART=1/3 the first of three shares, for machines side by side.
edits:
	@python3 tests/must_fail.py --all $(if $(PART),--part $(PART))
