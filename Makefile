.PHONY: programs run test lib c fuzz faults bench fmt clean

# Proves and builds the programs: target/bin/office and target/bin/inspect.
programs:
	@mkdir -p target/bin target/log && for p in office inspect; do \
	(cd crates/$$p && rt run -- --help) >target/log/$$p 2>&1 || { cat target/log/$$p; exit 1; }; cp crates/$$p/out/$$p target/bin/ || exit 1; done

# Serves a day with updates, checks journeys, and turns away a plan that cannot be used.
run: programs
	@for c in "office four-piers.requests" "inspect six-piers.journeys" "office one-name-twice.plan"; do set -- $$c; echo "$$1 examples/$$2"; target/bin/$$1 examples/$$2; done

# The gate: every crate proved from nothing, every must-fail edit refused, every program and test run; and a short round of
# random requests.
test:
	@.ci/run

# The proved code beside plain Rust that does the same: a table of times and ratios.
bench:
	@(cd crates/race && rt lib) >/dev/null && mkdir -p target/bench && \
	rustc -C opt-level=3 --edition 2024 bench/main.rs -L native=crates/race/out -o target/bench/race && target/bench/race

# The static library for C and Rust; include/yewcribbage.h has its functions.
lib:
	@c/lib
	@echo "target/lib/libyewcribbage.a"
	@echo "C:    cc -Iinclude program.c -Ltarget/lib -lyewcribbage -o program"
	@echo "Rust: rustc program.rs -L native=target/lib -l static=yewcribbage"

# The office in C over that library, beside the office.
c: programs
	@c/build && c/compare

# A long round: random requests through the C interface, compared with the rules written a second time, in Rust.
N = 1000000
SEED = 1
fuzz:
	@fuzz/run $(N) $(SEED)

# Would that round see a fault? Turns the rules, one by one.
faults:
	@fuzz/try-faults

fmt:
	@for c in crates/*; do (cd $$c && rt fmt) || exit 1; done

clean:
	rm -rf target crates/*/out
