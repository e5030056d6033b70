# make run: the examples, by the proved programs. make test: the whole gate. The others are not in the gate:
# make library: the static library with its header. make bench: the benchmark. make test-page: the page in a browser.
.PHONY: run test library bench test-page

run:
	@tools/run-example

test:
	@tools/gate

library:
	@tools/library

bench:
	@cargo run --quiet --offline --profile bench --bin bench --manifest-path tests/Cargo.toml

test-page:
	@tools/test-page
