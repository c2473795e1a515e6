# One target for each task; each calls a script that also works by itself.
PYTHON ?= /usr/bin/python3
.PHONY: help prove test check page wheel bench docs release

help: ## this list
	@sed -n 's/^\([a-z]*\):.*## /  make \1\t/p' Makefile | expand -t 18

prove: ## proves every crate, over what earlier checks have kept
	rt all check

test: ## tests everything except the proofs: reference, programs, C, Rust, Python, WebAssembly, the page in a browser
	cargo test --quiet --offline --manifest-path reference/Cargo.toml
	./run examples/printed-run.rec >/dev/null && ./run --exercise examples/printed-run.rec >/dev/null
	bindings/check

check: ## the checks that a change must pass before it lands: proofs from nothing, wrong programs, all tests; about half an hour from nothing
	.ci/run

page: ## target/wasm/nobyaluk.html, one file for a browser
	bindings/wasm/build

wheel: ## target/python: wheel and source archive
	bindings/install
	bindings/build --unless-built
	$(PYTHON) -m build --no-isolation --outdir target/python bindings/python

bench: ## compares the engine with Rust and C, then times them
	bench/run

docs: ## writes docs/contracts.txt, the version and the pictures; compares the documents with the sources
	tools/contracts --write
	tools/trace
	tools/version --write
	bindings/build --unless-built && bindings/pictures
	tools/documents && tools/definitions && tools/refusals

release: ## dist/ with all packages, from a clean tree that is proved and tested
	./release
