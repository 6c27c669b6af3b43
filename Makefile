# `make example` replays an example before anything is proved; `make build` proves and builds `loginctl`; `make test`
# proves and tests all; `make times` does so from nothing and tells what each crate takes; `make bench` times the built
# programs beside others, and is for an idle machine.

.PHONY: example build test times bench

example:
	@cd crates/loginctl && rt try -- replay < ../../examples/native.script

build:
	@cd crates/loginctl && rt run -- frames < /dev/null > /dev/null
	@echo crates/loginctl/out/loginctl

test:
	@echo "Proves and tests every crate: from nothing about an hour on four processors, later what has changed."
	@.ci/run

times:
	@tests/times

bench:
	@cd crates/crypt_probe && rt run < /dev/null
	@bench/crypt
	@cd crates/loginctl && rt run -- frames < /dev/null
	@bench/frames
	@bench/replay
	@cd crates/stmt_probe && rt run < stdin > /dev/null
	@bench/statements
	@cd crates/turn_probe && rt run < stdin > /dev/null
	@bench/turns
	@cd crates/shared_probe && rt run < stdin > /dev/null
	@bench/shared
	@cd crates/keeper_probe && rt run < stdin > /dev/null
	@cd crates/socket_probe && rt run < stdin > /dev/null
	@bench/edge
	@cd crates/machine_probe && rt run < stdin > /dev/null
	@bench/machine
