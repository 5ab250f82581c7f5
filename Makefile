# `make help` lists what there is. Each target is a script that does the work, and says at its top what it needs.
PREFIX = /usr/local
CRATE =

.PHONY: all help try demo quick check test install uninstall deb
all: ## builds the mount, and proves and builds lockd: half an hour from nothing
	@dev/needs build
	@programs/mount/build
	@dev/build

help: ## prints this list
	@sed -n 's/^\([a-z]*\): ## \(.*\)/make \1|\2/p' Makefile | awk -F '|' '{ printf "%-16s%s\n", $$1, $$2 }'

try: ## runs lockd on a small script with no proof: two minutes
	@dev/needs build
	@echo 'lockd is built with no proof, which takes two minutes, and then prints requests (ask) and its replies (tell)'
	cd crates/lockd && rt try < stdin

demo: ## shows two processes that want one lock, with what was built
	@dev/needs demo
	@dev/demo

quick: ## tries the whole tree with no proof: minutes
	dev/quick

check: ## proves one crate, its tests and its edits: make check CRATE=fl_dir
	@dev/needs build
	dev/check $(CRATE)

test: ## the whole gate: an hour and more
	@dev/needs test
	.ci/run

install: ## installs what was built: make install PREFIX=/usr/local
	dist/install '$(PREFIX)' $(if $(DESTDIR),'$(DESTDIR)')

uninstall: ## removes what was installed there: make uninstall PREFIX=/usr/local
	dist/install --uninstall '$(PREFIX)' $(if $(DESTDIR),'$(DESTDIR)')

deb: ## makes a Debian package of what was built, and prints its path
	dist/package
