# Builds, tests and installs mpiwait. Each of these is a script of its own, which says more.

PREFIX = /usr/local

.PHONY: build quick test install

# Proves and builds the program, by the Rattle kit: an hour or two.
build:
	./mpiwait build

# Everything but the proofs: minutes.
quick:
	tests/quick

# The gate, which proves it all.
test:
	rt ci

# Into PREFIX, below DESTDIR if that is set.
install:
	release/make --install "$(PREFIX)"
