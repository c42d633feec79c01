# make install [PREFIX=FOLDER]: builds both programs, each proved first, and installs them with the page, by default in ~/.local.
PREFIX ?= $(HOME)/.local

SAMPLE = ../../examples/retransmission.pcap

.PHONY: build install install-built

build:
	cd crates/rasta_audit && rt run -- audit $(SAMPLE) $(SAMPLE:.pcap=.toml)
	cd crates/seatmelon && rt run -- survey $(SAMPLE)

install: build install-built

# Installs what stands in out/, proved or not.
install-built:
	scripts/install.sh "$(PREFIX)"
