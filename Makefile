# Builds the library for C and Rust. `make` proves and builds it in library/; `make install PREFIX=FOLDER` also installs it with its headers.
PREFIX ?= /usr/local

.PHONY: library install

library:
	./build_library

install:
	./build_library --install "$(PREFIX)"
